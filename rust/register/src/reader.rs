//! A register that is lent to be read.
use crate::{LookBack, OPEN, Refusal, Settings, Window, calls};
use core::fmt;

/// Numbers of the head's words that are read here (docs/LAYOUT.md).
const OPENED: usize = 5;
const CLOCK: usize = 6;

/// A register in words that are lent to be read only: for a store that is mapped without leave to write, and for
/// threads that look back side by side.
///
/// ```
/// use register::{Reader, Register, Settings};
///
/// let settings = Settings::new(4, 2, 8, 16)?;
/// let mut store = vec![0; settings.words()];
/// Register::start(&mut store, settings)?.set(10, 3, -25)?;
///
/// let reader = Reader::open(&store)?;
/// std::thread::scope(|scope| {
///     for second in 9..=10 {
///         scope.spawn(move || {
///             let (mut rows, mut list) = (vec![0; settings.row_words()], vec![0; settings.list_words()]);
///             let told = reader.look_back(second, &mut rows, &mut list).unwrap();
///             assert_eq!(told.rows().len(), usize::from(second == 10));
///         });
///     }
/// });
/// # Ok::<(), register::Refusal>(())
/// ```
#[derive(Clone, Copy)]
pub struct Reader<'a> {
    store: &'a [u32],
}

impl<'a> Reader<'a> {
    /// Opens a store that a start, and perhaps changes after it, left, by this [version](crate#versions). The words
    /// beyond its layout are not looked at.
    ///
    /// The register itself tests the head: it is asked for a look-back at [`OPEN`], which is no second. That call is
    /// always refused and so writes nothing, and since the refusals have an order, it is refused with
    /// [`Refusal::TimeOpen`] exactly if head and length pass their tests. So nothing of these tests is written down
    /// here a second time. What the blocks hold is not tested: a call that needs an unsound word of them refuses.
    ///
    /// # Errors
    ///
    /// [`Refusal::ShortHead`], [`Refusal::Head`], [`Refusal::ShortStore`].
    pub fn open(store: &'a [u32]) -> Result<Reader<'a>, Refusal> {
        match Refusal::result_of(calls::look_back(store, OPEN, &mut [], &mut [], &mut [0; 6])) {
            Err(Refusal::TimeOpen) => Ok(Reader { store }),
            Err(refusal) => Err(refusal),
            Ok(()) => unreachable!("a look-back at OPEN is refused"),
        }
    }

    /// A store whose head has passed its test; the register has kept it so.
    pub(crate) fn of(store: &'a [u32]) -> Reader<'a> {
        Reader { store }
    }

    /// The settings that the register was started with.
    #[must_use]
    pub fn settings(&self) -> Settings {
        Settings::of_head(self.store)
    }

    /// The second of the last accepted change or clock move; 0 after a start.
    #[must_use]
    pub fn clock(&self) -> u32 {
        self.store[CLOCK]
    }

    /// How many blocks can still be opened. A change opens one at most, so as long as this is not 0 no call is refused
    /// with [`Refusal::OutOfBlocks`].
    #[must_use]
    pub fn blocks_left(&self) -> u32 {
        self.settings().blocks() - self.store[OPENED]
    }

    /// All words of the store, those beyond its layout too: what a copy must hold.
    #[must_use]
    pub fn as_words(&self) -> &'a [u32] {
        self.store
    }

    /// What stood at a second up to the clock; at the clock, the state so far. `rows` needs
    /// [`Settings::row_words`], `list` [`Settings::list_words`] words, and their contents do not matter.
    ///
    /// # Errors
    ///
    /// [`Refusal::TimeOpen`], [`Refusal::Late`], [`Refusal::ShortBuffer`]; [`Refusal::Unsound`], with both buffers
    /// filled with zeros, if something else wrote the store.
    pub fn look_back<'b>(
        &self,
        second: u32,
        rows: &'b mut [u32],
        list: &'b mut [u32],
    ) -> Result<LookBack<&'b [u32]>, Refusal> {
        let mut answer = [0; 6];
        Refusal::result_of(calls::look_back(self.store, second, rows, list, &mut answer))?;
        Ok(LookBack::new(rows, list, answer, |words, count| &words[..count]))
    }

    /// What stood at some second from `first` to `last`, both included: each tag once, as it stood last. `last` may be
    /// the clock, but not after it: the window is not cut there. A row does not tell whether the tag still stood at
    /// `last`, nor when it ended; its since may lie before `first`. `rows` needs [`Settings::row_words`] words, and
    /// their contents do not matter.
    ///
    /// # Errors
    ///
    /// [`Refusal::TimeOpen`] for either second, [`Refusal::Reversed`], [`Refusal::Late`] for `last`,
    /// [`Refusal::ShortBuffer`]; [`Refusal::Unsound`], with the buffer filled with zeros, if something else wrote the
    /// store.
    pub fn window<'b>(&self, first: u32, last: u32, rows: &'b mut [u32]) -> Result<Window<&'b [u32]>, Refusal> {
        let mut answer = [0];
        Refusal::result_of(calls::window(self.store, first, last, rows, &mut answer))?;
        Ok(Window::new(rows, answer, |words, count| &words[..count]))
    }
}

/// Settings, clock and blocks left; the words themselves would fill pages.
impl fmt::Debug for Reader<'_> {
    fn fmt(&self, f: &mut fmt::Formatter<'_>) -> fmt::Result {
        f.debug_struct("Register")
            .field("settings", &self.settings())
            .field("clock", &self.clock())
            .field("blocks_left", &self.blocks_left())
            .finish_non_exhaustive()
    }
}
