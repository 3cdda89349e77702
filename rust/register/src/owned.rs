//! A register that holds its own words.
use crate::{Entry, LookBack, Reader, Refusal, Register, Settings, Tally, Window, calls};
use alloc::vec;
use alloc::vec::Vec;
use core::fmt;

/// A register with words of its own, and look-backs and windows that need no buffers. Needs the feature `alloc`.
///
/// ```
/// use register::{OwnedRegister, Refusal, Row, Settings};
///
/// let mut register = OwnedRegister::new(Settings::new(4, 2, 8, 16)?);
/// register.set(10, 3, -25)?;
/// register.clear(12, 3)?;
/// let told: Vec<Row> = register.look_back(11)?.rows().collect();
/// assert_eq!(told, [Row { tag: 3, reading: -25, since: 10 }]);
/// assert_eq!(register.window(0, 12)?.row(3), Some(told[0]));
///
/// let saved: Vec<u32> = register.into_words(); // to a file, say, and from it
/// let register = OwnedRegister::open(saved)?;
/// assert_eq!(register.clock(), 12);
/// assert_eq!(OwnedRegister::open(vec![0; 4624]).unwrap_err(), Refusal::Head); // never started
/// # Ok::<(), Refusal>(())
/// ```
#[derive(Clone)]
pub struct OwnedRegister {
    store: Vec<u32>,
}

impl OwnedRegister {
    /// A register with a new history, in as many words as its settings ask for.
    ///
    /// # Panics
    ///
    /// Never: a start with settings within their limits, on a store of their length, is proved to be accepted.
    #[must_use]
    pub fn new(settings: Settings) -> OwnedRegister {
        let mut store = vec![0; settings.words()];
        Register::start(&mut store, settings).expect("settings within their limits, and a store of their length");
        OwnedRegister { store }
    }

    /// Takes words that a start, and perhaps changes after it, left, by this [version](crate#versions). If they are
    /// refused they are dropped: who may need them then opens a [`Reader`] over them first.
    ///
    /// # Errors
    ///
    /// As for [`Reader::open`].
    pub fn open(store: Vec<u32>) -> Result<OwnedRegister, Refusal> {
        Reader::open(&store)?;
        Ok(OwnedRegister { store })
    }

    /// Sets a tag: see [`Register::set`].
    ///
    /// # Errors
    ///
    /// As for [`Register::set`].
    pub fn set(&mut self, second: u32, tag: u32, reading: i32) -> Result<(), Refusal> {
        Refusal::result_of(calls::set(&mut self.store, second, tag, reading))
    }

    /// Clears a tag that stands: see [`Register::clear`].
    ///
    /// # Errors
    ///
    /// As for [`Register::clear`].
    pub fn clear(&mut self, second: u32, tag: u32) -> Result<(), Refusal> {
        Refusal::result_of(calls::clear(&mut self.store, second, tag))
    }

    /// Gives a standing tag a new reading: see [`Register::update`].
    ///
    /// # Errors
    ///
    /// As for [`Register::update`].
    pub fn update(&mut self, second: u32, tag: u32, reading: i32) -> Result<(), Refusal> {
        Refusal::result_of(calls::update(&mut self.store, second, tag, reading))
    }

    /// Moves the clock.
    ///
    /// # Errors
    ///
    /// As for [`Register::advance`].
    pub fn advance(&mut self, second: u32) -> Result<(), Refusal> {
        Refusal::result_of(calls::advance(&mut self.store, second))
    }

    /// What stood at a second up to the clock, in words that the answer holds. (Who looks back often lends the same
    /// buffers each time, by [`reader`](OwnedRegister::reader).)
    ///
    /// # Errors
    ///
    /// [`Refusal::TimeOpen`], [`Refusal::Late`]; [`Refusal::Unsound`] if the words were no history's.
    pub fn look_back(&self, second: u32) -> Result<LookBack<Vec<u32>>, Refusal> {
        let settings = self.settings();
        let (mut rows, mut list) = (vec![0; settings.row_words()], vec![0; settings.list_words()]);
        let mut answer = [0; 6];
        Refusal::result_of(calls::look_back(&self.store, second, &mut rows, &mut list, &mut answer))?;
        Ok(LookBack::new(rows, list, answer, cut))
    }

    /// What stood at some second from `first` to `last`, both included, in words that the answer holds. `last` may be
    /// the clock, but not after it; what a row tells, see [`Reader::window`].
    ///
    /// # Errors
    ///
    /// [`Refusal::TimeOpen`], [`Refusal::Reversed`], [`Refusal::Late`]; [`Refusal::Unsound`] if the words were no
    /// history's.
    pub fn window(&self, first: u32, last: u32) -> Result<Window<Vec<u32>>, Refusal> {
        let mut rows = vec![0; self.settings().row_words()];
        let mut answer = [0];
        Refusal::result_of(calls::window(&self.store, first, last, &mut rows, &mut answer))?;
        Ok(Window::new(rows, answer, cut))
    }

    /// Makes the call of a journal's entry: see [`Register::apply`]. A start that needs more words is refused.
    ///
    /// # Errors
    ///
    /// As for [`Register::apply`].
    pub fn apply(&mut self, entry: Entry) -> Result<(), Refusal> {
        Refusal::result_of(calls::apply(&mut self.store, entry))
    }

    /// Makes the calls of a journal: see [`Register::replay`]. The words are not made more: a start among the entries
    /// that needs more is refused.
    #[must_use = "it says how many entries were read, which may be fewer than the journal has"]
    pub fn replay(&mut self, journal: &[u32]) -> Tally {
        calls::replay(&mut self.store, journal)
    }

    /// The settings that the register was started with.
    #[must_use]
    pub fn settings(&self) -> Settings {
        self.reader().settings()
    }

    /// The second of the last accepted change or clock move; 0 after a start.
    #[must_use]
    pub fn clock(&self) -> u32 {
        self.reader().clock()
    }

    /// How many blocks can still be opened: see [`Reader::blocks_left`].
    #[must_use]
    pub fn blocks_left(&self) -> u32 {
        self.reader().blocks_left()
    }

    /// This register for reading, which any number of threads may do side by side.
    #[must_use]
    pub fn reader(&self) -> Reader<'_> {
        Reader::of(&self.store)
    }

    /// All words, for a copy that [`open`](OwnedRegister::open) takes again.
    #[must_use]
    pub fn into_words(self) -> Vec<u32> {
        self.store
    }
}

/// The first words of a buffer, as many as were filled.
fn cut(mut words: Vec<u32>, count: usize) -> Vec<u32> {
    words.truncate(count);
    words
}

impl fmt::Debug for OwnedRegister {
    fn fmt(&self, f: &mut fmt::Formatter<'_>) -> fmt::Result {
        self.reader().fmt(f)
    }
}
