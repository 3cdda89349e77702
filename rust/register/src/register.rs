//! A register in lent words.
use crate::{Entry, LookBack, Reader, Refusal, Settings, Tally, Window, calls};
use core::fmt;

/// A register in words that are lent. It keeps nothing elsewhere, so it may be dropped and opened again.
///
/// ```
/// use register::{Refusal, Register, Settings};
///
/// let settings = Settings::new(4, 2, 8, 16)?;
/// let mut store = vec![0; settings.words()];
///
/// let mut register = Register::start(&mut store, settings)?;
/// register.set(10, 3, -25)?; // at second 10, tag 3, −25 daN
/// register.update(11, 3, -30)?;
/// register.clear(12, 3)?;
/// assert_eq!(register.clear(12, 3), Err(Refusal::NotStanding));
/// assert_eq!(register.set(11, 3, 0), Err(Refusal::Early));
///
/// let mut register = Register::open(&mut store)?; // as after a restart of the program
/// register.advance(20)?;
/// assert_eq!((register.clock(), register.blocks_left()), (20, 7));
/// # Ok::<(), Refusal>(())
/// ```
pub struct Register<'a> {
    store: &'a mut [u32],
}

impl<'a> Register<'a> {
    /// Begins a new history: fills the layout with zeros, then the head (clock 0). Words beyond the layout are
    /// untouched.
    ///
    /// # Errors
    ///
    /// [`Refusal::ShortHead`] and [`Refusal::ShortStore`], if the store has fewer than [`Settings::words`].
    pub fn start(store: &'a mut [u32], settings: Settings) -> Result<Register<'a>, Refusal> {
        let Settings { block, useful, blocks, tags } = settings;
        Refusal::result_of(calls::start(store, block, useful, blocks, tags))?;
        Ok(Register { store })
    }

    /// Opens a store that a start, and perhaps changes after it, left, by this [version](crate#versions); nothing is
    /// written. [`Reader::open`] says how the head is tested.
    ///
    /// # Errors
    ///
    /// [`Refusal::ShortHead`], [`Refusal::Head`], [`Refusal::ShortStore`].
    pub fn open(store: &'a mut [u32]) -> Result<Register<'a>, Refusal> {
        Reader::open(store)?;
        Ok(Register { store })
    }

    /// Sets a tag, 0 to D − 1, with a reading in daN. Its [since](crate::Row::since) is this second.
    ///
    /// # Errors
    ///
    /// [`Refusal::TimeOpen`], [`Refusal::Early`], [`Refusal::Tag`], [`Refusal::Standing`], [`Refusal::OutOfBlocks`];
    /// [`Refusal::Unsound`] if something else wrote the store.
    pub fn set(&mut self, second: u32, tag: u32, reading: i32) -> Result<(), Refusal> {
        Refusal::result_of(calls::set(self.store, second, tag, reading))
    }

    /// Clears a tag that stands.
    ///
    /// # Errors
    ///
    /// [`Refusal::TimeOpen`], [`Refusal::Early`], [`Refusal::Tag`], [`Refusal::NotStanding`],
    /// [`Refusal::OutOfBlocks`] (a clear may close a block, whose records are then placed again);
    /// [`Refusal::Unsound`] if something else wrote the store.
    pub fn clear(&mut self, second: u32, tag: u32) -> Result<(), Refusal> {
        Refusal::result_of(calls::clear(self.store, second, tag))
    }

    /// Gives a standing tag a new reading: a clear and a set at the same second. Its [since](crate::Row::since) becomes
    /// this second, also if the reading is equal.
    ///
    /// # Errors
    ///
    /// As for [`clear`](Register::clear).
    pub fn update(&mut self, second: u32, tag: u32, reading: i32) -> Result<(), Refusal> {
        Refusal::result_of(calls::update(self.store, second, tag, reading))
    }

    /// Moves the clock.
    ///
    /// # Errors
    ///
    /// [`Refusal::TimeOpen`], [`Refusal::Early`].
    pub fn advance(&mut self, second: u32) -> Result<(), Refusal> {
        Refusal::result_of(calls::advance(self.store, second))
    }

    /// What stood at a second up to the clock: see [`Reader::look_back`].
    ///
    /// # Errors
    ///
    /// As for [`Reader::look_back`].
    pub fn look_back<'b>(
        &self,
        second: u32,
        rows: &'b mut [u32],
        list: &'b mut [u32],
    ) -> Result<LookBack<&'b [u32]>, Refusal> {
        self.reader().look_back(second, rows, list)
    }

    /// What stood at some second from `first` to `last`, which may not be after the clock: see [`Reader::window`].
    ///
    /// # Errors
    ///
    /// As for [`Reader::window`].
    pub fn window<'b>(&self, first: u32, last: u32, rows: &'b mut [u32]) -> Result<Window<&'b [u32]>, Refusal> {
        self.reader().window(first, last, rows)
    }

    /// Makes the call of a journal's entry; a start begins a new history, with its own settings.
    ///
    /// # Errors
    ///
    /// Those of the entry's call; of a start also [`Refusal::Settings`].
    pub fn apply(&mut self, entry: Entry) -> Result<(), Refusal> {
        Refusal::result_of(calls::apply(self.store, entry))
    }

    /// Makes the calls of a journal, one after another; those that are refused change nothing. A start among them
    /// begins a new history, with its own settings.
    #[must_use = "it says how many entries were read, which may be fewer than the journal has"]
    pub fn replay(&mut self, journal: &[u32]) -> Tally {
        calls::replay(self.store, journal)
    }

    /// Rebuilds a register, in words of any contents, from a journal that begins with a start.
    /// `examples/mapped.rs` shows how a journal is kept so that no acknowledged change is lost.
    ///
    /// ```
    /// use register::{Entry, Refusal, Register, Settings, Tally};
    ///
    /// let settings = Settings::new(4, 2, 8, 16)?;
    /// let change = Entry::Set { second: 10, tag: 3, reading: -25 };
    /// let journal = [Entry::from(settings), change, change].map(Entry::to_words).concat();
    ///
    /// let mut store = vec![77; settings.words()];
    /// let (register, tally) = Register::rebuild(&mut store, &journal)?;
    /// assert_eq!(register.clock(), 10);
    /// assert_eq!(tally, Tally { entries: 3, accepted: 2 }); // the second set was refused: the tag stood
    /// # Ok::<(), Refusal>(())
    /// ```
    ///
    /// # Errors
    ///
    /// As for [`open`](Register::open), if no start of the journal was accepted.
    pub fn rebuild(store: &'a mut [u32], journal: &[u32]) -> Result<(Register<'a>, Tally), Refusal> {
        let tally = calls::replay(store, journal);
        Ok((Register::open(store)?, tally))
    }

    /// The settings that the register was started with.
    #[must_use]
    pub fn settings(&self) -> Settings {
        self.reader().settings()
    }

    /// The second of the last accepted change or clock move; 0 after a start.
    #[must_use]
    pub fn clock(&self) -> u32 {
        self.reader().clock()
    }

    /// How many blocks can still be opened: see [`Reader::blocks_left`].
    #[must_use]
    pub fn blocks_left(&self) -> u32 {
        self.reader().blocks_left()
    }

    /// This register for reading, which any number of threads may do side by side.
    #[must_use]
    pub fn reader(&self) -> Reader<'_> {
        Reader::of(self.store)
    }

    /// Gives the lent words back.
    #[must_use]
    pub fn into_words(self) -> &'a mut [u32] {
        self.store
    }
}

impl fmt::Debug for Register<'_> {
    fn fmt(&self, f: &mut fmt::Formatter<'_>) -> fmt::Result {
        self.reader().fmt(f)
    }
}
