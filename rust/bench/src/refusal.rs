//! The fourteen numbered refusals, by the names that the whole project uses. Where several apply to a call, it is given
//! the first, by number, but that 14 comes right after 5.
use std::fmt;
use std::num::NonZeroU32;

/// Why a call was turned away: document 01's number, or document 02's.
#[derive(Clone, Copy, PartialEq, Eq, Hash)]
pub struct Refusal(NonZeroU32);

impl Refusal {
    /// Settings outside their limits (start only).
    pub const SETTINGS: Refusal = Refusal::numbered(1);
    /// The store has fewer than 16 words.
    pub const SHORT_HEAD: Refusal = Refusal::numbered(2);
    /// The head is none that a start or a change writes.
    pub const HEAD: Refusal = Refusal::numbered(3);
    /// The store is shorter than its layout.
    pub const SHORT_STORE: Refusal = Refusal::numbered(4);
    /// The time is OPEN; of a window, either of the two.
    pub const TIME_OPEN: Refusal = Refusal::numbered(5);
    /// A change or clock move is earlier than the clock.
    pub const EARLY: Refusal = Refusal::numbered(6);
    /// A look-back, or the last second of a window, is later than the clock.
    pub const LATE: Refusal = Refusal::numbered(7);
    /// The tag is D or more.
    pub const TAG: Refusal = Refusal::numbered(8);
    /// A set of a tag that stands.
    pub const STANDING: Refusal = Refusal::numbered(9);
    /// A clear or new reading of a tag that does not stand.
    pub const NOT_STANDING: Refusal = Refusal::numbered(10);
    /// The row buffer has fewer than 3 D words or the list fewer than B.
    pub const SHORT_BUFFER: Refusal = Refusal::numbered(11);
    /// A link, place or tag that the call needs is unsound. After an honest history it never comes.
    pub const UNSOUND: Refusal = Refusal::numbered(12);
    /// The change would open a block and none is left.
    pub const OUT_OF_BLOCKS: Refusal = Refusal::numbered(13);
    /// The last second of a window is before its first.
    pub const REVERSED: Refusal = Refusal::numbered(14);

    /// The refusal of a number that is not 0; for use in constants.
    const fn numbered(number: u32) -> Refusal {
        match NonZeroU32::new(number) {
            Some(number) => Refusal(number),
            None => panic!("0 is no refusal"),
        }
    }

    /// A call's result as the proved register gives it, by number: 0 is accepted.
    #[cfg(feature = "proved")]
    pub(crate) fn told(number: u32) -> Result<(), Refusal> {
        match NonZeroU32::new(number) {
            None => Ok(()),
            Some(number) => Err(Refusal(number)),
        }
    }

    /// The number, 1 to 14.
    pub const fn number(self) -> u32 {
        self.0.get()
    }
}

impl fmt::Display for Refusal {
    fn fmt(&self, f: &mut fmt::Formatter<'_>) -> fmt::Result {
        write!(f, "refusal {}", self.number())
    }
}

impl fmt::Debug for Refusal {
    fn fmt(&self, f: &mut fmt::Formatter<'_>) -> fmt::Result {
        write!(f, "Refusal({})", self.number())
    }
}

impl std::error::Error for Refusal {}
