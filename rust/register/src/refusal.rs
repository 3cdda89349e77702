//! The fourteen refusals of a call.
use core::fmt;

/// Why a call was turned away, with document 01's number (14 is document 02's). Where several refusals apply, the one
/// with the lowest number is given, but that [`Refusal::Reversed`] comes right after [`Refusal::TimeOpen`]. A refused
/// call leaves every word as it was, except that [`Refusal::Unsound`] of a look-back fills both its buffers with zeros,
/// and that of a window its one.
///
/// The names are those of `include/register.h` (`REGISTER_SHORT_HEAD` is [`Refusal::ShortHead`]). More may be added.
///
/// ```
/// use register::Refusal;
///
/// assert_eq!(Refusal::NotStanding.number(), 10);
/// assert_eq!(Refusal::NotStanding.to_string(), "the tag does not stand (refusal 10)");
/// assert_eq!(Refusal::from_number(10), Some(Refusal::NotStanding));
/// ```
#[derive(Clone, Copy, Debug, PartialEq, Eq, PartialOrd, Ord, Hash)]
#[non_exhaustive]
pub enum Refusal {
    /// Settings outside their limits. [`Settings::new`](crate::Settings::new) gives this before any call does: mend
    /// the settings.
    Settings = 1,
    /// The store has fewer than 16 words, so not even a head: lend [`Settings::words`](crate::Settings::words) words.
    ShortHead = 2,
    /// The head is none that a start or a change leaves: this store was never started, or was overwritten. Start it,
    /// or take an older copy of it, of this [version](crate#versions).
    Head = 3,
    /// The store is shorter than the layout of its settings: lend [`Settings::words`](crate::Settings::words) words,
    /// or all of a store that was cut short. One of an older [version](crate#versions) is shorter, too.
    ShortStore = 4,
    /// The time, of a window either of the two, is [`OPEN`](crate::OPEN), which is no second: pass a smaller one.
    TimeOpen = 5,
    /// A change or clock move is earlier than the clock. What is past stays as it is: pass the clock or a later second.
    Early = 6,
    /// A look-back, or the last second of a window, is later than the clock, at which nothing is known yet: move the
    /// clock first, or look at an earlier second.
    Late = 7,
    /// The tag is D or more: pass a smaller one, or start a register with more tags.
    Tag = 8,
    /// A set of a tag that stands: give it a new reading with `update`, or clear it first.
    Standing = 9,
    /// A clear or new reading of a tag that does not stand: set it.
    NotStanding = 10,
    /// A row buffer has fewer than [`Settings::row_words`](crate::Settings::row_words) words, or a look-back's list
    /// fewer than [`Settings::list_words`](crate::Settings::list_words): lend longer ones.
    ShortBuffer = 11,
    /// A link, place or tag that the call needs is unsound: something else wrote the store. It is proved that this
    /// never comes after calls alone. Take an older copy of the store, of this [version](crate#versions), or rebuild it
    /// from a journal.
    Unsound = 12,
    /// The change would open a block and none is left: keep this store for look-backs and windows, and start another.
    /// The repository's README.md, "When blocks run out", tells how.
    OutOfBlocks = 13,
    /// The last second of a window is before its first: pass them in their order.
    Reversed = 14,
}

impl Refusal {
    /// All refusals, by their numbers.
    pub const ALL: [Refusal; 14] = [
        Refusal::Settings,
        Refusal::ShortHead,
        Refusal::Head,
        Refusal::ShortStore,
        Refusal::TimeOpen,
        Refusal::Early,
        Refusal::Late,
        Refusal::Tag,
        Refusal::Standing,
        Refusal::NotStanding,
        Refusal::ShortBuffer,
        Refusal::Unsound,
        Refusal::OutOfBlocks,
        Refusal::Reversed,
    ];

    /// The paper's number, which the exported calls answer: 1 to 14.
    #[must_use]
    pub const fn number(self) -> u32 {
        self as u32
    }

    /// The refusal of a number; none for 0, which is "accepted", and for those above 14.
    #[must_use]
    #[inline]
    pub const fn from_number(number: u32) -> Option<Refusal> {
        Some(match number {
            1 => Refusal::Settings,
            2 => Refusal::ShortHead,
            3 => Refusal::Head,
            4 => Refusal::ShortStore,
            5 => Refusal::TimeOpen,
            6 => Refusal::Early,
            7 => Refusal::Late,
            8 => Refusal::Tag,
            9 => Refusal::Standing,
            10 => Refusal::NotStanding,
            11 => Refusal::ShortBuffer,
            12 => Refusal::Unsound,
            13 => Refusal::OutOfBlocks,
            14 => Refusal::Reversed,
            _ => return None,
        })
    }

    /// What a call of [`calls`](crate::calls) answered: 0 is accepted.
    ///
    /// # Errors
    ///
    /// The refusal of that number.
    ///
    /// # Panics
    ///
    /// If the number is above 14: the archive is newer than this wrapper and has refusals that it does not know.
    #[inline]
    pub fn result_of(number: u32) -> Result<(), Refusal> {
        match Refusal::from_number(number) {
            Some(refusal) => Err(refusal),
            None if number == 0 => Ok(()),
            None => panic!("libregister.a answered {number}: it is newer than this wrapper, which knows 14 refusals"),
        }
    }

    /// The refusal in plain words, without its number; `register_refusal_text` has the same for C.
    #[must_use]
    pub const fn text(self) -> &'static str {
        match self {
            Refusal::Settings => "settings outside their limits",
            Refusal::ShortHead => "the store has fewer than 16 words",
            Refusal::Head => "the head is not a register's",
            Refusal::ShortStore => "the store is shorter than its layout",
            Refusal::TimeOpen => "the time is OPEN, which is no second",
            Refusal::Early => "the second is earlier than the clock",
            Refusal::Late => "the second is later than the clock",
            Refusal::Tag => "the register has no such tag",
            Refusal::Standing => "the tag stands already",
            Refusal::NotStanding => "the tag does not stand",
            Refusal::ShortBuffer => "the row buffer or the list is too short",
            Refusal::Unsound => "a link, place or tag in the store is unsound",
            Refusal::OutOfBlocks => "no block is left",
            Refusal::Reversed => "the window ends before it begins",
        }
    }
}

impl fmt::Display for Refusal {
    fn fmt(&self, f: &mut fmt::Formatter<'_>) -> fmt::Result {
        write!(f, "{} (refusal {})", self.text(), self.number())
    }
}

impl core::error::Error for Refusal {}

impl From<Refusal> for u32 {
    fn from(refusal: Refusal) -> u32 {
        refusal.number()
    }
}
