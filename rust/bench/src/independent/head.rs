//! The head: 16 words, handled as one value.
use crate::{OPEN, Refusal, Settings};

pub const HEAD_WORDS: usize = 16;
pub const MARK: u32 = 7001;

/// Numbers of the head's words that a change writes.
pub const OPENED: usize = 5;
pub const CLOCK: usize = 6;
pub const FILL: usize = 7;
pub const CHILD: usize = 8;
pub const RIGHT: usize = 9;

#[derive(Clone, Copy)]
pub struct Head {
    pub settings: Settings,
    /// N, blocks opened; block N is the acceptor.
    pub opened: u32,
    pub clock: u32,
    /// Records in block N.
    pub fill: u32,
    /// Last child and right of block 0.
    pub child: u32,
    pub right: u32,
}

impl Head {
    /// The head of a store, after refusals 2, 3 and 4.
    #[inline]
    pub fn read(store: &[u32]) -> Result<Head, Refusal> {
        let words: &[u32; HEAD_WORDS] = store.first_chunk().ok_or(Refusal::SHORT_HEAD)?;
        let settings = Settings { block: words[1], useful: words[2], blocks: words[3], tags: words[4] };
        let head = Head {
            settings,
            opened: words[OPENED],
            clock: words[CLOCK],
            fill: words[FILL],
            child: words[CHILD],
            right: words[RIGHT],
        };
        let spare = words[10..].iter().fold(0, |all, word| all | word);
        if words[0] != MARK || spare != 0 || !head.is_sound() {
            return Err(Refusal::HEAD);
        }
        if store.len() < settings.words() {
            return Err(Refusal::SHORT_STORE);
        }
        Ok(head)
    }

    /// Settings, N, clock and fill within their limits.
    fn is_sound(&self) -> bool {
        let fills = if self.opened == 0 { 0..=0 } else { 1..=self.settings.block };
        within_limits(&self.settings)
            && self.opened <= self.settings.blocks
            && self.clock != OPEN
            && fills.contains(&self.fill)
    }

    /// How many records were placed.
    #[inline]
    pub fn placed(&self) -> u32 {
        if self.opened == 0 { 0 } else { (self.opened - 1) * self.settings.block + self.fill }
    }
}

/// The limits of b, q, B and D. (q against b / 2, so that no product wraps.)
#[inline]
pub fn within_limits(s: &Settings) -> bool {
    (2..=64).contains(&s.block)
        && (1..=s.block / 2).contains(&s.useful)
        && (1..=4096).contains(&s.blocks)
        && (1..=4096).contains(&s.tags)
}
