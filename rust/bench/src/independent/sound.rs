//! What a change will do, found before its first write: which record it ends, whether that record's block closes,
//! whether a block opens, and whether the old acceptor then closes. Refusals 8, 10, 12 and 13 come from here.
use super::change::Change;
use super::head::Head;
use super::parts::{BLOCK_HEAD, Parts, RECORD, RIGHT, TAG, UP};
use crate::Refusal;

/// A record's block and slot.
#[derive(Clone, Copy)]
pub struct Slot {
    pub block: u32,
    pub slot: u32,
}

pub struct Plan {
    /// The record that a clear or new reading ends.
    pub ended: Option<Slot>,
    /// Its block, if this closes.
    pub closing: Option<u32>,
    /// The records to place, but for those of an old acceptor: the closing block's, then the set one.
    incoming: u32,
}

impl Plan {
    /// A set: nothing ends.
    #[inline]
    pub fn set() -> Plan {
        Plan { ended: None, closing: None, incoming: 1 }
    }

    /// A clear or new reading of a tag: refusals 8 and 10, and 12 for the place.
    #[inline]
    pub fn clear(change: &Change, tag: u32) -> Result<Plan, Refusal> {
        let (head, parts) = (&change.head, &change.parts);
        let place = change.place_of(tag)?;
        if place == 0 {
            return Err(Refusal::NOT_STANDING);
        }
        let slot = standing_slot(head, parts, tag, place).ok_or(Refusal::UNSOUND)?;
        let mut plan = Plan { ended: Some(slot), closing: None, incoming: 0 };
        if slot.block != head.opened {
            let stay = parts.blocks.standing(slot.block).count_ones() - 1;
            if stay < head.settings.useful {
                plan.closing = Some(slot.block);
                plan.incoming = stay;
            }
        }
        Ok(plan)
    }

    /// The same, with one more record to place.
    #[inline]
    pub fn and_set(mut self) -> Plan {
        self.incoming += 1;
        self
    }

    /// Refusals 12 (blocks that will close) and 13.
    #[inline]
    pub fn test(&self, change: &Change) -> Result<(), Refusal> {
        let (head, parts) = (&change.head, &change.parts);
        if let Some(n) = self.closing {
            let right = parts.blocks.get(n)[RIGHT];
            if !(n < right && right <= head.opened && can_close(head, parts, n)) {
                return Err(Refusal::UNSOUND);
            }
        }
        if self.opens(head) {
            self.test_opening(head, parts)?;
        }
        Ok(())
    }

    /// A block opens: refusal 12 if the acceptor cannot close and must, 13 if there is none left.
    #[cold]
    fn test_opening(&self, head: &Head, parts: &Parts) -> Result<(), Refusal> {
        if head.opened != 0 && self.acceptor_closes(head, parts) && !can_close(head, parts, head.opened) {
            return Err(Refusal::UNSOUND);
        }
        if head.opened == head.settings.blocks {
            return Err(Refusal::OUT_OF_BLOCKS);
        }
        Ok(())
    }

    fn opens(&self, head: &Head) -> bool {
        self.incoming > 0 && (head.opened == 0 || head.fill + self.incoming > head.settings.block)
    }

    /// The acceptor is judged when it is full: its free slots stand by then, and the ended record does not.
    fn acceptor_closes(&self, head: &Head, parts: &Parts) -> bool {
        let mut standing = parts.blocks.standing(head.opened);
        if let Some(Slot { block, slot }) = self.ended
            && block == head.opened
        {
            standing &= !(1 << slot);
        }
        let free = below(head.settings.block) & !below(head.fill);
        (standing | free).count_ones() < head.settings.useful
    }
}

/// The slot of a directory word, if it is a standing record of that tag.
fn standing_slot(head: &Head, parts: &Parts, tag: u32, place: u32) -> Option<Slot> {
    if place > head.placed() {
        return None;
    }
    let (block, slot) = ((place - 1) / head.settings.block + 1, (place - 1) % head.settings.block);
    let stands = parts.blocks.standing(block) >> slot & 1 == 1;
    (stands && parts.blocks.record(block, slot)[TAG] == tag).then_some(Slot { block, slot })
}

/// Block n may close: its up lies below it, no bit stands at b or higher, each standing tag is below D.
fn can_close(head: &Head, parts: &Parts, n: u32) -> bool {
    let block = parts.blocks.get(n);
    let standing = parts.blocks.standing(n);
    block[UP] < n && standing & !below(head.settings.block) == 0 && tags_below(block, standing, head.settings.tags)
}

fn tags_below(block: &[u32], mut standing: u64, tags: u32) -> bool {
    while standing != 0 {
        let slot = standing.trailing_zeros() as usize;
        if block[BLOCK_HEAD + RECORD * slot + TAG] >= tags {
            return false;
        }
        standing &= standing - 1;
    }
    true
}

/// The bits of slots 0 to k - 1, for k up to 64.
fn below(k: u32) -> u64 {
    if k == 64 { u64::MAX } else { (1 << k) - 1 }
}
