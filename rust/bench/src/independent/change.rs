//! A change: its entry, and the writes once it is accepted. `sound` has tested everything before the first write.
use super::head::{self, Head};
use super::parts::{BITS_HIGH, BITS_LOW, CHILD, CLOSED, LEFT, OPENED, Parts, Payload, RIGHT, TAG, UP};
use super::sound::Plan;
use crate::{OPEN, Refusal};

/// A change or clock move at second `now`: the head as it will be, and the store's parts.
pub struct Change<'a> {
    pub head: Head,
    pub parts: Parts<'a>,
    now: u32,
}

impl<'a> Change<'a> {
    /// What every change and clock move tests first: store, head, layout, second.
    #[inline]
    pub fn enter(store: &'a mut [u32], now: u32) -> Result<Change<'a>, Refusal> {
        let head = Head::read(store)?;
        if now == OPEN {
            return Err(Refusal::TIME_OPEN);
        }
        if now < head.clock {
            return Err(Refusal::EARLY);
        }
        let parts = Parts::cut(store, &head.settings).ok_or(Refusal::SHORT_STORE)?;
        Ok(Change { head, parts, now })
    }

    /// The directory's word for a tag.
    #[inline]
    pub fn place_of(&self, tag: u32) -> Result<u32, Refusal> {
        self.parts.directory.get(tag as usize).copied().ok_or(Refusal::TAG)
    }

    /// Ends the tag's record. If its block then closes, its records move on.
    #[inline]
    pub fn clear(&mut self, tag: u32, plan: &Plan) {
        if let Some(ended) = plan.ended {
            self.parts.blocks.end(ended.block, ended.slot, self.now);
            self.parts.directory[tag as usize] = 0;
        }
        if let Some(n) = plan.closing {
            self.leave_row(n);
            self.move_on(n, Change::place);
        }
    }

    /// Places the record of a set or new reading: its condition stands so since now.
    #[inline]
    pub fn set(&mut self, tag: u32, reading: i32) {
        self.place(tag, Payload { reading: reading as u32, since: self.now });
    }

    /// Writes the head's words that a change moves.
    #[inline]
    pub fn finish(self) {
        let words = self.parts.head;
        words[head::OPENED] = self.head.opened;
        words[head::CLOCK] = self.now;
        words[head::FILL] = self.head.fill;
        words[head::CHILD] = self.head.child;
        words[head::RIGHT] = self.head.right;
    }

    /// Places a record from now, in a new block if the acceptor is full or there is none.
    #[inline]
    fn place(&mut self, tag: u32, payload: Payload) {
        if self.head.opened == 0 || self.head.fill == self.head.settings.block {
            self.open();
        }
        self.put(tag, payload);
    }

    /// The acceptor's next slot takes a record, and the directory follows.
    #[inline]
    fn put(&mut self, tag: u32, payload: Payload) {
        let (n, k) = (self.head.opened, self.head.fill);
        self.parts.blocks.put(n, k, [tag, payload.reading, self.now, OPEN, payload.since]);
        self.head.fill += 1;
        self.parts.directory[tag as usize] = self.head.placed();
    }

    /// Opens block N + 1 to the right of block N and judges the old acceptor. Its copies fit the new block.
    #[cold]
    fn open(&mut self) {
        let old = self.head.opened;
        let block = self.parts.blocks.get_mut(old + 1);
        block.fill(0);
        block[OPENED] = self.now;
        block[CLOSED] = OPEN;
        block[UP] = old;
        self.set_right(old, old + 1);
        self.enter_index(old as usize);
        self.head.opened = old + 1;
        self.head.fill = 0;
        if old != 0 && self.parts.blocks.standing(old).count_ones() < self.head.settings.useful {
            self.leave_row(old);
            self.move_on(old, Change::put);
        }
    }

    /// Entry i of the index is now; so is the first of each 16, and of each 16 of these.
    fn enter_index(&mut self, i: usize) {
        self.parts.level0[i] = self.now;
        if i.is_multiple_of(16) {
            self.parts.level1[i / 16] = self.now;
        }
        if i.is_multiple_of(256) {
            self.parts.level2[i / 256] = self.now;
        }
    }

    /// Block n takes its closing second and leaves the row of open blocks for its up's children.
    fn leave_row(&mut self, n: u32) {
        let block = self.parts.blocks.get_mut(n);
        block[CLOSED] = self.now;
        let (up, right) = (block[UP], block[RIGHT]);
        self.parts.blocks.get_mut(right)[UP] = up;
        self.set_right(up, right);
        let elder = self.swap_child(up, n);
        self.parts.blocks.get_mut(n)[LEFT] = elder;
    }

    /// Ends block n's standing records, and places each again in slot order.
    fn move_on(&mut self, n: u32, place: impl Fn(&mut Self, u32, Payload)) {
        let mut standing = self.parts.blocks.standing(n);
        while standing != 0 {
            let slot = standing.trailing_zeros();
            standing &= standing - 1;
            let record = self.parts.blocks.record(n, slot);
            let (tag, payload) = (record[TAG], Payload::of(record));
            self.parts.blocks.end(n, slot, self.now);
            place(self, tag, payload);
        }
        debug_assert!(self.parts.blocks.get(n)[BITS_LOW..=BITS_HIGH] == [0, 0]);
    }

    /// The right of block n, block 0 standing in the head.
    fn set_right(&mut self, n: u32, right: u32) {
        if n == 0 {
            self.head.right = right;
        } else {
            self.parts.blocks.get_mut(n)[RIGHT] = right;
        }
    }

    /// Makes `child` the last child of block n and gives the one before.
    fn swap_child(&mut self, n: u32, child: u32) -> u32 {
        let last = if n == 0 { &mut self.head.child } else { &mut self.parts.blocks.get_mut(n)[CHILD] };
        std::mem::replace(last, child)
    }
}
