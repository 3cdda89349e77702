//! The block book of document 01 (demand 3): fed each call's arguments and whether it was accepted, nothing else.
use super::Call;
use bench::{OPEN, Settings};

#[derive(Clone)]
pub struct Block {
    pub opened: u32,
    pub closed: u32,
    /// Tag, and whether it stands.
    pub records: Vec<(u32, bool)>,
}

#[derive(Clone)]
pub struct Book {
    pub b: usize,
    pub q: usize,
    pub blocks: Vec<Block>,
}

impl Book {
    pub fn new(settings: Settings) -> Book {
        Book { b: settings.block as usize, q: settings.useful as usize, blocks: Vec::new() }
    }

    /// Follows an accepted call.
    pub fn follow(&mut self, call: Call) {
        match call {
            Call::Start(settings) => *self = Book::new(settings),
            Call::Set { second, tag, .. } => self.write(second, tag),
            Call::Clear { second, tag } => self.clear(second, tag),
            Call::Update { second, tag, .. } => {
                self.clear(second, tag);
                self.write(second, tag);
            }
            Call::Advance { .. } | Call::LookBack { .. } | Call::Window { .. } => {}
        }
    }

    pub fn records(&self) -> usize {
        self.blocks.iter().map(|block| block.records.len()).sum()
    }

    pub fn open_at(&self, t: u32) -> usize {
        self.blocks.iter().filter(|block| block.opened <= t && t < block.closed).count()
    }

    fn clear(&mut self, s: u32, tag: u32) {
        let at = self.end(tag);
        if at + 1 != self.blocks.len() {
            self.judge(s, at);
        }
    }

    /// Ends the tag's standing record and says in which block.
    fn end(&mut self, tag: u32) -> usize {
        for (at, block) in self.blocks.iter_mut().enumerate() {
            for record in &mut block.records {
                if *record == (tag, true) {
                    record.1 = false;
                    return at;
                }
            }
        }
        panic!("an accepted clear of tag {tag}, which does not stand in the book");
    }

    fn write(&mut self, s: u32, tag: u32) {
        if self.blocks.last().is_none_or(|last| last.records.len() == self.b) {
            self.blocks.push(Block { opened: s, closed: OPEN, records: Vec::new() });
            if self.blocks.len() > 1 {
                self.judge(s, self.blocks.len() - 2);
            }
        }
        self.blocks.last_mut().expect("a block is there").records.push((tag, true));
    }

    fn judge(&mut self, s: u32, at: usize) {
        let block = &mut self.blocks[at];
        let standing: Vec<u32> = block.records.iter().filter(|record| record.1).map(|record| record.0).collect();
        if standing.len() < self.q {
            block.closed = s;
            block.records.iter_mut().for_each(|record| record.1 = false);
            standing.into_iter().for_each(|tag| self.write(s, tag));
        }
    }
}
