//! The look-back: the index gives the block opened last by t, the path goes up from it, and visits go left and down.
use super::head::Head;
use super::parts::{BLOCK_HEAD, Blocks, CHILD, CLOSED, LEFT, LEVEL_WORDS, RECORD, UP};
use crate::settings::ROW;
use crate::{Answer, NONE, OPEN, Refusal};

pub fn look_back(store: &[u32], second: u32, rows: &mut [u32], list: &mut [u32]) -> Result<Answer, Refusal> {
    let head = Head::read(store)?;
    if second == OPEN {
        return Err(Refusal::TIME_OPEN);
    }
    if second > head.clock {
        return Err(Refusal::LATE);
    }
    let (row_words, blocks) = (head.settings.row_words(), head.settings.blocks as usize);
    if rows.len() < row_words || list.len() < blocks {
        return Err(Refusal::SHORT_BUFFER);
    }
    let answer = answer(&head, store, second, &mut rows[..row_words], &mut list[..blocks]);
    answer.ok_or_else(|| {
        rows.fill(0);
        list.fill(0);
        Refusal::UNSOUND
    })
}

/// The answer, or nothing if a word that it needs is unsound.
fn answer(head: &Head, store: &[u32], t: u32, rows: &mut [u32], list: &mut [u32]) -> Option<Answer> {
    let (index, rest) = store[16..].split_at(LEVEL_WORDS.iter().sum());
    let found = find(index, head.opened as usize, t)?;
    let blocks = Blocks { words: &rest[head.settings.tags as usize..], block_words: head.settings.block_words() };
    let (row_room, list_room) = (rows.len() / ROW, list.len());
    let mut walk = Walk { blocks, t, rows: rows.as_chunks_mut().0.iter_mut(), list: list.iter_mut() };
    walk.path(found.block, head.child)?;
    Some(Answer {
        rows: (row_room - walk.rows.len()) as u32,
        blocks: (list_room - walk.list.len()) as u32,
        pages: found.pages,
        page: found.page,
    })
}

/// The block that the index gives (0 if none), the pages read and the page passed on each level.
struct Found {
    block: u32,
    pages: u32,
    page: [u32; 3],
}

fn find(index: &[u32], opened: usize, t: u32) -> Option<Found> {
    let (level0, upper) = index.split_at(LEVEL_WORDS[0]);
    let (level1, level2) = upper.split_at(LEVEL_WORDS[1]);
    let levels = [level0, level1, level2];
    let entries = [opened, opened.div_ceil(16), opened.div_ceil(256)];
    let mut found = Found { block: 0, pages: 0, page: [NONE; 3] };
    if opened == 0 {
        return Some(found);
    }
    let top = if opened <= 16 {
        0
    } else if opened <= 256 {
        1
    } else {
        2
    };
    let mut page = 0;
    for level in (0..=top).rev() {
        found.page[level] = page as u32;
        found.pages += 1;
        let first = page * 16;
        let last = entries[level].min(first + 16);
        match levels[level][first..last].iter().rposition(|&entry| entry <= t) {
            Some(i) => page = first + i,
            None if level == top => return Some(found),
            None => return None,
        }
    }
    found.block = page as u32 + 1;
    Some(found)
}

/// A walk over the blocks, with what is left of the two buffers.
struct Walk<'s, 'r> {
    blocks: Blocks<&'s [u32]>,
    t: u32,
    rows: std::slice::IterMut<'r, [u32; ROW]>,
    list: std::slice::IterMut<'r, u32>,
}

impl Walk<'_, '_> {
    /// Goes up from block n; each path block is listed, then its rows are taken, then its left neighbour is visited.
    fn path(&mut self, mut n: u32, child_of_0: u32) -> Option<()> {
        while n != 0 {
            self.note(n)?;
            self.take(n)?;
            let block = self.blocks.get(n);
            let up = block[UP];
            if up >= n {
                return None;
            }
            let left = if block[CLOSED] != OPEN {
                block[LEFT]
            } else if up == 0 {
                child_of_0
            } else {
                self.blocks.get(up)[CHILD]
            };
            self.visit(left, up, n)?;
            n = up;
        }
        Some(())
    }

    /// Visits block n, which must lie strictly between the two numbers, then its last child, then its left.
    fn visit(&mut self, mut n: u32, lower: u32, mut upper: u32) -> Option<()> {
        while n != 0 {
            if n <= lower || n >= upper {
                return None;
            }
            self.note(n)?;
            let block = self.blocks.get(n);
            let (closed, child, left) = (block[CLOSED], block[CHILD], block[LEFT]);
            if closed <= self.t {
                break;
            }
            self.take(n)?;
            self.visit(child, n, upper)?;
            upper = n;
            n = left;
        }
        Some(())
    }

    /// Lists block n. There is room: no block is listed twice.
    fn note(&mut self, n: u32) -> Option<()> {
        *self.list.next()? = n;
        Some(())
    }

    /// The rows of block n at t, all slots in order; nothing if there are more than D rows.
    fn take(&mut self, n: u32) -> Option<()> {
        let block = self.blocks.get(n);
        let (records, _) = block[BLOCK_HEAD..].as_chunks::<RECORD>();
        for &[tag, reading, from, to, since] in records {
            if from <= self.t && self.t < to {
                *self.rows.next()? = [tag, reading, since];
            }
        }
        Some(())
    }
}
