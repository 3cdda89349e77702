//! A full copy of the state per change: a look-back finds the last copy by its second and takes its rows.
use super::{Contender, Row};
use crate::input::{Change, Kind, TAGS};

/// More changes would take gigabytes.
const MOST: usize = 50_000;

#[derive(Default)]
pub struct Copies {
    state: Vec<Row>,
    place: Vec<usize>,
    /// Second of each copy and where its rows end in `copies`.
    index: Vec<(u32, usize)>,
    copies: Vec<Row>,
    rows: Vec<Row>,
}

impl Copies {
    fn follow(&mut self, change: &Change) {
        let tag = change.tag as usize;
        match change.kind {
            Kind::Set => {
                self.place[tag] = self.state.len();
                self.state.push(change.into());
            }
            Kind::Update => self.state[self.place[tag]] = change.into(),
            Kind::Clear => {
                let at = self.place[tag];
                self.state.swap_remove(at);
                if let Some(moved) = self.state.get(at) {
                    self.place[moved.tag as usize] = at;
                }
            }
        }
    }

    fn copy(&self, second: u32) -> &[Row] {
        match self.index.partition_point(|entry| entry.0 <= second) {
            0 => &[],
            1 => &self.copies[..self.index[0].1],
            n => &self.copies[self.index[n - 2].1..self.index[n - 1].1],
        }
    }
}

impl Contender for Copies {
    fn name(&self) -> &'static str {
        "copy per change"
    }

    fn restart(&mut self) {
        self.state.clear();
        self.place = vec![0; TAGS as usize];
        self.index.clear();
        self.copies.clear();
    }

    fn most_changes(&self) -> usize {
        MOST
    }

    fn change_all(&mut self, changes: &[Change]) {
        for change in changes {
            self.follow(change);
            self.copies.extend_from_slice(&self.state);
            self.index.push((change.second, self.copies.len()));
        }
    }

    fn look_all(&mut self, seconds: &[u32]) -> u64 {
        let mut rows = 0;
        for &second in seconds {
            let mut taken = std::mem::take(&mut self.rows);
            taken.clear();
            taken.extend_from_slice(self.copy(second));
            self.rows = taken;
            rows += self.rows.len() as u64;
        }
        rows
    }

    fn rows(&self) -> &[Row] {
        &self.rows
    }

    fn bytes(&mut self) -> usize {
        std::mem::size_of::<Row>() * self.copies.len() + std::mem::size_of::<(u32, usize)>() * self.index.len()
    }

    /// The rows, and the entries that the search by halves compares.
    fn words_read(&self) -> Option<usize> {
        Some(Row::WORDS * self.rows.len() + self.index.len().max(1).ilog2() as usize + 1)
    }
}
