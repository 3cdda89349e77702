//! A plain log: a change is appended, a look-back replays all changes up to its second, a window those up to its last.
use super::{Contender, Crosser, Row};
use crate::input::{Change, Kind, Span, TAGS};

/// For each tag a set or new reading.
type State<'l> = [Option<&'l Change>; TAGS as usize];

#[derive(Default)]
pub struct Log {
    changes: Vec<Change>,
    rows: Vec<Row>,
    replayed: usize,
}

impl Log {
    /// Finds for each tag that stands its last change, which has its reading and since.
    fn replay(&mut self, second: u32) {
        self.replayed = self.changes.partition_point(|change| change.second <= second);
        let mut state: State = [None; TAGS as usize];
        for change in &self.changes[..self.replayed] {
            state[change.tag as usize] = match change.kind {
                Kind::Clear => None,
                Kind::Set | Kind::Update => Some(change),
            };
        }
        self.rows.clear();
        self.rows.extend(state.into_iter().flatten().map(Row::from));
    }

    /// Finds for each tag its last change that stood at some second of the window: that which stands at the end, or the
    /// last that ended after the first second, and not at its own.
    fn cross(&mut self, window: Span) {
        self.replayed = self.changes.partition_point(|change| change.second <= window.last);
        let (mut state, mut stood): (State, State) = ([None; TAGS as usize], [None; TAGS as usize]);
        for change in &self.changes[..self.replayed] {
            let standing = &mut state[change.tag as usize];
            if change.second > window.first && standing.is_some_and(|ended| ended.second < change.second) {
                stood[change.tag as usize] = *standing;
            }
            *standing = match change.kind {
                Kind::Clear => None,
                Kind::Set | Kind::Update => Some(change),
            };
        }
        self.rows.clear();
        let latest = state.into_iter().zip(stood).filter_map(|(standing, stood)| standing.or(stood));
        self.rows.extend(latest.map(Row::from));
    }
}

impl Crosser for Log {
    fn cross_all(&mut self, windows: &[Span]) -> u64 {
        let mut rows = 0;
        for &window in windows {
            self.cross(window);
            rows += self.rows.len() as u64;
        }
        rows
    }
}

impl Contender for Log {
    fn name(&self) -> &'static str {
        "log, replayed"
    }

    fn restart(&mut self) {
        self.changes.clear();
    }

    fn change_all(&mut self, changes: &[Change]) {
        for change in changes {
            self.changes.push(*change);
        }
    }

    fn look_all(&mut self, seconds: &[u32]) -> u64 {
        let mut rows = 0;
        for &second in seconds {
            self.replay(second);
            rows += self.rows.len() as u64;
        }
        rows
    }

    fn rows(&self) -> &[Row] {
        &self.rows
    }

    fn bytes(&mut self) -> usize {
        std::mem::size_of::<Change>() * self.changes.len()
    }

    fn words_read(&self) -> Option<usize> {
        Some(std::mem::size_of::<Change>() / 4 * self.replayed)
    }
}
