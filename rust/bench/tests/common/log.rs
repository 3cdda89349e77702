//! The plain log of accepted changes (demand 2): what stood at t, or at some second of a window, is found by replay, and
//! by nothing else.
use super::Call;
use std::collections::BTreeMap;

/// What the log tells of a condition that stands.
#[derive(Clone, Copy, Debug, PartialEq, Eq)]
pub struct Standing {
    pub reading: i32,
    /// The second of its last set or new reading.
    pub since: u32,
}

#[derive(Default)]
pub struct Log {
    changes: Vec<(u32, u32, Option<i32>)>,
    /// Accepted sets and new readings.
    pub written: u64,
}

impl Log {
    /// Follows an accepted call; a start begins a new log.
    pub fn follow(&mut self, call: Call) {
        match call {
            Call::Start(_) => *self = Log::default(),
            Call::Set { second, tag, reading } | Call::Update { second, tag, reading } => {
                self.changes.push((second, tag, Some(reading)));
                self.written += 1;
            }
            Call::Clear { second, tag } => self.changes.push((second, tag, None)),
            Call::Advance { .. } | Call::LookBack { .. } | Call::Window { .. } => {}
        }
    }

    /// Each condition that stands at t, by its tag.
    pub fn state(&self, t: u32) -> BTreeMap<u32, Standing> {
        let mut state = BTreeMap::new();
        for &(second, tag, reading) in self.changes.iter().take_while(|change| change.0 <= t) {
            match reading {
                Some(reading) => state.insert(tag, Standing { reading, since: second }),
                None => state.remove(&tag),
            };
            debug_assert!(second <= t);
        }
        state
    }

    /// Each tag that stands at some second from first to last, as it stands at the last of these. What stands changes
    /// only at the seconds of changes, so these and the first are enough.
    pub fn window(&self, first: u32, last: u32) -> BTreeMap<u32, Standing> {
        let changed = self.changes.iter().map(|change| change.0).filter(|second| (first..=last).contains(second));
        let mut seconds: Vec<u32> = [first].into_iter().chain(changed).collect();
        seconds.dedup();
        seconds.into_iter().fold(BTreeMap::new(), |mut stood, second| {
            stood.extend(self.state(second));
            stood
        })
    }
}
