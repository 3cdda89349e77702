//! A plain log of the changes that a program acknowledged: what it must know after a restart, found from a list alone.
use super::Rng;
use register::{Entry, OPEN};
use std::collections::{BTreeMap, BTreeSet};
use std::path::Path;

/// The tags that the examples' settings give.
const TAGS: u32 = 64;

/// What stands, by tag: its reading, and the second of its last set or new reading.
type State = BTreeMap<u32, (i32, u32)>;

#[derive(Clone, Default)]
pub struct Log {
    changes: Vec<(u32, u32, Option<i32>)>,
    standing: BTreeSet<u32>,
    pub clock: u32,
    /// Entries of which the program told an answer, and those that it accepted.
    pub entries: u64,
    pub accepted: u64,
}

impl Log {
    /// Follows a call; whether it must be accepted. (The examples have blocks enough for all that the tests place.)
    pub fn follow(&mut self, entry: Entry) -> bool {
        self.entries += 1;
        let (second, change) = match entry {
            Entry::Set { second, tag, reading } => (second, Some((tag, Some(reading), false))),
            Entry::Clear { second, tag } => (second, Some((tag, None, true))),
            Entry::Update { second, tag, reading } => (second, Some((tag, Some(reading), true))),
            Entry::Advance { second } => (second, None),
            _ => unreachable!("no command starts a register"),
        };
        let fits = change.is_none_or(|(tag, _, stands)| tag < TAGS && self.standing.contains(&tag) == stands);
        if second == OPEN || second < self.clock || !fits {
            return false;
        }
        self.clock = second;
        self.accepted += 1;
        if let Some((tag, reading, _)) = change {
            self.changes.push((second, tag, reading));
            match reading {
                Some(_) => self.standing.insert(tag),
                None => self.standing.remove(&tag),
            };
        }
        true
    }

    /// What stood at a second; none if that is later than the clock.
    fn state(&self, second: u32) -> Option<State> {
        let mut state = State::new();
        for &(since, tag, reading) in self.changes.iter().take_while(|change| change.0 <= second) {
            match reading {
                Some(reading) => state.insert(tag, (reading, since)),
                None => state.remove(&tag),
            };
        }
        (second <= self.clock).then_some(state)
    }

    /// A next change: mostly one that is accepted, often within the clock's own second.
    pub fn draw(&self, rng: &mut Rng) -> Entry {
        let second = if rng.chance(1, 20) { self.clock.saturating_sub(1) } else { self.clock + rng.below(3) };
        let reading = rng.word().cast_signed();
        let standing: Vec<u32> = self.standing.iter().copied().collect();
        let tag = if standing.is_empty() || rng.chance(1, 20) { rng.below(TAGS + 6) } else { rng.pick(&standing) };
        match rng.below(20) {
            0 => Entry::Advance { second },
            1..=6 => Entry::Clear { second, tag },
            7..=9 => Entry::Update { second, tag, reading },
            _ => Entry::Set { second, tag: rng.below(TAGS), reading },
        }
    }

    /// Starts the program anew, and holds all that it tells against this log: the entries of its journal, and what
    /// stood at the clock, before it, after it and at some earlier seconds. A change that was under way, and not
    /// acknowledged, may be one more entry: then it has been made, or refused, as this log says. Whether it was there.
    pub fn compare(&mut self, under_way: Option<Entry>, program: &Path, folder: &Path, rng: &mut Rng) -> bool {
        let last = (self.clock.saturating_sub(5)..=self.clock + 3).rev();
        let seconds: Vec<u32> = last.chain((0..20).map(|_| rng.below(self.clock + 1))).collect();
        let told = super::run(program, folder, &looks(&seconds));
        let (begun, rest) = told.split_once('\n').expect("a first line");
        let kept = under_way.filter(|_| tally(begun).0 == 2 + self.entries);
        if let Some(entry) = kept {
            self.follow(entry);
        }
        assert_eq!(tally(begun), self.tally());
        assert_eq!(looked(rest), seconds.iter().map(|&second| self.state(second)).collect::<Vec<_>>(), "{seconds:?}");
        kept.is_some()
    }

    /// Entries of the journal and accepted ones, the start among both.
    pub fn tally(&self) -> (u64, u64) {
        (1 + self.entries, 1 + self.accepted)
    }
}

fn looks(seconds: &[u32]) -> String {
    seconds.iter().map(|second| format!("look {second}\n")).collect()
}

/// The two numbers of a program's first line.
pub fn tally(line: &str) -> (u64, u64) {
    let numbers = line.strip_prefix("rebuilt: ").and_then(|rest| rest.strip_suffix(" accepted"));
    let (entries, accepted) = numbers.and_then(|rest| rest.split_once(" entries, ")).expect("a first line");
    (entries.parse().expect("a number"), accepted.parse().expect("a number"))
}

/// The answers to looks: rows, or none where the second is late.
fn looked(text: &str) -> Vec<Option<State>> {
    let mut lines = text.lines();
    let mut answers = Vec::new();
    while let Some(line) = lines.next() {
        if line == "refused: the second is later than the clock (refusal 7)" {
            answers.push(None);
            continue;
        }
        let (_, count) = line.strip_prefix("stood at ").and_then(|rest| rest.split_once(": ")).expect("a look's line");
        let count: usize = count.parse().expect("a number");
        let rows: State = lines.by_ref().take(count).map(row).collect();
        assert_eq!(rows.len(), count, "a tag comes twice, or a row is missing");
        answers.push(Some(rows));
    }
    answers
}

fn row(line: &str) -> (u32, (i32, u32)) {
    let numbers = line.strip_prefix("tag ").and_then(|rest| rest.split_once(": "));
    let (tag, rest) = numbers.expect("a row's line");
    let (reading, since) = rest.split_once(" daN since ").expect("a row's line");
    (tag.parse().expect("a tag"), (reading.parse().expect("a reading"), since.parse().expect("a second")))
}
