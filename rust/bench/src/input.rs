//! What is done to each contender: a year of one car, and a stress mix.
use crate::draw::Draw;
use bench::{Calls, Independent, Refusal, Settings};
use std::cmp::Reverse;
use std::collections::BinaryHeap;

pub const TAGS: u32 = 4096;
pub const BLOCKS: u32 = 4096;
pub const HOUR: u32 = 3_600;
pub const DAY: u32 = 86_400;
pub const MONTH: u32 = 30 * DAY;

#[derive(Clone, Copy, Debug, PartialEq, Eq)]
pub enum Kind {
    Set,
    Clear,
    Update,
}

#[derive(Clone, Copy, Debug)]
pub struct Change {
    pub second: u32,
    pub tag: u32,
    pub reading: i32,
    pub kind: Kind,
}

/// A first and a last second, both included.
#[derive(Clone, Copy, Debug)]
pub struct Span {
    pub first: u32,
    pub last: u32,
}

impl Span {
    /// So many seconds, up to this one; fewer if there are not as many.
    pub fn up_to(last: u32, seconds: u32) -> Span {
        Span { first: (last + 1).saturating_sub(seconds), last }
    }
}

/// The settings of the benchmark: q is a quarter of b.
pub fn settings(block: u32) -> Settings {
    Settings { block, useful: block / 4, blocks: BLOCKS, tags: TAGS }
}

pub fn named(work: &str) -> Vec<Change> {
    match work {
        "year" => year(),
        "days" => days(4),
        "stress" => stress(),
        _ => panic!("no such work: {work}"),
    }
}

/// 365 days of about 900 changes: 405 sets, as many clears, 90 new readings. Nine conditions of ten last some three hours,
/// the tenth some eight days, so that about 400 stand at a time.
pub fn year() -> Vec<Change> {
    days(365)
}

/// The first days of the year.
fn days(number: u32) -> Vec<Change> {
    let mut draw = Draw::new(2024);
    let mut input = Input::default();
    let (mut next_set, mut next_update) = (1, 1);
    while next_set < number * DAY {
        let next_end = input.ends.peek().map_or(u32::MAX, |end| end.0.0);
        if next_end <= next_set && next_end <= next_update {
            input.clear_next();
        } else if next_update < next_set {
            input.update(next_update, &mut draw);
            next_update += draw.wait(f64::from(DAY) / 90.0);
        } else {
            let life =
                if draw.below(10) == 0 { draw.wait(8.0 * f64::from(DAY)) } else { draw.wait(f64::from(DAY) / 8.0) };
            input.set(next_set, life, &mut draw);
            next_set += draw.wait(f64::from(DAY) / 405.0);
        }
    }
    input.changes
}

/// Bursts of 20 to 1,500 sets, 30 a second, with a new reading now and then; then 24 of 25 are cleared again in any
/// order as fast. The rest stand for some 20 bursts.
pub fn stress() -> Vec<Change> {
    let mut draw = Draw::new(77);
    let mut input = Input::default();
    let mut second = 0;
    while input.changes.len() < 700_000 {
        second += draw.below(5000);
        let burst = 20 + draw.below(1480);
        for i in 0..burst {
            let life = if draw.below(25) == 0 { 20_000 + draw.below(80_000) } else { 60 + draw.below(burst / 30 + 5) };
            input.set(second + i / 30, life, &mut draw);
            if draw.below(20) == 0 {
                input.update(second + i / 30, &mut draw);
            }
        }
        second += burst / 30 + 1;
        while input.ends.peek().is_some_and(|end| end.0.0 <= second + 2000) {
            second = second.max(input.ends.peek().map_or(0, |end| end.0.0));
            input.clear_next();
        }
    }
    input.changes
}

/// Changes so far, and when each standing tag will be cleared.
struct Input {
    changes: Vec<Change>,
    ends: BinaryHeap<Reverse<(u32, u32)>>,
    standing: Vec<bool>,
}

impl Default for Input {
    fn default() -> Input {
        Input { changes: Vec::new(), ends: BinaryHeap::new(), standing: vec![false; TAGS as usize] }
    }
}

impl Input {
    fn push(&mut self, second: u32, tag: u32, reading: i32, kind: Kind) {
        self.changes.push(Change { second, tag, reading, kind });
    }

    /// Sets a free tag that will be cleared after `life` seconds.
    fn set(&mut self, second: u32, life: u32, draw: &mut Draw) {
        let mut tag = draw.below(TAGS);
        while self.standing[tag as usize] {
            tag = draw.below(TAGS);
        }
        self.standing[tag as usize] = true;
        self.ends.push(Reverse((second + life, tag)));
        let reading = draw.below(4000) as i32 - 2000;
        self.push(second, tag, reading, Kind::Set);
    }

    fn clear_next(&mut self) {
        if let Some(Reverse((second, tag))) = self.ends.pop() {
            self.standing[tag as usize] = false;
            let second = self.changes.last().map_or(second, |last| second.max(last.second));
            self.push(second, tag, 0, Kind::Clear);
        }
    }

    /// A new reading of some standing tag.
    fn update(&mut self, second: u32, draw: &mut Draw) {
        let from = draw.below(TAGS) as usize;
        let tags = (from..TAGS as usize).chain(0..from);
        if let Some(tag) = tags.into_iter().find(|&tag| self.standing[tag]) {
            let reading = draw.below(4000) as i32 - 2000;
            self.push(second, tag as u32, reading, Kind::Update);
        }
    }
}

/// One change by a register's call.
pub fn apply<R: Calls>(store: &mut [u32], change: &Change) -> Result<(), Refusal> {
    match change.kind {
        Kind::Set => R::set(store, change.second, change.tag, change.reading),
        Kind::Clear => R::clear(store, change.second, change.tag),
        Kind::Update => R::update(store, change.second, change.tag, change.reading),
    }
}

/// The changes up to the first that finds no block left.
pub fn cut(changes: &[Change], settings: Settings) -> &[Change] {
    let mut store = vec![0; settings.words()];
    Independent::start(&mut store, settings).expect("sound settings");
    for (i, change) in changes.iter().enumerate() {
        match apply::<Independent>(&mut store, change) {
            Ok(()) => {}
            Err(refusal) if refusal == Refusal::OUT_OF_BLOCKS => return &changes[..i],
            Err(refusal) => panic!("change {i}, {change:?}: {refusal}"),
        }
    }
    changes
}

/// Seconds of a history to look back at: spread over a hundredth of it that begins at `from` hundredths.
pub fn seconds(changes: &[Change], from: u32, how_many: u32) -> Vec<u32> {
    let last = changes.last().map_or(0, |change| change.second);
    let (first, width) = (u64::from(last) * u64::from(from) / 100, u64::from(last) / 100);
    (0..how_many).map(|i| (first + width * u64::from(i) / u64::from(how_many)) as u32).collect()
}

/// Windows of so many seconds, which end at seconds spread over all of a history that have as many before them.
pub fn windows(changes: &[Change], seconds: u32, how_many: u32) -> Vec<Span> {
    let end = changes.last().map_or(0, |change| change.second);
    let (earliest, parts) = (end.min(seconds - 1), u64::from(how_many));
    let later = |i: u64| (u64::from(end - earliest) * i / parts) as u32;
    (1..=parts).map(|i| Span::up_to(earliest + later(i), seconds)).collect()
}
