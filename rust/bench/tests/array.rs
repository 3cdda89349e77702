//! The second build of the changes, whose closings go through an array: on honest histories and on damaged stores every
//! change has the proved register's answer, and leaves its words.
mod common;
use bench::{Calls, OPEN, Proved, Settings, ThroughArray};
use common::damage::{Map, one_word};
use common::history::{History, TEMPERS, Temper};
use common::pair::change;
use common::{Call, Outcome, Rng, settings};

/// Equal stores of both builds.
struct Builds {
    seed: u64,
    straight: Vec<u32>,
    through_array: Vec<u32>,
}

impl Builds {
    fn of(seed: u64, words: Vec<u32>) -> Builds {
        Builds { seed, through_array: words.clone(), straight: words }
    }

    /// Makes a change or clock move by both builds.
    fn make(&mut self, call: Call) -> Outcome {
        let straight = change::<Proved>(&mut self.straight, call);
        let through_array = change::<ThroughArray>(&mut self.through_array, call);
        assert_eq!(straight, through_array, "seed {}, {call:?}", self.seed);
        assert!(self.straight == self.through_array, "seed {}: other words after {call:?}", self.seed);
        straight
    }

    /// How many of blocks 1 to N are closed, by their words.
    fn closed(&self, s: Settings) -> u32 {
        let map = Map { settings: s };
        let blocks = 1..=self.straight[5].min(s.blocks);
        blocks.map(|n| u32::from(self.straight[map.block(n, 1)] != OPEN)).sum()
    }

    /// Records placed, by the head.
    fn placed(&self, s: Settings) -> u32 {
        if self.straight[5] == 0 { 0 } else { (self.straight[5] - 1) * s.block + self.straight[7] }
    }
}

/// Accepted sets, clears and new readings; the blocks that they closed, and the records that these moved on.
#[derive(Default)]
struct Totals {
    accepted: u32,
    closed: u32,
    moved: u32,
}

/// A change or clock move; queries leave the store as it is, and are not made.
fn draw(history: &History, temper: Temper, rng: &mut Rng) -> Call {
    loop {
        let call = history.draw(temper, rng);
        if !call.is_query() {
            return call;
        }
    }
}

fn is_change(call: Call) -> bool {
    matches!(call, Call::Set { .. } | Call::Clear { .. } | Call::Update { .. })
}

/// Some changes, drawn as the history goes on, on its store with one to six words changed.
fn damage(s: Settings, honest: &Builds, history: &History, rng: &mut Rng, totals: &mut Totals) {
    let mut words = honest.straight.clone();
    for _ in 0..1 + rng.below(6) {
        one_word(Map { settings: s }, &mut words, rng);
    }
    let mut builds = Builds::of(honest.seed, words);
    let before = builds.closed(s);
    for _ in 0..1 + rng.below(5) {
        let call = draw(history, TEMPERS[1], rng);
        totals.accepted += u32::from(builds.make(call).is_ok() && is_change(call));
    }
    totals.closed += builds.closed(s).saturating_sub(before);
}

/// One history by both builds; after each call a copy of its store is damaged, too.
fn run(s: Settings, temper: Temper, calls: u32, seed: u64, totals: &mut Totals, damaged: &mut Totals) {
    let mut rng = Rng::new(seed);
    let mut words = vec![0; s.words()];
    Proved::start(&mut words, s).expect("settings and store are sound");
    let mut builds = Builds::of(seed, words);
    let mut history = History::new(s);
    let mut placed_by_calls = 0;
    for _ in 0..calls {
        let call = draw(&history, temper, &mut rng);
        if builds.make(call).is_ok() {
            history.follow(call);
            totals.accepted += u32::from(is_change(call));
            placed_by_calls += u32::from(matches!(call, Call::Set { .. } | Call::Update { .. }));
        }
        damage(s, &builds, &history, &mut rng, damaged);
    }
    totals.closed += builds.closed(s);
    totals.moved += builds.placed(s) - placed_by_calls;
}

#[test]
fn same_words() {
    let (mut totals, mut damaged) = (Totals::default(), Totals::default());
    let all = [(2, 1), (3, 1), (4, 2), (8, 2), (8, 4), (33, 16), (64, 1), (64, 32)];
    for (seed, (b, q)) in all.into_iter().enumerate() {
        for (at, temper) in TEMPERS.into_iter().enumerate() {
            let seed = seed as u64 * 10 + at as u64;
            run(settings(b, q, 60, 200), temper, 2_000, seed, &mut totals, &mut damaged);
        }
    }
    let Totals { accepted, closed, moved } = totals;
    println!(
        "both builds: {accepted} accepted changes left the same words; {closed} blocks closed, {moved} records moved"
    );
    println!("damaged: {} accepted changes left the same words; {} blocks closed", damaged.accepted, damaged.closed);
    assert!(accepted > 20_000 && closed > 1_000 && moved > 5_000);
    assert!(damaged.accepted > 20_000 && damaged.closed > 1_000);
}
