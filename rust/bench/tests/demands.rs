//! The proved register against the plain log (demand 2, and windows) and the block book (demand 3) of document 01.
mod common;
use bench::{Answer, Calls, OPEN, Proved, ROW, Refusal, Settings};
use common::damage::Map;
use common::history::{TEMPERS, Temper};
use common::witness::Witness;
use common::{Rng, settings};
use std::collections::BTreeMap;

/// A history of some calls, each compared.
fn run(s: Settings, temper: Temper, calls: u32, seed: u64) -> Witness {
    let mut rng = Rng::new(seed);
    let mut witness = Witness::new(s, &mut rng);
    for i in 0..calls {
        let call = witness.history.draw(temper, &mut rng);
        witness.step(call, &mut rng);
        if i % 7 == 0 {
            witness.check_book();
        }
    }
    witness.check_book();
    witness
}

#[test]
fn log_and_book() {
    let (mut looked, mut crossed, mut changed, mut seed) = (0, 0, 0, 9000);
    for (b, q) in [(2, 1), (3, 1), (4, 1), (4, 2), (5, 2), (8, 4), (16, 5), (32, 16), (33, 16), (63, 31), (64, 32)] {
        for (blocks, tags) in [(1, 5), (9, 12), (60, 100)] {
            for (number, temper) in TEMPERS.into_iter().enumerate() {
                seed += 1;
                let told = std::panic::catch_unwind(|| run(settings(b, q, blocks, tags), temper, 500, seed));
                let Ok(witness) = told else {
                    panic!("in: b {b}, q {q}, {blocks} blocks, {tags} tags, temper {number}, seed {seed}");
                };
                looked += witness.looked;
                crossed += witness.crossed;
                changed += witness.changed;
            }
        }
    }
    println!("demands: {changed} accepted changes, {looked} answered look-backs, {crossed} answered windows");
}

/// "The log must agree for every pair of seconds": of short histories each pair, from before the first change to the
/// clock.
#[test]
fn every_pair_of_seconds() {
    let (mut crossed, mut seed) = (0, 12_000);
    for (b, q, blocks, tags) in [(2, 1, 60, 5), (3, 1, 60, 9), (4, 2, 8, 16), (5, 2, 30, 12), (16, 5, 9, 40)] {
        for temper in TEMPERS {
            for _ in 0..3 {
                seed += 1;
                let witness = run(settings(b, q, blocks, tags), temper, 200, seed);
                let (clock, rows) = (witness.history.clock, witness.settings.row_words());
                let states: Vec<_> = (0..=clock).map(|t| witness.log.state(t)).collect();
                for first in 0..=clock {
                    witness.check_one_second(first);
                    let mut stood = BTreeMap::new();
                    for last in first..=clock {
                        stood.extend(states[last as usize].clone());
                        witness.check_window(first, last, rows, &stood);
                        crossed += 1;
                    }
                }
            }
        }
    }
    println!("demands: {crossed} windows of every pair of seconds");
    assert!(crossed > 100_000);
}

/// A condition that is copied from block to block stands since its last set or new reading, also if that was equal.
#[test]
fn since_of_copies() {
    let s = settings(4, 2, 60, 16);
    let (kept, other) = (3, 5);
    let place = Map { settings: s }.directory() + kept as usize;
    let (mut store, mut rows, mut list) = (vec![0; s.words()], vec![0; s.row_words()], vec![0; s.blocks as usize]);
    Proved::start(&mut store, s).unwrap();
    Proved::set(&mut store, 1, kept, 25).unwrap();
    let (mut since, mut copies) = (1, 0);
    for second in 2..80 {
        let before = store[place];
        Proved::set(&mut store, second, other, 0).unwrap();
        copies += u32::from(store[place] != before);
        Proved::clear(&mut store, second, other).unwrap();
        if second == 40 {
            Proved::update(&mut store, second, kept, 25).unwrap();
            since = second;
        }
        let answer = Proved::look_back(&store, second, &mut rows, &mut list).unwrap();
        assert_eq!((answer.rows, &rows[..ROW]), (1, &[kept, 25, since][..]), "at {second}");
    }
    assert!(copies > 20, "it was copied {copies} times");
}

/// Document 01's printed case, as the safe calls give it.
#[test]
fn printed_case() {
    let s = settings(4, 2, 8, 16);
    let mut store = vec![0; 4624];
    assert_eq!(Proved::start(&mut store[..4623], s), Err(Refusal::SHORT_STORE));
    Proved::start(&mut store, s).unwrap();
    for (second, tag, reading) in [(1, 1, 25), (2, 2, -25), (3, 3, 5), (4, 4, 140), (5, 5, 0)] {
        Proved::set(&mut store, second, tag, reading).unwrap();
    }
    for (second, tag) in [(6, 2), (7, 3), (8, 1)] {
        Proved::clear(&mut store, second, tag).unwrap();
    }
    let (mut rows, mut list) = (vec![0; 48], vec![0; 8]);
    assert_eq!(Proved::look_back(&store, 7, &mut rows[..47], &mut list), Err(Refusal::SHORT_BUFFER));
    let answer = Proved::look_back(&store, 7, &mut rows, &mut list).unwrap();
    assert_eq!(answer, Answer { rows: 3, pages: 1, blocks: 2, page: [0, OPEN, OPEN] });
    assert_eq!((&rows[..9], &list[..2]), (&[5, 0, 5, 1, 25, 1, 4, 140, 4][..], &[2, 1][..]));
    let answer = Proved::look_back(&store, 8, &mut rows, &mut list).unwrap();
    assert_eq!((answer.rows, &rows[..6]), (2, &[5, 0, 5, 4, 140, 4][..])); // tag 4 was copied at 8, and stands since 4
    assert_eq!(Proved::look_back(&store, 9, &mut rows, &mut list), Err(Refusal::LATE));
    Proved::update(&mut store, 9, 4, -7).unwrap();
    let answer = Proved::look_back(&store, 9, &mut rows, &mut list).unwrap();
    assert_eq!((answer.rows, &rows[3..6]), (2, &[4, OPEN - 6, 9][..])); // tag, reading and since, no two of them alike
}
