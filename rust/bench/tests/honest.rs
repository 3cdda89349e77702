//! Every call of many honest histories, run by the proved and by the independent register: all words are the same.
mod common;
use bench::Settings;
use common::history::{History, TEMPERS, Temper};
use common::{Call, Pair, Rng, Totals, settings};

/// Runs one history of `calls` calls and gives the totals; a difference panics after the seed is printed.
fn run(s: Settings, temper: Temper, calls: u32, seed: u64) -> Totals {
    let mut rng = Rng::new(seed);
    let spare = rng.below(6) as usize;
    let words: Vec<u32> = (0..s.words() + spare).map(|_| rng.word()).collect();
    let mut pair = Pair::new(&words);
    let mut history = History::new(s);
    pair.call(Call::Start(s), &mut rng).expect("settings and store are sound");
    for _ in 0..calls {
        let call = history.draw(temper, &mut rng);
        let outcome = pair.call(call, &mut rng);
        assert!(outcome.err().is_none_or(|refusal| refusal.number() != 12), "refusal 12 after an honest history");
        if outcome.is_ok() {
            history.follow(call);
        }
    }
    pair.totals
}

fn run_named(s: Settings, temper: usize, calls: u32, seed: u64, totals: &mut Totals) {
    let told = std::panic::catch_unwind(|| run(s, TEMPERS[temper], calls, seed));
    match told {
        Ok(some) => {
            totals.calls += some.calls;
            totals.by_number.iter_mut().zip(some.by_number).for_each(|(sum, n)| *sum += n);
        }
        Err(panic) => {
            eprintln!("in: {s:?}, temper {temper}, {calls} calls, seed {seed}");
            std::panic::resume_unwind(panic);
        }
    }
}

/// Small stores, so that blocks run out often; every q for each b.
#[test]
fn small_stores() {
    let mut totals = Totals::default();
    let mut seed = 1000;
    for b in [2, 3, 4, 5, 8, 16, 32, 33, 63, 64] {
        for q in (1..=b / 2).filter(|q| b <= 16 || [1, 2, b / 4, b / 2 - 1, b / 2].contains(q)) {
            for (blocks, tags) in [(1, 3), (2, 40), (3, 1), (12, 16), (40, 100), (300, 30)] {
                for temper in 0..TEMPERS.len() {
                    seed += 1;
                    run_named(settings(b, q, blocks, tags), temper, 600, seed, &mut totals);
                }
            }
        }
    }
    println!("honest, small stores: {totals}");
    assert!(totals.by_number[13] > 1000 && totals.by_number[0] > 100_000);
}

/// Stores with many blocks, so that the index has two and three levels.
#[test]
fn many_blocks() {
    let mut totals = Totals::default();
    let cases = [
        (2, 1, 4096, 16, 1, 14_000),
        (2, 1, 4096, 64, 2, 14_000),
        (3, 1, 4096, 64, 0, 14_000),
        (4, 2, 2000, 300, 1, 12_000),
        (5, 2, 700, 50, 0, 8_000),
        (8, 4, 500, 4096, 3, 8_000),
    ];
    for (seed, (b, q, blocks, tags, temper, calls)) in cases.into_iter().enumerate() {
        run_named(settings(b, q, blocks, tags), temper, calls, 50 + seed as u64, &mut totals);
    }
    println!("honest, many blocks: {totals}");
}

/// The largest settings.
#[test]
fn largest() {
    let mut totals = Totals::default();
    for (seed, (b, q)) in [(64, 1), (64, 32), (63, 31), (33, 16)].into_iter().enumerate() {
        run_named(settings(b, q, 4096, 4096), seed % 4, 1_500, 70 + seed as u64, &mut totals);
    }
    println!("honest, largest: {totals}");
}
