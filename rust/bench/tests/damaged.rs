//! Every call on damaged stores, run by the proved and by the independent register: all words are the same.
mod common;
use bench::{Answer, Calls, Independent, OPEN, Proved, ROW, Settings};
use common::damage::{Map, drawn_store, edge, one_word};
use common::history::{History, TEMPERS};
use common::{Call, Pair, Rng, Totals, settings};
use std::sync::atomic::AtomicU32;
use std::sync::atomic::Ordering::Relaxed;

const SETTINGS: [(u32, u32, u32, u32); 14] = [
    (2, 1, 6, 5),
    (2, 1, 40, 9),
    (3, 1, 12, 8),
    (4, 2, 8, 16),
    (4, 1, 20, 12),
    (5, 2, 9, 30),
    (8, 4, 10, 16),
    (8, 2, 30, 40),
    (16, 8, 6, 50),
    (16, 3, 9, 20),
    (32, 16, 5, 60),
    (33, 16, 5, 70),
    (63, 31, 4, 90),
    (64, 32, 4, 100),
];

/// A store as an honest history of some length left it.
fn honest_store(s: Settings, rng: &mut Rng) -> Vec<u32> {
    let mut store = vec![0; s.words()];
    let mut history = History::new(s);
    Proved::start(&mut store, s).expect("sound settings");
    let temper = rng.pick(&TEMPERS);
    for _ in 0..rng.below(4 * s.block * s.blocks.min(12)) {
        let call = history.draw(temper, rng);
        if !call.is_query() && common::pair::change::<Proved>(&mut store, call).is_ok() {
            history.follow(call);
        }
    }
    store
}

/// A call on a store of any words; tags that the directory knows and seconds at the clock are preferred.
fn draw_call(s: Settings, store: &[u32], rng: &mut Rng) -> Call {
    let clock = store[6];
    let second = match rng.below(8) {
        0 => edge(s, store, rng),
        1 => clock.wrapping_add(1),
        _ => clock,
    };
    let mut tag = if rng.chance(1, 30) { edge(s, store, rng) } else { rng.below(s.tags) };
    let directory = Map { settings: s }.directory();
    let reading = rng.word() as i32;
    let kind = rng.below(20);
    let wants_standing = kind >= 5;
    for _ in 0..12 {
        if tag < s.tags && (store[directory + tag as usize] != 0) != wants_standing {
            tag = rng.below(s.tags);
        }
    }
    match kind {
        0..5 => Call::Set { second, tag, reading },
        5..9 => Call::Clear { second, tag },
        9..12 => Call::Update { second, tag, reading },
        12 => Call::Advance { second },
        13..17 => draw_look_back(s, store, rng),
        _ => draw_window(s, store, rng),
    }
}

/// A second to ask about, mostly up to the clock.
fn draw_past(s: Settings, store: &[u32], rng: &mut Rng) -> u32 {
    let clock = store[6];
    match rng.below(8) {
        0 => edge(s, store, rng),
        1 | 2 => clock,
        _ => rng.below(clock.max(1)),
    }
}

fn draw_look_back(s: Settings, store: &[u32], rng: &mut Rng) -> Call {
    let second = draw_past(s, store, rng);
    let (rows, list) = (s.row_words(), s.blocks as usize);
    let (less, more) = (usize::from(rng.chance(1, 60)), rng.below(3) as usize);
    Call::LookBack { second, rows: rows + more - less * rng.below(2) as usize, list: list + more - less }
}

/// A window, mostly with its two seconds in order.
fn draw_window(s: Settings, store: &[u32], rng: &mut Rng) -> Call {
    let (one, other) = (draw_past(s, store, rng), draw_past(s, store, rng));
    let (first, last) = if rng.chance(1, 12) { (one, other) } else { (one.min(other), one.max(other)) };
    let less = usize::from(rng.chance(1, 60));
    Call::Window { first, last, rows: s.row_words() + rng.below(3) as usize * (1 - less) - less }
}

/// Calls on a damaged store, each on what the one before left.
fn try_calls(s: Settings, pair: &mut Pair, rng: &mut Rng) {
    for _ in 0..1 + rng.below(5) {
        let call = draw_call(s, pair.store(), rng);
        let _ = pair.call(call, rng);
    }
}

/// Runs `trials` damaged stores from `seed`; a difference panics after the seed is printed.
fn run(
    name: &str,
    seeds: std::ops::Range<u64>,
    trial: impl Fn(Settings, &mut Pair, &mut Rng) + std::panic::RefUnwindSafe,
) -> Totals {
    let mut pair = Pair::default();
    for seed in seeds {
        let mut rng = Rng::new(seed);
        let (b, q, blocks, tags) = rng.pick(&SETTINGS);
        let s = settings(b, q, blocks, tags);
        let told = std::panic::catch_unwind(std::panic::AssertUnwindSafe(|| trial(s, &mut pair, &mut rng)));
        if let Err(panic) = told {
            eprintln!("in: {name}, seed {seed}, {s:?}");
            std::panic::resume_unwind(panic);
        }
    }
    println!("damaged, {name}: {}", pair.totals);
    pair.totals
}

/// An honest store with one to six words changed, many times over.
#[test]
fn changed_words() {
    let totals = run("changed words", 0..60_000, |s, pair, rng| {
        let honest = honest_store(s, rng);
        for _ in 0..24 {
            let mut store = honest.clone();
            for _ in 0..1 + rng.below(6) {
                one_word(Map { settings: s }, &mut store, rng);
            }
            pair.reset(&store);
            try_calls(s, pair, rng);
        }
    });
    for number in [0, 3, 5, 6, 7, 8, 9, 10, 11, 12, 13, 14] {
        assert!(totals.by_number[number] > 100, "refusal {number} came {} times", totals.by_number[number]);
    }
}

/// Drawn words under a head that passes its tests.
#[test]
fn drawn_words() {
    let totals = run("drawn words", 1_000_000..1_300_000, |s, pair, rng| {
        let store = drawn_store(s, rng);
        for _ in 0..4 {
            pair.reset(&store);
            try_calls(s, pair, rng);
        }
    });
    for number in [0, 12, 13] {
        assert!(totals.by_number[number] > 100, "refusal {number} came {} times", totals.by_number[number]);
    }
}

/// Stores that are all one word, or all random, with and without a mark.
#[test]
fn plain_words() {
    run("plain words", 2_000_000..2_050_000, |s, pair, rng| {
        let word = edge(s, &[7001, 4, 2, 8, 16, 3, 9, 2], rng);
        let mut store: Vec<u32> = match rng.below(3) {
            0 => vec![word; s.words()],
            1 => (0..s.words()).map(|_| rng.word()).collect(),
            _ => (0..s.words()).map(|_| rng.below(70)).collect(),
        };
        if rng.chance(3, 4) {
            let (opened, fill) = (1 + rng.below(s.blocks), 1 + rng.below(s.block));
            let head = [7001, s.block, s.useful, s.blocks, s.tags, opened, rng.word() >> 1, fill];
            store[..8].copy_from_slice(&head);
            store[10..16].fill(0);
        }
        pair.reset(&store);
        try_calls(s, pair, rng);
    });
}

/// Two- and three-level indexes with damage.
#[test]
fn changed_words_of_many_blocks() {
    let mut pair = Pair::default();
    for (seed, (b, q, blocks, tags)) in [(2, 1, 400, 16), (2, 1, 1500, 40), (3, 1, 4096, 20)].into_iter().enumerate() {
        let s = settings(b, q, blocks, tags);
        let mut rng = Rng::new(3_000_000 + seed as u64);
        let mut honest = vec![0; s.words()];
        let mut history = History::new(s);
        Proved::start(&mut honest, s).expect("sound settings");
        while honest[5] + 8 < blocks {
            let call = history.draw(TEMPERS[1], &mut rng);
            if !call.is_query() && common::pair::change::<Proved>(&mut honest, call).is_ok() {
                history.follow(call);
            }
        }
        for _ in 0..12_000 {
            let mut store = honest.clone();
            for _ in 0..1 + rng.below(8) {
                one_word(Map { settings: s }, &mut store, &mut rng);
            }
            pair.reset(&store);
            try_calls(s, &mut pair, &mut rng);
        }
    }
    println!("damaged, many blocks: {}", pair.totals);
}

/// A look-back at the clock: its answer, and both buffers whole, with words to spare.
fn look_at_clock<R: Calls>(s: Settings, store: &[u32]) -> (Answer, Vec<u32>, Vec<u32>) {
    let (mut rows, mut list) = (vec![9; s.row_words() + 4], vec![9; s.blocks as usize + 4]);
    let answer = R::look_back(store, store[6], &mut rows, &mut list).expect("no call tests since");
    assert!(rows[ROW * answer.rows as usize..].iter().all(|&word| word == 9), "words after the rows");
    assert!(list[answer.blocks as usize..].iter().all(|&word| word == 9), "words after the list");
    (answer, rows, list)
}

/// Block, slot and since's word of a tag's standing record, by the directory; none if it does not stand.
fn standing_record(s: Settings, store: &[u32], tag: u32) -> Option<(u32, u32, usize)> {
    let map = Map { settings: s };
    let place = store[map.directory() + tag as usize].checked_sub(1)?;
    let (n, k) = (place / s.block + 1, place % s.block);
    Some((n, k, map.slot(n, k, 4)))
}

/// The look-back at the clock is that of the honest store but for the damaged word in its row, by both registers.
fn shown_as_it_is(s: Settings, honest: &[u32], damaged: &[u32], tag: u32, word: u32) {
    let (answer, mut rows, list) = look_at_clock::<Proved>(s, honest);
    let row = rows.chunks(ROW).take(answer.rows as usize).position(|row| row[0] == tag).expect("the tag stands");
    rows[ROW * row + 2] = word;
    let expected = (answer, rows, list);
    assert!(look_at_clock::<Proved>(s, damaged) == expected, "proved: since {word} of tag {tag}");
    assert!(look_at_clock::<Independent>(s, damaged) == expected, "independent: since {word} of tag {tag}");
}

/// Clears the other tags of the record's block until it closes and its record is copied; false if a clear is refused.
fn close_its_block(s: Settings, pair: &mut Pair, tag: u32, rng: &mut Rng) -> bool {
    let (n, _, first) = standing_record(s, pair.store(), tag).expect("the tag stands");
    let others: Vec<u32> = (0..s.tags)
        .filter(|&other| other != tag && standing_record(s, pair.store(), other).is_some_and(|(m, ..)| m == n))
        .collect();
    for other in others {
        let clear = Call::Clear { second: pair.store()[6], tag: other };
        if pair.call(clear, rng).is_err() {
            return false;
        }
        if standing_record(s, pair.store(), tag).is_some_and(|(.., at)| at != first) {
            return true;
        }
    }
    false
}

/// No call tests since: a damaged one is shown as it is and carried along by copies, and nothing else differs.
#[test]
fn damaged_since() {
    let (shown, copied) = (AtomicU32::new(0), AtomicU32::new(0));
    run("since", 4_000_000..4_020_000, |s, pair, rng| {
        let (honest, tag) = (honest_store(s, rng), rng.below(s.tags));
        let Some((.., at)) = standing_record(s, &honest, tag) else { return };
        let (clock, since) = (honest[6], honest[at]);
        let mut plain = Pair::new(&honest);
        let closes = close_its_block(s, &mut plain, tag, rng);
        for word in [OPEN, 0, clock + 1, clock + 1000] {
            pair.reset(&honest);
            pair.poke(at, word);
            shown_as_it_is(s, &honest, pair.store(), tag, word);
            shown.fetch_add(1, Relaxed);
            assert_eq!(close_its_block(s, pair, tag, rng), closes);
            let (.., now_at) = standing_record(s, pair.store(), tag).expect("it was not cleared");
            assert_eq!((pair.store()[at], pair.store()[now_at], closes), (word, word, now_at != at));
            shown_as_it_is(s, plain.store(), pair.store(), tag, word);
            let words = plain.store().iter().zip(pair.store());
            assert!(words.filter(|(a, b)| a != b).all(|(&a, &b)| (a, b) == (since, word)), "another word differs");
            copied.fetch_add(u32::from(closes), Relaxed);
        }
    });
    println!("damaged, since: {shown:?} shown, {copied:?} carried along by a copy");
    assert!(shown.into_inner() > 1000 && copied.into_inner() > 1000);
}
