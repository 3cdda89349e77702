//! Short stores, short buffers and arguments at their limits, run by both registers: all words are the same.
mod common;
use bench::{Calls, Independent, OPEN, Proved, Refusal, Settings};
use common::damage::Map;
use common::history::{History, TEMPERS};
use common::{Call, Pair, Rng, settings};

const SECONDS: [u32; 8] = [0, 1, 7, 8, 9, OPEN - 1, OPEN, 1 << 31];

/// A store after the printed input of document 01.
fn printed_store() -> (Settings, Vec<u32>) {
    let s = settings(4, 2, 8, 16);
    let mut store = vec![0; s.words()];
    Proved::start(&mut store, s).unwrap();
    for (second, tag, reading) in [(1, 1, 25), (2, 2, -25), (3, 3, 5), (4, 4, 140), (5, 5, 0)] {
        Proved::set(&mut store, second, tag, reading).unwrap();
    }
    for (second, tag) in [(6, 2), (7, 3), (8, 1)] {
        Proved::clear(&mut store, second, tag).unwrap();
    }
    (s, store)
}

/// Each call with each of the listed arguments.
fn all_calls(s: Settings) -> Vec<Call> {
    let mut calls = vec![Call::Start(s)];
    for second in SECONDS {
        calls.push(Call::Advance { second });
        for tag in [0, 1, 2, 4, 5, s.tags - 1, s.tags, 4095, 4096, OPEN] {
            calls.push(Call::Set { second, tag, reading: i32::MIN });
            calls.push(Call::Clear { second, tag });
            calls.push(Call::Update { second, tag, reading: -1 });
        }
        for rows in [0, 1, s.row_words() - 1, s.row_words(), s.row_words() + 1] {
            for list in [0, s.blocks as usize - 1, s.blocks as usize, s.blocks as usize + 1] {
                calls.push(Call::LookBack { second, rows, list });
            }
            for last in SECONDS {
                calls.push(Call::Window { first: second, last, rows });
            }
        }
    }
    calls
}

/// Each call on each length of store: none, fewer than a head, fewer than the layout, the layout, more.
#[test]
fn store_lengths() {
    let (s, printed) = printed_store();
    let mut rng = Rng::new(1);
    let mut pair = Pair::default();
    let words = s.words();
    for length in (0..=17).chain([4383, 4384, 4399, 4400, 4401, words - 1, words, words + 1, words + 5]) {
        let store: Vec<u32> = (0..length).map(|i| printed.get(i).copied().unwrap_or(7)).collect();
        for call in all_calls(s) {
            pair.reset(&store);
            let _ = pair.call(call, &mut rng);
        }
    }
    println!("edges, store lengths: {}", pair.totals);
}

/// Row buffers of 3 D words are long enough, and so are longer ones; shorter ones are refused and left as they were.
#[test]
fn row_buffer_lengths() {
    fn asked<R: Calls>(s: Settings, store: &[u32], rows: usize, list: usize) -> Option<u32> {
        let (mut rows, mut list) = (vec![9; rows], vec![9; list]);
        match R::look_back(store, 7, &mut rows, &mut list) {
            Ok(answer) => {
                assert_eq!((&rows[..9], &list[..2]), (&[5, 0, 5, 1, 25, 1, 4, 140, 4][..], &[2, 1][..]));
                assert!(rows[9..].iter().chain(&list[2..]).all(|&word| word == 9), "words after the rows of {s:?}");
                Some(answer.rows)
            }
            Err(refusal) => {
                assert_eq!(refusal, Refusal::SHORT_BUFFER);
                assert!(rows.iter().chain(&list).all(|&word| word == 9), "refused, and wrote");
                None
            }
        }
    }
    let (s, printed) = printed_store();
    let (rows, list) = (3 * s.tags as usize, s.blocks as usize);
    for (rows, list, told) in [
        (rows, list, Some(3)),
        (rows + 1, list + 1, Some(3)),
        (rows - 1, list, None),
        (2 * s.tags as usize, list, None), // as long as a row had two words
        (0, list, None),
        (rows, list - 1, None),
    ] {
        assert_eq!(asked::<Proved>(s, &printed, rows, list), told, "proved, {rows} and {list} words");
        assert_eq!(asked::<Independent>(s, &printed, rows, list), told, "independent, {rows} and {list} words");
    }
}

/// Each head word at each edge, with each call.
#[test]
fn head_words() {
    let (s, printed) = printed_store();
    let mut rng = Rng::new(2);
    let mut pair = Pair::default();
    let words = [
        0,
        1,
        2,
        3,
        4,
        5,
        8,
        9,
        15,
        16,
        17,
        31,
        32,
        33,
        63,
        64,
        65,
        4095,
        4096,
        4097,
        7000,
        7001,
        7002,
        1 << 31,
        OPEN - 1,
        OPEN,
    ];
    for at in 0..16 {
        for word in words {
            for call in all_calls(s).into_iter().step_by(5) {
                let mut store = printed.clone();
                store[at] = word;
                pair.reset(&store);
                let _ = pair.call(call, &mut rng);
            }
        }
    }
    println!("edges, head words: {}", pair.totals);
}

/// Start with all settings at and about their limits, on stores that fit, and that lack a word.
#[test]
fn settings_of_start() {
    let mut rng = Rng::new(3);
    let mut pair = Pair::default();
    let many = [0, 1, 2, 4095, 4096, 4097, OPEN];
    for block in [0, 1, 2, 3, 4, 63, 64, 65, 1 << 30, OPEN] {
        for useful in [0, 1, 2, 3, 31, 32, 33, 1 << 31, (1 << 31) + 1, OPEN] {
            for blocks in many {
                for tags in many {
                    start_on_fitting_store(settings(block, useful, blocks, tags), &mut pair, &mut rng);
                }
            }
        }
    }
    println!("edges, settings of start: {}", pair.totals);
}

fn start_on_fitting_store(s: Settings, pair: &mut Pair, rng: &mut Rng) {
    let usual = s.block <= 64 && s.blocks <= 4096 && s.tags <= 4096;
    let words = if usual { s.words() } else { 40 };
    for length in [words + 1, words, words - 1] {
        pair.reset(&vec![0x5a5a_5a5a; length]);
        let _ = pair.call(Call::Start(s), rng);
    }
}

/// The last seconds before OPEN.
#[test]
fn last_seconds() {
    let s = settings(4, 2, 30, 10);
    let mut rng = Rng::new(4);
    let mut pair = Pair::new(&vec![0; s.words()]);
    let mut history = History::new(s);
    pair.call(Call::Start(s), &mut rng).unwrap();
    let first = Call::Advance { second: OPEN - 8 };
    pair.call(first, &mut rng).unwrap();
    history.follow(first);
    for _ in 0..400 {
        let call = history.draw(TEMPERS[1], &mut rng);
        if pair.call(call, &mut rng).is_ok() {
            history.follow(call);
        }
    }
    println!("edges, last seconds: {}", pair.totals);
}

/// The deepest visits that words can ask for: 4,095 blocks, each the left, or the last child, of the one before.
#[test]
fn deep_visits() {
    let s = settings(2, 1, 4096, 16);
    let map = Map { settings: s };
    let mut rng = Rng::new(5);
    let mut pair = Pair::default();
    for by_left in [true, false] {
        let mut store = vec![0; s.words()];
        Proved::start(&mut store, s).unwrap();
        (store[5], store[7], store[8]) = (4096, 1, if by_left { 4095 } else { 1 });
        for n in 1..=4096 {
            store[map.block(n, 1)] = OPEN;
            if n < 4096 {
                store[map.block(n, if by_left { 3 } else { 4 })] = if by_left { n - 1 } else { (n + 1) % 4096 };
            }
        }
        pair.reset(&store);
        pair.call(Call::LookBack { second: 0, rows: s.row_words(), list: 4096 }, &mut rng).unwrap();
        assert_eq!(pair.told.answer[2], 4096);
    }
    println!("edges, deep visits: {}", pair.totals);
}
