//! Windows on words that are written by hand, by both registers: which block is read, which record is the latest, what
//! is unsound, which refusal comes first. Expected rows and words are worked out by hand from the papers. At the end
//! windows on drawn words, on which both must only agree.
mod common;
use bench::{Calls, OPEN, Proved, Refusal};
use common::damage::{Map, drawn_store};
use common::written::Store;
use common::{Call, Pair, Rng, settings};

/// The printed case of document 01, asked for windows.
#[test]
fn printed_case() {
    let s = settings(4, 2, 8, 16);
    let mut words = vec![0; s.words()];
    Proved::start(&mut words, s).unwrap();
    let mut store = Store { map: Map { settings: s }, words };
    store.expect((0, 0), Ok(&[]));
    for (second, tag, reading) in [(1, 1, 25), (2, 2, -25), (3, 3, 5), (4, 4, 140), (5, 5, 0)] {
        Proved::set(&mut store.words, second, tag, reading).unwrap();
    }
    for (second, tag) in [(6, 2), (7, 3), (8, 1)] {
        Proved::clear(&mut store.words, second, tag).unwrap();
    }
    let minus_25 = u32::MAX - 24;
    let [one, two, three, four, five] = [[1, 25, 1], [2, minus_25, 2], [3, 5, 3], [4, 140, 4], [5, 0, 5]];
    store.expect((0, 0), Ok(&[]));
    store.expect((0, 1), Ok(&[one]));
    store.expect((1, 3), Ok(&[one, two, three]));
    store.expect((5, 7), Ok(&[one, two, three, four, five])); // 2 stood at 5, 3 at 6
    store.expect((6, 7), Ok(&[one, three, four, five]));
    store.expect((7, 8), Ok(&[one, four, five]));
    store.expect((8, 8), Ok(&[four, five])); // 4 by its copy, which is from 8 on and since 4
    store.expect((0, 8), Ok(&[one, two, three, four, five]));
    store.expect((0, 9), Err(Refusal::LATE));
    Proved::update(&mut store.words, 9, 4, 150).unwrap();
    store.expect((8, 8), Ok(&[four, five]));
    store.expect((8, 9), Ok(&[[4, 150, 9], five])); // the later reading shows
}

/// Of a tag's records the one with the greatest from is shown, wherever it lies, and whether or not they overlap.
#[test]
fn greatest_from() {
    let mut store = Store::with_blocks(3);
    store.record(1, 2, [7, 700, 50, 60, 1]);
    store.record(2, 0, [7, 701, 20, OPEN, 2]);
    store.record(3, 3, [7, 702, 10, 90, 3]);
    store.expect((0, 100), Ok(&[[7, 700, 1]]));
    store.expect((50, 50), Ok(&[[7, 700, 1]]));
    store.expect((60, 100), Ok(&[[7, 701, 2]])); // the first has ended
    store.expect((40, 49), Ok(&[[7, 701, 2]])); // the first has not begun
    store.expect((0, 19), Ok(&[[7, 702, 3]]));
    store.expect((0, 9), Ok(&[]));
    store.expect((10, 10), Ok(&[[7, 702, 3]]));
}

/// With equal from the greatest place is shown: the later slot, and the later block before that.
#[test]
fn greatest_place() {
    let mut store = Store::with_blocks(3);
    store.record(2, 1, [7, 700, 50, 90, 1]);
    store.expect((0, 100), Ok(&[[7, 700, 1]]));
    store.record(2, 3, [7, 701, 50, 60, 2]);
    store.expect((0, 100), Ok(&[[7, 701, 2]]));
    store.record(3, 0, [7, 702, 50, 51, 3]);
    store.expect((0, 100), Ok(&[[7, 702, 3]]));
    store.record(1, 3, [7, 703, 50, 100, 4]);
    store.expect((0, 100), Ok(&[[7, 702, 3]]));
    store.expect((51, 100), Ok(&[[7, 701, 2]])); // that of block 3 did not stand in it
    store.expect((60, 100), Ok(&[[7, 700, 1]]));
    store.expect((90, 100), Ok(&[[7, 703, 4]]));
}

/// Rows are in ascending order of tags, though the records are not; since is shown as it is.
#[test]
fn ascending_tags() {
    let mut store = Store::with_blocks(2);
    for (slot, tag) in [(0, 15), (1, 0), (2, 8), (3, 3)] {
        store.record(1, slot, [tag, tag + 100, 10 + slot, OPEN, OPEN - tag]);
    }
    store.record(2, 0, [1, 101, 5, OPEN, 0]);
    let rows = [[0, 100, OPEN], [1, 101, 0], [3, 103, OPEN - 3], [8, 108, OPEN - 8], [15, 115, OPEN - 15]];
    store.expect((0, 100), Ok(&rows));
}

/// A record is [from, to): one whose from is its to never shows, nor one whose to is before its from.
#[test]
fn stood_at_some_second() {
    let mut store = Store::with_blocks(1);
    store.record(1, 0, [1, 10, 50, 50, 50]);
    store.record(1, 1, [2, 20, 50, 40, 50]);
    store.record(1, 2, [3, 30, 50, 51, 50]);
    store.record(1, 3, [4, 40, OPEN, OPEN, 50]);
    store.expect((0, 100), Ok(&[[3, 30, 50]]));
    store.expect((45, 45), Ok(&[]));
    store.expect((50, 50), Ok(&[[3, 30, 50]]));
    store.expect((51, 100), Ok(&[]));
    store.expect((0, 49), Ok(&[]));
    store.expect((49, 50), Ok(&[[3, 30, 50]]));
}

/// Blocks opened by the last second and not closed by the first are read, and no others, whatever their records say.
#[test]
fn blocks_read() {
    let mut store = Store::with_blocks(3);
    store.block(1, 0, 40);
    store.block(2, 30, 60);
    store.block(3, 70, OPEN);
    for n in 1..=3 {
        store.record(n, 0, [n, 10 * n, 0, OPEN, n]); // it says that it stood all the time
    }
    let [one, two, three] = [[1, 10, 1], [2, 20, 2], [3, 30, 3]];
    store.expect((0, 29), Ok(&[one]));
    store.expect((0, 30), Ok(&[one, two]));
    store.expect((39, 39), Ok(&[one, two]));
    store.expect((40, 59), Ok(&[two]));
    store.expect((60, 69), Ok(&[]));
    store.expect((60, 70), Ok(&[three])); // not before 70, though its record stood from 0 on
    store.expect((39, 100), Ok(&[one, two, three]));
    store.words[5] = 2;
    store.expect((0, 100), Ok(&[one, two])); // block 3 is above N
    store.words[5] = 4;
    store.expect((0, 100), Ok(&[one, two, three])); // block 4 is read: records of zeros never stood
}

/// A block that opens and closes at one second is read if the window has that second, and one before it.
#[test]
fn block_of_no_second() {
    let mut store = Store::with_blocks(2);
    store.block(1, 50, 50);
    store.block(2, 60, 55);
    store.record(1, 0, [1, 10, 50, 51, 1]);
    store.record(2, 0, [2, 20, 0, OPEN, 2]);
    store.expect((49, 50), Ok(&[[1, 10, 1]]));
    store.expect((50, 50), Ok(&[]));
    store.expect((54, 60), Ok(&[[2, 20, 2]]));
    store.expect((54, 59), Ok(&[]));
    store.expect((55, 60), Ok(&[]));
}

/// A tag of D or more is unsound in a block that is read, if its record stood in the window; else it is passed over.
#[test]
fn unsound_tags() {
    for tag in [16, 17, 4095, 4096, OPEN] {
        let mut store = Store::with_blocks(3);
        store.block(2, 30, 60);
        store.record(1, 0, [5, 55, 0, OPEN, 5]);
        store.record(2, 3, [tag, 1, 40, 50, 1]);
        store.record(3, 0, [6, 66, 0, OPEN, 6]);
        let sound = [[5, 55, 5], [6, 66, 6]];
        for unsound in [(0, 40), (40, 40), (45, 45), (49, 49), (0, 100), (49, 100)] {
            store.expect(unsound, Err(Refusal::UNSOUND));
        }
        for accepted in [(0, 39), (50, 100), (59, 59)] {
            store.expect(accepted, Ok(&sound)); // it did not stand then
        }
        store.block(2, 30, 40);
        store.expect((40, 100), Ok(&sound)); // the block is not read
        store.block(2, 50, 60);
        store.expect((0, 49), Ok(&sound));
        store.record(2, 3, [tag, 1, 55, 55, 1]);
        store.expect((0, 100), Ok(&sound)); // it never stood
        store.words[5] = 1;
        store.record(2, 3, [tag, 1, 0, OPEN, 1]);
        store.expect((0, 100), Ok(&sound[..1])); // the block is above N
    }
}

/// Refusals 5, 14, 7, 11, 12, in this order; each but 12 leaves the buffer, and all leave the answer.
#[test]
fn order_of_refusals() {
    let mut store = Store::with_blocks(1);
    store.record(1, 0, [16, 0, 0, OPEN, 0]);
    let enough = store.settings().row_words();
    for seconds in [(OPEN, OPEN), (OPEN, 5), (5, OPEN), (0, OPEN), (OPEN, 0), (OPEN, 101)] {
        store.expect_with(enough - 1, seconds, Err(Refusal::TIME_OPEN));
        store.expect_with(enough, seconds, Err(Refusal::TIME_OPEN));
    }
    for seconds in [(6, 5), (1, 0), (OPEN - 1, 101), (OPEN - 1, OPEN - 2), (102, 101), (101, 100)] {
        store.expect_with(enough - 1, seconds, Err(Refusal::REVERSED));
        store.expect_with(enough, seconds, Err(Refusal::REVERSED));
    }
    for seconds in [(0, 101), (101, 101), (100, 101), (OPEN - 1, OPEN - 1), (0, OPEN - 1)] {
        store.expect_with(enough - 1, seconds, Err(Refusal::LATE));
        store.expect_with(enough, seconds, Err(Refusal::LATE));
    }
    for buffer in [0, 1, 2, 2 * enough / 3, enough - 1] {
        store.expect_with(buffer, (0, 100), Err(Refusal::SHORT_BUFFER));
    }
    for buffer in [enough, enough + 1, enough + 100] {
        store.expect_with(buffer, (0, 100), Err(Refusal::UNSOUND));
    }
    store.record(1, 0, [15, 0, 0, OPEN, 0]);
    store.expect_with(enough, (100, 100), Ok(&[[15, 0, 0]]));
}

/// Refusals 2, 3 and 4 come before all others.
#[test]
fn store_refusals() {
    for (first, last) in [(0, 0), (OPEN, OPEN), (5, 4), (0, 101)] {
        for buffer in [0, 48] {
            let mut store = Store::with_blocks(1);
            store.words.pop();
            store.expect_with(buffer, (first, last), Err(Refusal::SHORT_STORE));
            store.words[7] = 0;
            store.expect_with(buffer, (first, last), Err(Refusal::HEAD));
            store.words.truncate(16);
            store.expect_with(buffer, (first, last), Err(Refusal::HEAD));
            store.words.truncate(15);
            store.expect_with(buffer, (first, last), Err(Refusal::SHORT_HEAD));
            store.words.clear();
            store.expect_with(buffer, (first, last), Err(Refusal::SHORT_HEAD));
        }
    }
}

/// Rows may fill the buffer whole; the clock may be the last second there is.
#[test]
fn largest() {
    let s = settings(64, 32, 4096, 4096);
    let mut store = Store { map: Map { settings: s }, words: vec![0; s.words()] };
    Proved::start(&mut store.words, s).unwrap();
    for tag in (0..4096).rev() {
        Proved::set(&mut store.words, 5000 - tag, tag, tag as i32).unwrap();
    }
    Proved::advance(&mut store.words, OPEN - 1).unwrap();
    let rows: Vec<[u32; 3]> = (0..4096).map(|tag| [tag, tag, 5000 - tag]).collect();
    store.expect_with(3 * 4096, (0, OPEN - 1), Ok(&rows));
    store.expect_with(3 * 4096, (OPEN - 1, OPEN - 1), Ok(&rows));
    store.expect_with(3 * 4096, (0, 4000), Ok(&rows[1000..]));
    store.expect_with(3 * 4096 - 1, (0, 4000), Err(Refusal::SHORT_BUFFER));
    store.expect_with(3 * 4096, (0, 904), Ok(&[]));
}

/// Drawn words under a head that passes its tests: a tag has several records, in any order, that overlap or not.
#[test]
fn drawn_words() {
    let mut pair = Pair::default();
    for seed in 5_000_000..5_020_000 {
        let mut rng = Rng::new(seed);
        let (b, q, blocks, tags) =
            rng.pick(&[(2, 1, 40, 3), (4, 2, 8, 16), (5, 2, 9, 4), (33, 16, 5, 70), (64, 32, 4, 9)]);
        let s = settings(b, q, blocks, tags);
        let store = drawn_store(s, &mut rng);
        pair.reset(&store);
        for _ in 0..8 {
            let last = rng.below(store[6].saturating_add(1).max(1));
            let first = rng.below(last + 1);
            let _ = pair.call(Call::Window { first, last, rows: s.row_words() + rng.below(3) as usize }, &mut rng);
        }
    }
    println!("windows, drawn words: {}", pair.totals);
    assert!(pair.totals.by_number[0] > 100_000 && pair.totals.by_number[12] > 5_000);
}
