//! Damaged stores: the words that crates/model/src/damage.rt overwrites, and the calls that crates/histories/src/damaged.rt makes then.
use crate::account::{Account, Kind};
use crate::draw::{self, Change};
use crate::lent::Lent;
use crate::random::Random;
use crate::settings::{DIRECTORY, block_word};
use crate::tally::Tally;
use bench::{OPEN, Settings};

const ROUNDS: u32 = 3;

/// A call of a round, but the start at its end.
enum Made {
    LookBack,
    Window,
    Change(Kind),
}

const CALLS: [Made; 12] = [
    Made::LookBack,
    Made::Window,
    Made::Change(Kind::Set),
    Made::LookBack,
    Made::Change(Kind::Clear),
    Made::Change(Kind::Update),
    Made::LookBack,
    Made::Change(Kind::Clear),
    Made::Change(Kind::Advance),
    Made::Change(Kind::Set),
    Made::Window,
    Made::LookBack,
];

/// Each round damages the store as the history left it, makes calls on it, and starts it anew.
pub fn rounds(account: &Account, lent: &mut Lent, tally: &mut Tally, random: &mut Random) {
    let honest = lent.store.clone();
    for _ in 0..ROUNDS {
        lent.store.copy_from_slice(&honest);
        overwrite(account.settings, &mut lent.store, random);
        for call in &CALLS {
            match *call {
                Made::Change(kind) => tally.damaged(&lent.change(kind, &change(account, &lent.store, random))),
                Made::LookBack => look_back(account, lent, tally, random),
                Made::Window => window(account, lent, tally, random),
            }
        }
        tally.damaged(&lent.start(account.length, account.settings));
    }
}

/// Overwrites one to six words, mostly those that calls go by.
fn overwrite(s: Settings, store: &mut [u32], random: &mut Random) {
    let times = random.below(6) + 1;
    let (n, clock) = (store[5], store[6]);
    for _ in 0..times {
        let at = damaged_word(s, n, random);
        store[at] = damaging_word(s, n, clock, random);
    }
}

/// Which word: of the head, the index, the directory, a block's own words or a record.
fn damaged_word(s: Settings, n: u32, random: &mut Random) -> usize {
    let r = random.below(32);
    match r {
        0 => random.below(16) as usize,
        1..4 => index_word(n, random),
        4..8 => DIRECTORY + random.below(s.tags) as usize,
        _ => {
            let block = random.below(n) + 1;
            if r < 26 {
                return block_word(s, block, random.below(8));
            }
            let slot = random.below(s.block);
            block_word(s, block, 8 + 5 * slot + random.below(5))
        }
    }
}

/// A word of one of the index's three levels, among the entries of n blocks.
fn index_word(n: u32, random: &mut Random) -> usize {
    match random.below(3) {
        0 => 16 + random.below(n) as usize,
        1 => 4112 + random.below(n / 16 + 1) as usize,
        _ => 4368 + random.below(3) as usize,
    }
}

/// What with: numbers near what may stand there, or any word.
fn damaging_word(s: Settings, n: u32, clock: u32, random: &mut Random) -> u32 {
    match random.below(8) {
        0 => 0,
        1 => random.below(n + 2),
        2 => random.below(16),
        3 => clock,
        4 => OPEN,
        5 => random.word(),
        6 => random.below(s.tags + 1),
        _ => random.below(n * s.block + 2),
    }
}

/// The second of a call on a damaged store: its clock word or one near it, sometimes any.
fn second(store: &[u32], random: &mut Random) -> u32 {
    match random.below(10) {
        0 => random.word(),
        1..4 => store[6].wrapping_add(random.below(3)),
        _ => store[6],
    }
}

fn change(account: &Account, store: &[u32], random: &mut Random) -> Change {
    let second = second(store, random);
    let tag = random.below(account.settings.tags + 1);
    Change { length: account.length, second, tag, reading: random.word() }
}

/// A second to ask about: often one of the history.
fn past(account: &Account, lent: &Lent, random: &mut Random) -> u32 {
    if random.once_in(3) { second(&lent.store, random) } else { draw::past(account, random) }
}

fn window(account: &Account, lent: &mut Lent, tally: &mut Tally, random: &mut Random) {
    let last = past(account, lent, random);
    let window = draw::window_to(account.length, last, account, random);
    tally.windowed_damaged(&lent.window(&window));
}

fn look_back(account: &Account, lent: &mut Lent, tally: &mut Tally, random: &mut Random) {
    let second = past(account, lent, random);
    let buffers = draw::buffers(account, random);
    tally.damaged(&lent.look_back(account.length, second, buffers));
}
