//! Random arguments, mostly sensible, sometimes such as a refusal is for: the draws of crates/model/src/draw.rt,
//! in the same order, since each takes its numbers from one generator.
use crate::account::{Account, Kind};
use crate::random::Random;
use crate::settings;
use bench::{OPEN, Settings};

/// Where a late history goes with its first change: some 90 seconds before the last.
const LATE_SECOND: u32 = 4_294_967_200;

/// How many words of the store are lent: all that the history has, and now and then too few.
pub fn length(account: &Account, random: &mut Random) -> u32 {
    match random.below(160) {
        0 => 0,
        1 => 15,
        2 => 16,
        3 => account.settings.words() as u32 - 1,
        _ => account.length,
    }
}

/// A second from the clock on, sometimes before it, sometimes OPEN; past the last second it is OPEN too.
fn second(account: &Account, random: &mut Random) -> u32 {
    let clock = account.clock;
    if clock == 0 && account.late {
        return LATE_SECOND;
    }
    match random.below(40) {
        0 => OPEN,
        1 => clock.saturating_sub(random.below(5) + 1),
        2..20 => clock,
        20..36 => clock.saturating_add(1),
        _ => clock.saturating_add(random.below(20)),
    }
}

/// A second to look back at: any up to the clock, often a late one, sometimes one after the clock, sometimes OPEN.
pub fn past(account: &Account, random: &mut Random) -> u32 {
    let clock = account.clock;
    match random.below(24) {
        0 => OPEN,
        1 => clock + 1,
        2..5 => clock,
        5..12 => clock.saturating_sub(random.below(90)),
        _ => random.below(clock + 1),
    }
}

/// A tag that fits the kind of change, for three calls in four; sometimes none of the register's.
fn tag(kind: Kind, account: &Account, random: &mut Random) -> u32 {
    let tags = account.settings.tags;
    if random.once_in(30) {
        return tags + random.below(3);
    }
    let first = random.below(tags);
    if random.once_in(4) {
        return first;
    }
    let wanted = kind != Kind::Set;
    let mut round = (first..tags).chain(0..first);
    round.find(|&tag| account.standing[tag as usize] == wanted).unwrap_or(first)
}

/// The length of a buffer: enough, to spare, or one too few.
fn buffer(enough: u32, random: &mut Random) -> u32 {
    match random.below(20) {
        0 => enough - 1,
        more @ 1..5 => enough + more,
        _ => enough,
    }
}

/// The lengths of a look-back's two buffers, rows first.
pub fn buffers(account: &Account, random: &mut Random) -> (u32, u32) {
    let rows = buffer(3 * account.settings.tags, random);
    (rows, buffer(account.settings.blocks, random))
}

/// Settings for a start within a history: listed ones, or now and then bad ones; in a long history bad ones only.
pub fn settings(account: &Account, random: &mut Random) -> Settings {
    let bad = settings::bad(random.below(12));
    if account.long || random.once_in(3) {
        return bad;
    }
    settings::listed(random.below(settings::LISTED))
}

/// A change as it is drawn, its kind aside, with how many words are lent.
pub struct Change {
    pub length: u32,
    pub second: u32,
    pub tag: u32,
    pub reading: u32,
}

pub fn change(kind: Kind, account: &Account, random: &mut Random) -> Change {
    let length = length(account, random);
    let second = second(account, random);
    let tag = tag(kind, account, random);
    Change { length, second, tag, reading: random.word() }
}

/// A window as it is drawn, with how many words are lent: of the store, and for rows.
pub struct Window {
    pub length: u32,
    pub first: u32,
    pub last: u32,
    pub row_words: u32,
}

/// The first second of a window with this last one: the same, one shortly or long before it, the history's beginning;
/// sometimes one after it, sometimes any.
fn first_of(last: u32, account: &Account, random: &mut Random) -> u32 {
    match random.below(16) {
        0..3 => last,
        3..8 => last.saturating_sub(random.below(8)),
        8..12 => last.saturating_sub(random.below(90)),
        12..14 => 0,
        14 => last.wrapping_add(random.below(3) + 1),
        _ => past(account, random),
    }
}

/// A window that ends at a second, with a buffer for D rows.
pub fn window_to(length: u32, last: u32, account: &Account, random: &mut Random) -> Window {
    let first = first_of(last, account, random);
    Window { length, first, last, row_words: buffer(3 * account.settings.tags, random) }
}
