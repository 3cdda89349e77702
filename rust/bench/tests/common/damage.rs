//! Damage to a store: words that no history left.
use super::Rng;
use bench::{OPEN, Settings};

/// Where the parts of a layout begin, written down once more from document 01.
#[derive(Clone, Copy)]
pub struct Map {
    pub settings: Settings,
}

impl Map {
    pub fn directory(&self) -> usize {
        16 + 4096 + 256 + 16
    }

    /// Word `field` of block n, counted from 1.
    pub fn block(&self, n: u32, field: usize) -> usize {
        self.directory() + self.settings.tags as usize + (n as usize - 1) * self.settings.block_words() + field
    }

    /// Word `part` of slot k of block n.
    pub fn slot(&self, n: u32, k: u32, part: usize) -> usize {
        self.block(n, 8 + 5 * k as usize + part)
    }
}

/// A word that is at an edge of something in this store.
pub fn edge(s: Settings, store: &[u32], rng: &mut Rng) -> u32 {
    let (opened, clock, fill) = (store[5], store[6], store[7]);
    let placed = opened.wrapping_sub(1).wrapping_mul(s.block).wrapping_add(fill);
    match rng.below(24) {
        0 | 1 => 0,
        2 => 1,
        3 => OPEN,
        4 => OPEN - 1,
        5 => opened,
        6 => opened.wrapping_add(1),
        7 => opened.wrapping_sub(1),
        8 => s.tags,
        9 => s.tags - 1,
        10 => s.blocks,
        11 => s.blocks + 1,
        12 => s.block,
        13 => s.block - rng.below(2),
        14 => clock,
        15 => clock.wrapping_add(1),
        16 => clock.wrapping_sub(1),
        17 => placed,
        18 => placed.wrapping_add(1),
        19 => 1 << rng.below(32),
        20 | 21 => rng.below(opened.clamp(1, 5000) + 2),
        22 => rng.below(clock.clamp(1, OPEN - 2) + 2),
        _ => rng.word(),
    }
}

/// Changes one word: which, and to what, is drawn so that calls meet it.
pub fn one_word(map: Map, store: &mut [u32], rng: &mut Rng) {
    let s = map.settings;
    let n = 1 + rng.below(store[5].clamp(1, s.blocks));
    let k = rng.below(s.block);
    let at = match rng.below(20) {
        0 => rng.below(16) as usize,
        1 => 5 + rng.below(5) as usize,
        2 => map.directory() + rng.below(s.tags) as usize,
        3 | 4 => map.block(n, 2),
        5 | 6 => map.block(n, 3),
        7 | 8 => map.block(n, 4),
        9 | 10 => map.block(n, 5),
        11 | 12 => map.block(n, 6 + rng.below(2) as usize),
        13 => map.block(n, rng.below(2) as usize),
        14 | 15 => map.slot(n, k, 0),
        16 => map.slot(n, k, 2 + rng.below(3) as usize),
        17 => 16 + rng.below(store[5].clamp(1, 4096)) as usize,
        18 => {
            rng.pick(&[16 + 4096, 16 + 4096 + 256]) + rng.below(store[5].clamp(1, 4096).div_ceil(16)).min(15) as usize
        }
        _ => rng.below(s.words() as u32) as usize,
    };
    store[at] = changed(s, store, at, rng);
}

fn changed(s: Settings, store: &[u32], at: usize, rng: &mut Rng) -> u32 {
    match rng.below(8) {
        0 => store[at] ^ 1 << rng.below(32),
        1 => store[at].wrapping_add(1),
        2 => store[at].wrapping_sub(1),
        3 => store[at] & rng.word(),
        4 => store[at] | 1 << rng.below(s.block.min(32)),
        _ => edge(s, store, rng),
    }
}

/// A head that passes its tests over words that are drawn. The blocks' links are drawn near what a walk may follow, so
/// that it goes some way before it is turned away, or comes to an end.
pub fn drawn_store(s: Settings, rng: &mut Rng) -> Vec<u32> {
    let map = Map { settings: s };
    let wild = rng.below(30);
    let opened = rng.below(s.blocks + 1);
    let clock = rng.pick(&[0, 1, 20, 1000, OPEN - 1]);
    let some = 1 + rng.below(s.block);
    let fill = if opened == 0 { 0 } else { rng.pick(&[1, s.block, s.block, some]) };
    let mut store = vec![0; s.words()];
    let links = [near(opened, rng), near(opened, rng)];
    store[..10].copy_from_slice(&[7001, s.block, s.useful, s.blocks, s.tags, opened, clock, fill, links[0], links[1]]);
    draw_index(&mut store, clock, wild, rng);
    let placed = opened.saturating_sub(1) * s.block + fill;
    for tag in 0..s.tags as usize {
        store[map.directory() + tag] = rng.below(placed + 2) * rng.below(2);
    }
    for n in 1..=s.blocks {
        draw_block(map, &mut store, n, wild, rng);
    }
    point_at_records(map, &mut store, rng);
    store
}

fn draw_index(store: &mut [u32], clock: u32, wild: u32, rng: &mut Rng) {
    for word in &mut store[16..16 + 4096 + 256 + 16] {
        *word = if rng.chance(wild, 100) { rng.word() } else { rng.below(clock.min(OPEN - 3) + 2) };
    }
}

/// A block's words: up mostly below it, left and last child about it, right mostly above, few or many bits.
fn draw_block(map: Map, store: &mut [u32], n: u32, wild: u32, rng: &mut Rng) {
    let s = map.settings;
    let (opened, clock) = (store[5], store[6]);
    let second = |rng: &mut Rng| rng.below(clock.min(OPEN - 3) + 2);
    let fields = [
        second(rng),
        if rng.chance(1, 2) { OPEN } else { second(rng) },
        rng.below(n),
        if rng.chance(2, 3) { 0 } else { near(n, rng) },
        if rng.chance(2, 3) { 0 } else { near(n + 1, rng) },
        (n + 1 + rng.below(2)).min(opened.max(1)),
        bits(s.block.min(32), rng),
        if s.block > 32 { bits(s.block - 32, rng) } else { u32::from(rng.chance(wild, 200)) },
    ];
    for (field, word) in fields.into_iter().enumerate() {
        store[map.block(n, field)] = if rng.chance(wild, 400) { edge(s, store, rng) } else { word };
    }
    for k in 0..s.block {
        let to = if rng.chance(1, 2) { OPEN } else { second(rng) };
        let tags = if rng.chance(wild, 200) { s.tags + 1 } else { s.tags };
        let record = [rng.below(tags), rng.word(), second(rng), to, rng.word()];
        let at = map.slot(n, k, 0);
        store[at..at + record.len()].copy_from_slice(&record);
    }
}

/// Lets half of the directory's words point at a record of their own tag that stands.
fn point_at_records(map: Map, store: &mut [u32], rng: &mut Rng) {
    let s = map.settings;
    for tag in 0..s.tags {
        let place = store[map.directory() + tag as usize];
        if place == 0 || place > s.blocks * s.block || rng.chance(1, 2) {
            continue;
        }
        let (n, k) = ((place - 1) / s.block + 1, (place - 1) % s.block);
        store[map.slot(n, k, 0)] = tag;
        store[map.block(n, 6 + k as usize / 32)] |= 1 << (k % 32);
    }
}

fn near(n: u32, rng: &mut Rng) -> u32 {
    (n + rng.below(4)).saturating_sub(rng.below(6))
}

/// Standing bits of which few, about half or all are 1.
fn bits(width: u32, rng: &mut Rng) -> u32 {
    let all = (1u64 << width) as u32;
    let mask = all.wrapping_sub(1);
    let word = match rng.below(4) {
        0 => 0,
        1 => 1 << rng.below(width),
        2 => rng.word() & rng.word() & rng.word(),
        _ => rng.word(),
    };
    word & mask
}
