//! Two equal stores: each call runs on one by the proved register and on the other by the independent one; then result,
//! whole store, whole buffers and the answer's words (six of a look-back, one of a window) are compared.
use super::Rng;
use bench::{Calls, Independent, Proved, Refusal, Settings};
use std::fmt;

#[derive(Clone, Copy, Debug)]
pub enum Call {
    Start(Settings),
    Set { second: u32, tag: u32, reading: i32 },
    Clear { second: u32, tag: u32 },
    Update { second: u32, tag: u32, reading: i32 },
    Advance { second: u32 },
    LookBack { second: u32, rows: usize, list: usize },
    Window { first: u32, last: u32, rows: usize },
}

impl Call {
    /// A look-back or window, which leaves the store as it is.
    pub fn is_query(self) -> bool {
        matches!(self, Call::LookBack { .. } | Call::Window { .. })
    }
}

pub type Outcome = Result<(), Refusal>;

/// How many calls were compared, by refusal number (0: accepted).
#[derive(Clone, Default)]
pub struct Totals {
    pub calls: u64,
    pub by_number: [u64; 15],
}

impl Totals {
    fn count(&mut self, outcome: Outcome) {
        self.calls += 1;
        self.by_number[outcome.err().map_or(0, |refusal| refusal.number() as usize)] += 1;
    }
}

impl fmt::Display for Totals {
    fn fmt(&self, f: &mut fmt::Formatter<'_>) -> fmt::Result {
        write!(f, "{} calls compared, accepted {}", self.calls, self.by_number[0])?;
        for (number, count) in self.by_number.iter().enumerate().skip(1) {
            write!(f, ", {number}: {count}")?;
        }
        Ok(())
    }
}

/// The buffers of a look-back, rows and list, and its answer words; those of a window are the rows and the first word.
#[derive(Clone, Default, PartialEq)]
pub struct Buffers {
    pub rows: Vec<u32>,
    pub list: Vec<u32>,
    pub answer: [u32; 6],
}

#[derive(Default)]
pub struct Pair {
    proved: Vec<u32>,
    independent: Vec<u32>,
    /// What the last look-back or window left, by either.
    pub told: Buffers,
    told_again: Buffers,
    noise: Vec<u32>,
    pub totals: Totals,
}

impl Pair {
    pub fn new(words: &[u32]) -> Pair {
        let mut pair = Pair::default();
        pair.reset(words);
        pair
    }

    /// Both stores become these words.
    pub fn reset(&mut self, words: &[u32]) {
        self.proved.clear();
        self.proved.extend_from_slice(words);
        self.independent.clear();
        self.independent.extend_from_slice(words);
    }

    pub fn store(&self) -> &[u32] {
        &self.proved
    }

    /// Changes a word of both stores.
    pub fn poke(&mut self, at: usize, word: u32) {
        self.proved[at] = word;
        self.independent[at] = word;
    }

    /// Runs the call on both; panics, with the reason, if anything differs.
    pub fn call(&mut self, call: Call, rng: &mut Rng) -> Outcome {
        let (a, b) = match call {
            Call::LookBack { second, rows, list } => self.look_back(second, rows, list, rng),
            Call::Window { first, last, rows } => self.window(first, last, rows, rng),
            _ => (change::<Proved>(&mut self.proved, call), change::<Independent>(&mut self.independent, call)),
        };
        assert!(a == b, "{call:?}: the proved register says {a:?}, the independent one {b:?}");
        self.compare_words(call);
        self.totals.count(a);
        a
    }

    /// Fills the buffers of both with the same words.
    fn lend(&mut self, rows: usize, list: usize, rng: &mut Rng) {
        self.make_noise(rows.max(list), rng);
        for told in [&mut self.told, &mut self.told_again] {
            told.rows.clear();
            told.rows.extend_from_slice(&self.noise[..rows]);
            told.list.clear();
            told.list.extend_from_slice(&self.noise[..list]);
            told.answer = [77; 6];
        }
    }

    fn look_back(&mut self, second: u32, rows: usize, list: usize, rng: &mut Rng) -> (Outcome, Outcome) {
        self.lend(rows, list, rng);
        let Buffers { rows, list, answer } = &mut self.told;
        let a = Proved::look_back_words(&self.proved, second, rows, list, answer);
        let Buffers { rows, list, answer } = &mut self.told_again;
        let b = Independent::look_back(&self.independent, second, rows, list).map(|told| *answer = told.words());
        (a, b)
    }

    fn window(&mut self, first: u32, last: u32, rows: usize, rng: &mut Rng) -> (Outcome, Outcome) {
        self.lend(rows, 0, rng);
        let Buffers { rows, answer, .. } = &mut self.told;
        let one = answer.first_chunk_mut().expect("a word of six");
        let a = Proved::window_words(&self.proved, first, last, rows, one);
        let Buffers { rows, answer, .. } = &mut self.told_again;
        let b = Independent::window(&self.independent, first, last, rows).map(|told| answer[0] = told);
        (a, b)
    }

    /// Words that were in a buffer before: drawn once, shifted by a new one each time.
    fn make_noise(&mut self, words: usize, rng: &mut Rng) {
        while self.noise.len() < words {
            self.noise.push(rng.word());
        }
        if let Some(first) = self.noise.first_mut() {
            *first = rng.word();
        }
    }

    fn compare_words(&self, call: Call) {
        same(call, "store", &self.proved, &self.independent);
        if call.is_query() {
            same(call, "rows", &self.told.rows, &self.told_again.rows);
            same(call, "list", &self.told.list, &self.told_again.list);
            same(call, "answer", &self.told.answer, &self.told_again.answer);
        }
    }
}

fn same(call: Call, what: &str, proved: &[u32], independent: &[u32]) {
    if proved != independent {
        let at = proved.iter().zip(independent).position(|(a, b)| a != b);
        let words = at.map(|i| (proved[i], independent[i]));
        panic!("{call:?}: {what} differs at word {at:?}: proved and independent hold {words:?}");
    }
}

/// Any call but a look-back or window.
pub fn change<R: Calls>(store: &mut [u32], call: Call) -> Outcome {
    match call {
        Call::Start(settings) => R::start(store, settings),
        Call::Set { second, tag, reading } => R::set(store, second, tag, reading),
        Call::Clear { second, tag } => R::clear(store, second, tag),
        Call::Update { second, tag, reading } => R::update(store, second, tag, reading),
        Call::Advance { second } => R::advance(store, second),
        Call::LookBack { .. } | Call::Window { .. } => unreachable!("{call:?} changes no store"),
    }
}
