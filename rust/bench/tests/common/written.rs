//! A store whose blocks and records are written by hand, and windows of it by both registers.
use super::damage::Map;
use super::settings;
use bench::{Calls, Independent, OPEN, Proved, Refusal, Settings};

/// What the row buffer holds before a call, and the answer's word.
const BEFORE: u32 = 9;

/// A store whose words can be written: N blocks are opened at 0 and open, and no record stands.
pub struct Store {
    pub map: Map,
    pub words: Vec<u32>,
}

impl Store {
    /// b = 4, q = 2, B = 8, D = 16, with the clock at 100.
    pub fn with_blocks(opened: u32) -> Store {
        let s = settings(4, 2, 8, 16);
        let mut words = vec![0; s.words()];
        Proved::start(&mut words, s).expect("sound settings");
        let mut store = Store { map: Map { settings: s }, words };
        (store.words[5], store.words[6], store.words[7]) = (opened, 100, 1);
        for n in 1..=s.blocks {
            store.block(n, 0, OPEN);
        }
        store
    }

    /// When a block opened and closed.
    pub fn block(&mut self, n: u32, opened: u32, closed: u32) {
        let at = self.map.block(n, 0);
        self.words[at..at + 2].copy_from_slice(&[opened, closed]);
    }

    /// A record in slot k of block n: tag, reading, from, to, since. No bit is set for it.
    pub fn record(&mut self, n: u32, k: u32, record: [u32; 5]) {
        let at = self.map.slot(n, k, 0);
        self.words[at..at + 5].copy_from_slice(&record);
    }

    pub fn settings(&self) -> Settings {
        self.map.settings
    }

    /// Asks both registers with a row buffer of this length, and holds them to the expected result and to all words:
    /// `rows` first in the buffer, then what it held; zeros if it is unsound.
    pub fn expect_with(&self, buffer: usize, (first, last): (u32, u32), expected: Result<&[[u32; 3]], Refusal>) {
        let mut words = vec![BEFORE; buffer];
        let mut answer = [BEFORE];
        match expected {
            Ok(rows) => {
                words[..3 * rows.len()].copy_from_slice(rows.as_flattened());
                answer = [rows.len() as u32];
            }
            Err(refusal) if refusal == Refusal::UNSOUND => words.fill(0),
            Err(_) => {}
        }
        let before = self.words.clone();
        let expected = (expected.map(|_| ()), answer, words);
        assert_eq!(asked_proved(&self.words, buffer, first, last), expected, "proved, from {first} to {last}");
        assert_eq!(asked_independent(&self.words, buffer, first, last), expected, "independent, {first} to {last}");
        assert!(self.words == before);
    }

    /// The same with some words to spare.
    pub fn expect(&self, seconds: (u32, u32), expected: Result<&[[u32; 3]], Refusal>) {
        self.expect_with(self.settings().row_words() + 5, seconds, expected);
    }
}

type Asked = (Result<(), Refusal>, [u32; 1], Vec<u32>);

fn asked_proved(store: &[u32], buffer: usize, first: u32, last: u32) -> Asked {
    let (mut rows, mut answer) = (vec![BEFORE; buffer], [BEFORE]);
    let told = Proved::window_words(store, first, last, &mut rows, &mut answer);
    (told, answer, rows)
}

fn asked_independent(store: &[u32], buffer: usize, first: u32, last: u32) -> Asked {
    let (mut rows, mut answer) = (vec![BEFORE; buffer], [BEFORE]);
    let told = Independent::window(store, first, last, &mut rows).map(|number| answer = [number]);
    (told, answer, rows)
}
