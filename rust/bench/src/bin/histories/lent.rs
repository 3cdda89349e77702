//! The arrays that calls are lent parts of, and the calls, made on the independent implementation and on no other.
use crate::account::Kind;
use crate::draw::{Change, Window};
use bench::{Answer, Calls, Independent, Refusal, Settings};

/// More words than any layout here needs.
pub const WORDS: usize = 16_384;

pub struct Lent {
    pub store: Vec<u32>,
    rows: Vec<u32>,
    list: Vec<u32>,
}

impl Default for Lent {
    fn default() -> Lent {
        Lent { store: vec![0; WORDS], rows: vec![0; WORDS], list: vec![0; WORDS] }
    }
}

impl Lent {
    pub fn start(&mut self, length: u32, settings: Settings) -> Result<(), Refusal> {
        Independent::start(&mut self.store[..length as usize], settings)
    }

    pub fn change(&mut self, kind: Kind, c: &Change) -> Result<(), Refusal> {
        let store = &mut self.store[..c.length as usize];
        let reading = c.reading as i32;
        match kind {
            Kind::Set => Independent::set(store, c.second, c.tag, reading),
            Kind::Clear => Independent::clear(store, c.second, c.tag),
            Kind::Update => Independent::update(store, c.second, c.tag, reading),
            Kind::Advance => Independent::advance(store, c.second),
        }
    }

    /// A look-back with buffers of these lengths, rows first.
    pub fn look_back(&mut self, length: u32, second: u32, buffers: (u32, u32)) -> Result<Answer, Refusal> {
        let (rows, list) = (&mut self.rows[..buffers.0 as usize], &mut self.list[..buffers.1 as usize]);
        Independent::look_back(&self.store[..length as usize], second, rows, list)
    }

    pub fn window(&mut self, w: &Window) -> Result<u32, Refusal> {
        let rows = &mut self.rows[..w.row_words as usize];
        Independent::window(&self.store[..w.length as usize], w.first, w.last, rows)
    }
}
