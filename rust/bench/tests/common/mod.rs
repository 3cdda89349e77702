//! What the tests share: draws, calls, and a pair of stores on which each call is run twice and compared.
#![allow(dead_code, unused_imports)] // each test file uses a part
pub mod book;
pub mod damage;
pub mod history;
pub mod log;
pub mod pair;
pub mod rng;
pub mod witness;
pub mod written;

pub use pair::{Call, Outcome, Pair, Totals};
pub use rng::Rng;

use bench::Settings;

pub fn settings(block: u32, useful: u32, blocks: u32, tags: u32) -> Settings {
    Settings { block, useful, blocks, tags }
}
