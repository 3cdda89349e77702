//! The proved register, behind the same face as the independent one.
use crate::{Answer, Calls, Refusal, Settings};
use register::calls;

/// The calls of the proved register.
pub struct Proved;

impl Calls for Proved {
    fn start(store: &mut [u32], s: Settings) -> Result<(), Refusal> {
        Refusal::told(calls::start(store, s.block, s.useful, s.blocks, s.tags))
    }

    fn set(store: &mut [u32], second: u32, tag: u32, reading: i32) -> Result<(), Refusal> {
        Refusal::told(calls::set(store, second, tag, reading))
    }

    fn clear(store: &mut [u32], second: u32, tag: u32) -> Result<(), Refusal> {
        Refusal::told(calls::clear(store, second, tag))
    }

    fn update(store: &mut [u32], second: u32, tag: u32, reading: i32) -> Result<(), Refusal> {
        Refusal::told(calls::update(store, second, tag, reading))
    }

    fn advance(store: &mut [u32], second: u32) -> Result<(), Refusal> {
        Refusal::told(calls::advance(store, second))
    }

    fn look_back(store: &[u32], second: u32, rows: &mut [u32], list: &mut [u32]) -> Result<Answer, Refusal> {
        let mut answer = [0; 6];
        Proved::look_back_words(store, second, rows, list, &mut answer)?;
        Ok(Answer::from_words(answer))
    }

    fn window(store: &[u32], first: u32, last: u32, rows: &mut [u32]) -> Result<u32, Refusal> {
        let mut answer = [0];
        Proved::window_words(store, first, last, rows, &mut answer)?;
        Ok(answer[0])
    }
}

impl Proved {
    /// A look-back that writes its six words where the caller says; a refusal leaves them.
    pub fn look_back_words(
        store: &[u32],
        second: u32,
        rows: &mut [u32],
        list: &mut [u32],
        answer: &mut [u32; 6],
    ) -> Result<(), Refusal> {
        Refusal::told(calls::look_back(store, second, rows, list, answer))
    }

    /// A window that writes its number of rows where the caller says; a refusal leaves it.
    pub fn window_words(
        store: &[u32],
        first: u32,
        last: u32,
        rows: &mut [u32],
        answer: &mut [u32; 1],
    ) -> Result<(), Refusal> {
        Refusal::told(calls::window(store, first, last, rows, answer))
    }

    /// Makes the calls of a journal: entries read, entries accepted.
    pub fn replay(store: &mut [u32], journal: &[u32]) -> (u64, u64) {
        let tally = calls::replay(store, journal);
        (tally.entries, tally.accepted)
    }
}
