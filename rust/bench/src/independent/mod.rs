//! An independent implementation of document 01, with the since word and the window of document 02, in safe Rust. It
//! shares no code with the Rattle crates; what it shares with [`crate::Proved`] is the store's layout, word for word.
//! What is document 01's, and the window, was written without a look at their code; since was added together with
//! theirs.
//!
//! `head` reads and tests the first 16 words, `parts` cuts the lent store, `sound` holds the tests of a change before
//! its first write, `change` the writes, `look` the look-back, `window` the window.
mod change;
mod head;
mod look;
mod parts;
mod sound;
mod window;

use crate::{Answer, Calls, Refusal, Settings};
use change::Change;
use head::{HEAD_WORDS, MARK};
use sound::Plan;

/// The calls of the independent implementation.
pub struct Independent;

impl Calls for Independent {
    fn start(store: &mut [u32], settings: Settings) -> Result<(), Refusal> {
        if !head::within_limits(&settings) {
            return Err(Refusal::SETTINGS);
        }
        if store.len() < HEAD_WORDS {
            return Err(Refusal::SHORT_HEAD);
        }
        let layout = store.get_mut(..settings.words()).ok_or(Refusal::SHORT_STORE)?;
        layout.fill(0);
        layout[..5].copy_from_slice(&[MARK, settings.block, settings.useful, settings.blocks, settings.tags]);
        Ok(())
    }

    fn set(store: &mut [u32], second: u32, tag: u32, reading: i32) -> Result<(), Refusal> {
        let mut change = Change::enter(store, second)?;
        if change.place_of(tag)? != 0 {
            return Err(Refusal::STANDING);
        }
        Plan::set().test(&change)?;
        change.set(tag, reading);
        change.finish();
        Ok(())
    }

    fn clear(store: &mut [u32], second: u32, tag: u32) -> Result<(), Refusal> {
        let mut change = Change::enter(store, second)?;
        let plan = Plan::clear(&change, tag)?;
        plan.test(&change)?;
        change.clear(tag, &plan);
        change.finish();
        Ok(())
    }

    fn update(store: &mut [u32], second: u32, tag: u32, reading: i32) -> Result<(), Refusal> {
        let mut change = Change::enter(store, second)?;
        let plan = Plan::clear(&change, tag)?.and_set();
        plan.test(&change)?;
        change.clear(tag, &plan);
        change.set(tag, reading);
        change.finish();
        Ok(())
    }

    fn advance(store: &mut [u32], second: u32) -> Result<(), Refusal> {
        Change::enter(store, second)?.finish();
        Ok(())
    }

    fn look_back(store: &[u32], second: u32, rows: &mut [u32], list: &mut [u32]) -> Result<Answer, Refusal> {
        look::look_back(store, second, rows, list)
    }

    fn window(store: &[u32], first: u32, last: u32, rows: &mut [u32]) -> Result<u32, Refusal> {
        window::window(store, first, last, rows)
    }
}
