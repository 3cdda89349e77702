//! The second build of set, clear and new reading, crates/array_build: the records of a block that closes go through an
//! array. Everything else is the proved register's.
use crate::{Answer, Calls, Proved, Refusal, Settings};

mod export {
    unsafe extern "C" {
        pub fn array_build_set(store: *mut u32, words: usize, second: u32, tag: u32, reading: u32) -> u32;
        pub fn array_build_clear(store: *mut u32, words: usize, second: u32, tag: u32) -> u32;
        pub fn array_build_update(store: *mut u32, words: usize, second: u32, tag: u32, reading: u32) -> u32;
    }
}

/// The calls of the proved register, but that changes are made by the second build.
pub struct ThroughArray;

impl Calls for ThroughArray {
    fn start(store: &mut [u32], settings: Settings) -> Result<(), Refusal> {
        Proved::start(store, settings)
    }

    fn set(store: &mut [u32], second: u32, tag: u32, reading: i32) -> Result<(), Refusal> {
        // SAFETY: pointer and length are those of one borrowed slice; so for each call below.
        let told =
            unsafe { export::array_build_set(store.as_mut_ptr(), store.len(), second, tag, reading.cast_unsigned()) };
        Refusal::told(told)
    }

    fn clear(store: &mut [u32], second: u32, tag: u32) -> Result<(), Refusal> {
        // SAFETY: as above.
        Refusal::told(unsafe { export::array_build_clear(store.as_mut_ptr(), store.len(), second, tag) })
    }

    fn update(store: &mut [u32], second: u32, tag: u32, reading: i32) -> Result<(), Refusal> {
        // SAFETY: as above.
        let told = unsafe {
            export::array_build_update(store.as_mut_ptr(), store.len(), second, tag, reading.cast_unsigned())
        };
        Refusal::told(told)
    }

    fn advance(store: &mut [u32], second: u32) -> Result<(), Refusal> {
        Proved::advance(store, second)
    }

    fn look_back(store: &[u32], second: u32, rows: &mut [u32], list: &mut [u32]) -> Result<Answer, Refusal> {
        Proved::look_back(store, second, rows, list)
    }

    fn window(store: &[u32], first: u32, last: u32, rows: &mut [u32]) -> Result<u32, Refusal> {
        Proved::window(store, first, last, rows)
    }
}
