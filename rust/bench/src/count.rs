//! One kind of call by one register, so that callgrind can count its instructions: only what runs inside
//! `counted_change`, `counted_look_back` or `counted_window` is counted (count.sh). Inputs, start and the calls of other
//! kinds run outside.
use crate::closings::{self, Tally, Told};
use crate::input::{self, Change, DAY, HOUR, Kind, MONTH, Span};
#[cfg(feature = "array")]
use bench::ThroughArray;
use bench::{Answer, Calls, Independent, Proved, Refusal, Settings};
use std::hint::black_box;
use std::sync::atomic::{AtomicU32, Ordering};

pub fn run(who: &str, what: &str, work: &str, block: &str, useful: &str) {
    let number = |word: &str| word.parse().expect("b and q are numbers");
    let blocks = if work == "days" { 256 } else { input::BLOCKS }; // a trace is long: the store is kept short
    let settings = Settings { useful: number(useful), blocks, ..input::settings(number(block)) };
    let all = input::named(work);
    let changes = input::cut(&all, settings);
    let count = match who {
        "proved" => count::<Proved>,
        "independent" => count::<Independent>,
        #[cfg(feature = "array")]
        "array" => count::<ThroughArray>,
        "nothing" => count::<Nothing>,
        _ => panic!("no such register: {who}"),
    };
    println!("{}", count(what, settings, changes, who == "nothing"));
}

/// Makes the calls and gives how many were counted; of closings the other numbers of their tally, too. An idle register
/// does nothing.
fn count<R: Calls>(what: &str, settings: Settings, changes: &[Change], idle: bool) -> String {
    let mut store = vec![0; settings.words()];
    Independent::start(&mut store, settings).expect("sound settings");
    let calls = match what {
        "closings" => return count_closings::<R>(&mut store, settings, changes, idle).to_string(),
        "sets" => count_changes::<R>(&mut store, Kind::Set, changes),
        "clears" => count_changes::<R>(&mut store, Kind::Clear, changes),
        "readings" => count_changes::<R>(&mut store, Kind::Update, changes),
        "lookbacks" => count_look_backs::<R>(&mut store, settings, changes),
        "windows" => count_windows::<R>(&mut store, settings, changes),
        _ => panic!("no such calls: {what}"),
    };
    calls.to_string()
}

/// A register's call for changes of one kind.
fn change_call<R: Calls>(kind: Kind) -> ChangeCall {
    match kind {
        Kind::Set => |store, c| R::set(store, c.second, c.tag, c.reading).is_ok(),
        Kind::Clear => |store, c| R::clear(store, c.second, c.tag).is_ok(),
        Kind::Update => |store, c| R::update(store, c.second, c.tag, c.reading).is_ok(),
    }
}

/// 1 while a counted call runs that closes a block, for who traces all writes.
static CLOSES: AtomicU32 = AtomicU32::new(0);

/// All changes by one register; those that close a block are counted. They are foretold first, for all registers alike.
/// The words after all are foretold, too; an idle register leaves those that were there. Prints where the store begins
/// and ends, and where [`CLOSES`] is.
fn count_closings<R: Calls>(store: &mut [u32], settings: Settings, changes: &[Change], idle: bool) -> Tally {
    let Told { closes, tally, store: foretold } = closings::foretell(settings, changes);
    let expected = if idle { store.to_vec() } else { foretold };
    let lent = store.as_ptr_range();
    println!("lent {:08x} {:08x} {:08x}", lent.start.addr(), lent.end.addr(), CLOSES.as_ptr().addr());
    for (change, &closes) in changes.iter().zip(&closes) {
        if closes {
            let call = change_call::<R>(change.kind);
            CLOSES.store(1, Ordering::SeqCst);
            let accepted = counted_change(call, store, change);
            CLOSES.store(0, Ordering::SeqCst);
            assert!(accepted, "the changes are cut at the first refusal");
        } else {
            input::apply::<R>(store, change).expect("the changes are cut at the first refusal");
        }
    }
    assert!(*store == expected, "a register leaves the foretold words; an idle one, those that were there");
    tally
}

/// All changes by one register; those of one kind are counted.
fn count_changes<R: Calls>(store: &mut [u32], kind: Kind, changes: &[Change]) -> usize {
    let call = change_call::<R>(kind);
    let mut counted = 0;
    for change in changes {
        if change.kind == kind {
            assert!(counted_change(call, store, change), "the changes are cut at the first refusal");
            counted += 1;
        } else {
            input::apply::<R>(store, change).expect("the changes are cut at the first refusal");
        }
    }
    counted
}

/// All changes, by the independent register and not counted.
fn make_changes(store: &mut [u32], changes: &[Change]) {
    for change in changes {
        input::apply::<Independent>(store, change).expect("the changes are cut at the first refusal");
    }
}

/// Look-backs, at 100 seconds each of old, middle and recent, on the store after all changes.
fn count_look_backs<R: Calls>(store: &mut [u32], settings: Settings, changes: &[Change]) -> usize {
    make_changes(store, changes);
    let (mut rows, mut list) = (vec![0; settings.row_words()], vec![0; settings.blocks as usize]);
    let call: LookBackCall = |store, t, rows, list| R::look_back(store, t, rows, list).is_ok();
    let seconds: Vec<u32> = [5, 50, 99].into_iter().flat_map(|from| input::seconds(changes, from, 100)).collect();
    for &t in &seconds {
        assert!(counted_look_back(call, store, t, &mut rows, &mut list), "the seconds are not after the clock");
    }
    seconds.len()
}

/// Windows, 20 each of an hour, a day and a month, on the store after all changes.
fn count_windows<R: Calls>(store: &mut [u32], settings: Settings, changes: &[Change]) -> usize {
    make_changes(store, changes);
    let mut rows = vec![0; settings.row_words()];
    let call: WindowCall = |store, window, rows| R::window(store, window.first, window.last, rows).is_ok();
    let windows: Vec<Span> =
        [HOUR, DAY, MONTH].into_iter().flat_map(|seconds| input::windows(changes, seconds, 20)).collect();
    for &window in &windows {
        assert!(counted_window(call, store, window, &mut rows), "the windows are not after the clock");
    }
    windows.len()
}

type ChangeCall = fn(&mut [u32], &Change) -> bool;
type LookBackCall = fn(&[u32], u32, &mut [u32], &mut [u32]) -> bool;
type WindowCall = fn(&[u32], Span, &mut [u32]) -> bool;

/// What callgrind counts of a change.
#[inline(never)]
#[unsafe(no_mangle)]
fn counted_change(call: ChangeCall, store: &mut [u32], change: &Change) -> bool {
    black_box(call)(store, change)
}

/// What callgrind counts of a look-back.
#[inline(never)]
#[unsafe(no_mangle)]
fn counted_look_back(call: LookBackCall, store: &[u32], t: u32, rows: &mut [u32], list: &mut [u32]) -> bool {
    black_box(call)(store, t, rows, list)
}

/// What callgrind counts of a window.
#[inline(never)]
#[unsafe(no_mangle)]
fn counted_window(call: WindowCall, store: &[u32], window: Span, rows: &mut [u32]) -> bool {
    black_box(call)(store, window, rows)
}

/// A register that does nothing: what the functions around a call cost.
struct Nothing;

impl Calls for Nothing {
    fn start(_: &mut [u32], _: Settings) -> Result<(), Refusal> {
        Ok(())
    }
    fn set(store: &mut [u32], second: u32, tag: u32, reading: i32) -> Result<(), Refusal> {
        black_box((store.len(), second, tag, reading));
        Ok(())
    }
    fn clear(store: &mut [u32], second: u32, tag: u32) -> Result<(), Refusal> {
        black_box((store.len(), second, tag));
        Ok(())
    }
    fn update(store: &mut [u32], second: u32, tag: u32, reading: i32) -> Result<(), Refusal> {
        black_box((store.len(), second, tag, reading));
        Ok(())
    }
    fn advance(store: &mut [u32], second: u32) -> Result<(), Refusal> {
        black_box((store.len(), second));
        Ok(())
    }
    fn look_back(store: &[u32], second: u32, rows: &mut [u32], list: &mut [u32]) -> Result<Answer, Refusal> {
        black_box((store.len(), second, rows.len(), list.len()));
        Ok(Answer { rows: 0, pages: 0, blocks: 0, page: [0; 3] })
    }
    fn window(store: &[u32], first: u32, last: u32, rows: &mut [u32]) -> Result<u32, Refusal> {
        black_box((store.len(), first, last, rows.len()));
        Ok(0)
    }
}
