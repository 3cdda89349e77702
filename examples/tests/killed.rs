//! Both programs, killed again and again while they make random changes: after each restart every change that was
//! acknowledged is there, the one under way is there whole or not at all, and nothing else is.
mod support;
use register::Entry;
use std::fs;
use std::os::unix::process::ExitStatusExt;
use std::path::Path;
use std::process::Child;
use std::thread::sleep;
use std::time::Duration;
use support::log::tally;
use support::{Log, Rng, command, feed, folder, in_c, in_rust, is_half_made, prepared, printed, traced, words};

/// Beginnings and ends of system calls of a change: of its write, its sync and its answer, with some to spare.
const STOPS_OF_A_CHANGE: u32 = 7;

/// A start cuts the journal's tail and syncs it.
const SYNCS_OF_A_START: u32 = 1;

/// Machine instructions from the end of a sync to the first words that the change writes, roughly, and to the last.
const INSTRUCTIONS_TO_WORDS: (u32, u32) = (150, 420);

#[derive(Default)]
struct Totals {
    kills: u32,
    acknowledged: u32,
    /// Changes that were not acknowledged, but are there after the restart.
    kept: u32,
    /// Mapped files that a kill left between two states.
    half_made: u32,
}

/// Runs the program on these changes and kills it: by the clock, or by the tracer at a chosen place. What it printed,
/// and whether it was killed before its end.
fn killed(program: &Path, folder: &Path, changes: &[Entry], quiet: u32, rng: &mut Rng) -> (String, bool) {
    let text: String = changes.iter().map(|&entry| command(entry)).collect();
    let many = u32::try_from(changes.len()).expect("a few");
    let mut prepared = prepared(program, folder);
    if rng.chance(1, 3) {
        let mut child = prepared.spawn().expect("the program starts");
        feed(&mut child, &text);
        sleep(Duration::from_micros(u64::from(rng.below(3_000 * (4 + many)))));
        child.kill().expect("it can be killed, also if it has ended");
        let ended = child.wait().expect("it is gone");
        assert!(ended.success() || ended.signal() == Some(9), "it stopped by itself: {ended}");
        (printed(&mut child), !ended.success())
    } else {
        let mut child = traced::start(&mut prepared);
        feed(&mut child, &text);
        let died = kill_traced(&mut child, many, quiet, rng).is_ok();
        (printed(&mut child), died)
    }
}

/// In half of the cases at a system call, or soon after it, from the middle of the start on. Else a few hundred
/// instructions after the end of a sync, where the change is made on the mapped store.
fn kill_traced(child: &mut Child, changes: u32, quiet: u32, rng: &mut Rng) -> Result<(), traced::Ended> {
    let (first, last) = INSTRUCTIONS_TO_WORDS;
    if rng.chance(1, 2) {
        let least = if rng.chance(1, 3) { quiet / 2 } else { quiet };
        traced::pass(child, least + rng.below(STOPS_OF_A_CHANGE * changes))?;
        return traced::kill_after(child, if rng.chance(1, 2) { rng.below(last) } else { 0 });
    }
    traced::pass_syncs(child, SYNCS_OF_A_START + rng.below(1 + changes))?;
    traced::kill_after(child, first + rng.below(last - first))
}

/// Beginnings and ends of system calls of a run without commands.
fn quiet_stops(name: &str, program: &Path) -> u32 {
    let folder = folder(&format!("{name}-quiet"));
    let child = &mut traced::start(&mut prepared(program, &folder));
    feed(child, "");
    let mut stops = 0;
    while traced::pass(child, 1).is_ok() {
        stops += 1;
    }
    stops
}

/// One life of the program, which the log follows as far as it was acknowledged; the change that was under way then.
fn live(program: &Path, folder: &Path, log: &mut Log, quiet: u32, rng: &mut Rng, totals: &mut Totals) -> Option<Entry> {
    let mut drawn = log.clone();
    let mut changes = Vec::new();
    for _ in 0..1 + rng.below(12) {
        let entry = drawn.draw(rng);
        drawn.follow(entry);
        changes.push(entry);
    }
    let (told, died) = killed(program, folder, &changes, quiet, rng);
    totals.kills += u32::from(died);
    let whole = &told[..told.rfind('\n').map_or(0, |at| at + 1)];
    let mut answers = whole.lines();
    if let Some(begun) = answers.next() {
        assert_eq!(tally(begun), log.tally(), "as the comparison before has seen it");
    }
    let mut left = changes.into_iter();
    for answer in answers {
        let entry = left.next().expect("an answer for each change");
        assert_eq!(answer == "ok", log.follow(entry), "{entry:?}: {answer}");
        totals.acknowledged += 1;
    }
    left.next()
}

/// Kills until it is enough, some fifty times a folder; the programs take turns.
fn kill_often(name: &str, programs: &[&Path], kills: u32) {
    let quiet: Vec<u32> = programs.iter().map(|program| quiet_stops(name, program)).collect();
    let mut totals = Totals::default();
    for seed in 0.. {
        let folder = folder(&format!("{name}-{seed}"));
        let (mut rng, mut log) = (Rng::new(70_000 + seed), Log::default());
        for life in 0..50 {
            let which = life % programs.len();
            let under_way = live(programs[which], &folder, &mut log, quiet[which], &mut rng, &mut totals);
            totals.half_made += u32::from(is_half_made(&folder));
            totals.kept += u32::from(log.compare(under_way, programs[which], &folder, &mut rng));
        }
        if totals.kills >= kills {
            break;
        }
    }
    let Totals { kills, acknowledged, kept, half_made } = totals;
    println!("{name}: {kills} kills, {acknowledged} changes acknowledged, 0 lost");
    println!("{name}: {kept} changes under way were kept, {half_made} mapped files were half made");
    assert!(kept > 0, "no kill came between the steps of a change");
}

#[test]
fn c() {
    kill_often("c", &[in_c()], 300);
}

#[test]
fn rust() {
    kill_often("rust", &[in_rust()], 300);
}

/// Each goes on with the files that the other left.
#[test]
fn in_turns() {
    kill_often("in turns", &[in_c(), in_rust()], 100);
}

/// Changes after which a clear is the most that a change can be: it closes two blocks and opens one (b = 8, q = 2).
fn before_the_largest() -> impl Iterator<Item = Entry> {
    let sets = (0..16).map(|tag| Entry::Set { second: 1, tag, reading: -25 });
    sets.chain((8..15).chain(0..6).map(|tag| Entry::Clear { second: 2, tag }))
}

/// After how many instructions, from the end of its sync on, a change writes a word of the mapped file. The program is
/// killed then.
fn writes_of(program: &Path, folder: &Path, text: &str) -> Vec<u32> {
    let mut child = traced::start(&mut prepared(program, folder));
    feed(&mut child, text);
    traced::pass_syncs(&child, SYNCS_OF_A_START + 1).expect("the change is synced");
    let (mut writes, mut before) = (Vec::new(), words(&folder.join("store")));
    for instruction in 1..1_000 {
        traced::step(&child).expect("the answer comes later");
        let now = words(&folder.join("store"));
        if now != before {
            writes.push(instruction);
        }
        before = now;
    }
    traced::kill_after(&mut child, 0).expect("it waits");
    writes
}

/// The largest change, and a kill after each word that it writes.
#[test]
fn between_words() {
    let entry = Entry::Clear { second: 3, tag: 6 };
    for (name, program) in [("words-c", in_c()), ("words-rust", in_rust())] {
        let folder = folder(name);
        let (mut log, mut rng) = (Log::default(), Rng::new(80_000));
        let changes: String = before_the_largest().inspect(|&entry| assert!(log.follow(entry))).map(command).collect();
        support::run(program, &folder, &changes);
        let journal = fs::read(folder.join("journal")).expect("a journal");
        let writes = writes_of(program, &folder, &command(entry));
        for (which, &instructions) in (1..).zip(&writes) {
            fs::write(folder.join("journal"), &journal).expect("a journal");
            let mut child = traced::start(&mut prepared(program, &folder));
            feed(&mut child, &command(entry));
            traced::pass_syncs(&child, SYNCS_OF_A_START + 1).expect("the change is synced");
            traced::kill_after(&mut child, instructions).expect("the answer comes later");
            assert_eq!(is_half_made(&folder), which < writes.len(), "after {which} words");
            assert!(log.clone().compare(Some(entry), program, &folder, &mut rng), "it was synced, so it is kept");
        }
        println!("{name}: killed after each of the {} words of a change, 0 lost", writes.len());
        assert!(writes.len() > 20, "a new block with two records");
    }
}
