//! A journal replayed by the proved register and by the independent implementation: the same numbers, the same words.
mod common;
use bench::{Calls, Independent, OPEN, Proved};
use common::history::{History, TEMPERS};
use common::{Call, Rng, settings};
use register::{Entry, OwnedRegister, Refusal, Register, Settings, Tally, calls};

/// The words of a journal, read here without the crate `register`: kind and five numbers, six words an entry.
fn replay(store: &mut [u32], journal: &[u32]) -> (u64, u64) {
    let (mut entries, mut accepted) = (0, 0);
    for &[kind, a, b, c, d, _] in journal.as_chunks().0 {
        let told = match kind {
            1 => Independent::start(store, settings(a, b, c, d)),
            2 => Independent::set(store, a, b, c as i32),
            3 => Independent::clear(store, a, b),
            4 => Independent::update(store, a, b, c as i32),
            5 => Independent::advance(store, a),
            _ => break,
        };
        entries += 1;
        accepted += u64::from(told.is_ok());
    }
    (entries, accepted)
}

fn entry(call: Call) -> Option<Entry> {
    Some(match call {
        Call::Start(s) => Entry::Start { block: s.block, useful: s.useful, blocks: s.blocks, tags: s.tags },
        Call::Set { second, tag, reading } => Entry::Set { second, tag, reading },
        Call::Clear { second, tag } => Entry::Clear { second, tag },
        Call::Update { second, tag, reading } => Entry::Update { second, tag, reading },
        Call::Advance { second } => Entry::Advance { second },
        Call::LookBack { .. } | Call::Window { .. } => return None,
    })
}

/// A journal of an honest history with refused entries among them; sometimes a start in its middle, a word of another
/// kind, noise in the numbers that a kind does not use, and an entry that is cut short.
fn draw_journal(s: bench::Settings, rng: &mut Rng) -> Vec<u32> {
    let temper = rng.pick(&TEMPERS);
    let mut history = History::new(s);
    let (mut store, mut journal) = (vec![0; s.words()], Vec::new());
    let mut call = Call::Start(s);
    for _ in 0..rng.below(400) {
        if let Some(entry) = entry(call) {
            let words = entry.to_words();
            assert_eq!(Entry::from_words(words), Some(entry));
            journal.extend(words);
            if common::pair::change::<Independent>(&mut store, call).is_ok() {
                history.follow(call);
            }
        }
        call = if rng.chance(1, 150) { Call::Start(s) } else { history.draw(temper, rng) };
    }
    for words in journal.as_chunks_mut::<6>().0 {
        let used = [0, 4, 3, 2, 3, 1][words[0] as usize];
        words[1 + used..].fill_with(|| rng.word());
    }
    if rng.chance(1, 4) && !journal.is_empty() {
        let at = rng.below(journal.len() as u32) as usize / 6 * 6;
        journal[at] = rng.pick(&[0, 6, 7, OPEN]);
    }
    let cut = if rng.chance(1, 4) { rng.below(6) as usize } else { 0 };
    journal.truncate(journal.len().saturating_sub(cut));
    journal
}

#[test]
fn journals() {
    let mut totals = (0, 0);
    for seed in 0..3_000 {
        let mut rng = Rng::new(40_000 + seed);
        let (b, q, blocks, tags) = rng.pick(&[(2, 1, 40, 9), (4, 2, 8, 16), (5, 2, 12, 10), (33, 16, 6, 50)]);
        let s = settings(b, q, blocks, tags);
        let journal = draw_journal(s, &mut rng);
        let less = if rng.chance(1, 20) { 1 + rng.below(5000) as usize } else { 0 };
        let before: Vec<u32> = (0..s.words().saturating_sub(less) + 3).map(|_| rng.word()).collect();
        let (mut proved, mut independent, mut one_by_one) = (before.clone(), before.clone(), before);
        let told = Proved::replay(&mut proved, &journal);
        assert_eq!(told, replay(&mut independent, &journal), "seed {seed}");
        assert!(proved == independent, "seed {seed}: the words differ");
        let results = Entry::all(&journal).map(|entry| calls::apply(&mut one_by_one, entry));
        let applied = results.fold((0, 0), |sum, number| (sum.0 + 1, sum.1 + u64::from(number == 0)));
        assert_eq!(told, applied, "seed {seed}: the entries as the wrapper reads and applies them");
        assert!(proved == one_by_one, "seed {seed}: entries applied one by one leave other words");
        totals = (totals.0 + told.0, totals.1 + told.1);
    }
    println!("replay: {} entries read, {} accepted", totals.0, totals.1);
}

/// A register rebuilt from its journal, by the wrapper's face.
#[test]
fn rebuilt() {
    let settings = Settings::new(4, 2, 8, 16).expect("sound settings");
    let journal: Vec<u32> = [
        Entry::from(settings),
        Entry::Set { second: 1, tag: 3, reading: -25 },
        Entry::Set { second: 1, tag: 3, reading: 9 }, // refused: it stands
        Entry::Clear { second: 2, tag: 3 },
    ]
    .into_iter()
    .flat_map(Entry::to_words)
    .chain([0; 12])
    .collect();
    let mut store = vec![9; settings.words()];
    let (mut register, tally) = Register::rebuild(&mut store, &journal).expect("the journal begins with a start");
    assert_eq!((tally, register.clock()), (Tally { entries: 4, accepted: 3 }, 2));
    assert_eq!(register.replay(&journal[6..]), Tally { entries: 3, accepted: 0 });
    let mut owned = OwnedRegister::new(settings);
    let told: Vec<u32> = Entry::all(&journal).map(|entry| owned.apply(entry).err().map_or(0, u32::from)).collect();
    assert_eq!(told, [0, 0, 9, 0]);
    assert_eq!(register.apply(Entry::Start { block: 3, useful: 2, blocks: 8, tags: 16 }), Err(Refusal::Settings));
    assert!(owned.into_words() == store);
    assert!(Register::rebuild(&mut [0; 20], &journal).is_err());
}

/// The register counts words as the wrapper does, and answers 0 where the wrapper refuses.
#[test]
fn words() {
    let some = [0, 1, 2, 3, 4, 31, 32, 33, 63, 64, 65, 4095, 4096, 4097, OPEN];
    for block in some {
        for useful in some {
            for blocks in some {
                for tags in some {
                    let wrapped = Settings::new(block, useful, blocks, tags).map_or(0, |s| s.words());
                    assert_eq!(calls::words(block, useful, blocks, tags), wrapped);
                }
            }
        }
    }
}
