//! The words of a journal's entries.
use register::{Entry, Settings};

const ENTRIES: [(Entry, [u32; 6], usize); 5] = [
    (Entry::Start { block: 4, useful: 2, blocks: 8, tags: 16 }, [1, 4, 2, 8, 16, 0], 4),
    (Entry::Set { second: 7, tag: 5, reading: -1 }, [2, 7, 5, u32::MAX, 0, 0], 3),
    (Entry::Clear { second: 8, tag: 6 }, [3, 8, 6, 0, 0, 0], 2),
    (Entry::Update { second: 9, tag: 3, reading: i32::MIN }, [4, 9, 3, 1 << 31, 0, 0], 3),
    (Entry::Advance { second: u32::MAX }, [5, u32::MAX, 0, 0, 0, 0], 1),
];

/// Each entry has its words, and is read from them whatever stands in the numbers that its kind does not use.
#[test]
fn words() {
    for (entry, words, used) in ENTRIES {
        assert_eq!(entry.to_words(), words);
        for noise in [0, 1, u32::MAX] {
            let mut noisy = words;
            noisy[1 + used..].fill(noise);
            assert_eq!(Entry::from_words(noisy), Some(entry));
        }
    }
    for kind in [0, 6, 7, u32::MAX] {
        assert_eq!(Entry::from_words([kind, 1, 1, 1, 1, 1]), None);
    }
    let settings = Settings::new(4, 2, 8, 16).expect("sound settings");
    assert_eq!(Entry::from(settings), ENTRIES[0].0);
}

/// A journal ends before an entry that is cut short and before one of another kind, whatever comes behind it.
#[test]
fn end() {
    let journal: Vec<u32> = ENTRIES.iter().flat_map(|entry| entry.1).collect();
    for length in 0..=journal.len() {
        let read = Entry::all(&journal[..length]);
        assert!(read.eq(ENTRIES.iter().map(|entry| entry.0).take(length / 6)));
    }
    for at in 0..ENTRIES.len() {
        let mut ended = journal.clone();
        ended[6 * at] = 0;
        let mut read = Entry::all(&ended);
        assert_eq!(read.by_ref().count(), at);
        assert_eq!(read.next(), None);
    }
}
