//! The limits and lengths of this crate are the register's own, and what a face offers can be relied on.
use register::{Reader, Refusal, Register, Settings, calls};

const EDGES: [u32; 16] = [0, 1, 2, 3, 4, 31, 32, 33, 63, 64, 65, 4095, 4096, 4097, 1 << 31, u32::MAX];

/// A start on no words is refused with 1 for its settings, and else with 2.
#[test]
fn limits() {
    let mut fit = 0;
    for block in EDGES {
        for useful in EDGES {
            for blocks in EDGES {
                for tags in EDGES {
                    let told = Settings::new(block, useful, blocks, tags);
                    let number = calls::start(&mut [], block, useful, blocks, tags);
                    assert_eq!(told.is_err(), number == 1, "{block}, {useful}, {blocks}, {tags}");
                    assert!(told.is_ok() || told == Err(Refusal::Settings));
                    fit += u32::from(told.is_ok());
                }
            }
        }
    }
    assert!(fit > 1_000);
}

/// A start passes on as many words as the settings say and not on one fewer; so do the two buffers of a look-back, and
/// the one of a window.
#[test]
fn lengths() {
    for (block, useful, blocks, tags) in [(2, 1, 1, 1), (4, 2, 8, 16), (33, 16, 100, 4096), (64, 32, 4096, 4096)] {
        let settings = Settings::new(block, useful, blocks, tags).expect("sound settings");
        let mut store = vec![9; settings.words()];
        let short = settings.words() - 1;
        assert_eq!(Register::start(&mut store[..short], settings).err(), Some(Refusal::ShortStore));
        let register = Register::start(&mut store, settings).expect("a store of its length");
        assert_eq!((register.settings(), register.clock(), register.blocks_left()), (settings, 0, blocks));
        let (mut rows, mut list) = (vec![9; settings.row_words()], vec![9; settings.list_words()]);
        let told = register.look_back(0, &mut rows, &mut list).expect("buffers of their lengths");
        assert_eq!((told.rows().len(), told.blocks().len(), told.pages()), (0, 0, [None; 3]));
        let told = register.look_back(0, &mut rows[1..], &mut list);
        assert_eq!(told.err(), Some(Refusal::ShortBuffer));
        let told = register.look_back(0, &mut rows, &mut list[1..]);
        assert_eq!(told.err(), Some(Refusal::ShortBuffer));
        assert_eq!(register.window(0, 0, &mut rows).expect("a buffer of its length").rows().len(), 0);
        assert_eq!(register.window(0, 0, &mut rows[1..]).err(), Some(Refusal::ShortBuffer));
    }
}

/// `OutOfBlocks` comes only when no block is left, and the store can still be looked into.
#[test]
fn blocks_left() {
    let settings = Settings::new(2, 1, 3, 100).expect("sound settings");
    let mut store = vec![0; settings.words()];
    let mut register = Register::start(&mut store, settings).expect("a store of its length");
    for tag in 0..6 {
        register.set(tag, tag, 0).expect("a block is left, or a slot");
        assert_eq!(register.blocks_left(), 2 - tag / 2);
    }
    assert_eq!(register.set(6, 6, 0), Err(Refusal::OutOfBlocks));
    let (mut rows, mut list) = (vec![0; settings.row_words()], vec![0; settings.list_words()]);
    assert_eq!(register.look_back(5, &mut rows, &mut list).expect("a past second").rows().len(), 6);
    assert_eq!(register.window(3, 5, &mut rows).expect("past seconds").rows().len(), 6);
}

/// The faces go from thread to thread, a register prints as its head, and a refusal is an error like others.
#[test]
fn traits() {
    fn travels<T: Send + Sync>(_: &T) {}
    let settings = Settings::new(4, 2, 8, 16).expect("sound settings");
    let mut store = vec![0; settings.words()];
    let register = Register::start(&mut store, settings).expect("a store of its length");
    travels(&register);
    travels(&register.reader());
    let printed =
        "Register { settings: Settings { block: 4, useful: 2, blocks: 8, tags: 16 }, clock: 0, blocks_left: 8, .. }";
    assert_eq!(format!("{register:?}"), printed);
    let words = register.into_words();
    words[0] = 0;
    let refused: Box<dyn std::error::Error + Send + Sync> = Reader::open(words).expect_err("no mark").into();
    assert_eq!(refused.to_string(), "the head is not a register's (refusal 3)");
}
