//! The faces of the crate `register` (lent, read only, owned) against the independent implementation: histories through
//! them leave the same words and tell the same answers, and a store is opened exactly if its head passes its tests.
mod common;
use bench::{Answer, Calls, Independent, NONE, OPEN, ROW};
use common::damage::{Map, one_word};
use common::history::{History, TEMPERS, Temper};
use common::{Call, Outcome, Rng, settings};
use register::{LookBack, OwnedRegister, Reader, Refusal, Register, Row, Settings, Window};

fn checked(s: bench::Settings) -> Settings {
    Settings::new(s.block, s.useful, s.blocks, s.tags).expect("sound settings")
}

fn number<T>(told: Result<T, Refusal>) -> u32 {
    told.err().map_or(0, Refusal::number)
}

/// One history, kept by a lent register, an owned one and the independent implementation.
struct Three {
    lent: Vec<u32>,
    owned: OwnedRegister,
    independent: Vec<u32>,
    looked: u32,
    crossed: u32,
}

impl Three {
    fn new(s: bench::Settings) -> Three {
        let (mut lent, mut independent) = (vec![7; s.words()], vec![7; s.words()]);
        Register::start(&mut lent, checked(s)).expect("a store of its length");
        Independent::start(&mut independent, s).expect("a store of its length");
        Three { lent, owned: OwnedRegister::new(checked(s)), independent, looked: 0, crossed: 0 }
    }

    fn call(&mut self, call: Call) -> Outcome {
        if let Call::LookBack { second, rows, list } = call {
            self.look_back(second, rows, list);
            return Ok(());
        }
        if let Call::Window { first, last, rows } = call {
            self.window(first, last, rows);
            return Ok(());
        }
        let told = common::pair::change::<Independent>(&mut self.independent, call);
        let mut register = Register::open(&mut self.lent).expect("a register");
        let owned = &mut self.owned;
        let (lent, owned) = match call {
            Call::Set { second, tag, reading } => (register.set(second, tag, reading), owned.set(second, tag, reading)),
            Call::Clear { second, tag } => (register.clear(second, tag), owned.clear(second, tag)),
            Call::Update { second, tag, reading } => {
                (register.update(second, tag, reading), owned.update(second, tag, reading))
            }
            Call::Advance { second } => (register.advance(second), owned.advance(second)),
            Call::Start(_) | Call::LookBack { .. } | Call::Window { .. } => unreachable!("a history draws no start"),
        };
        let expected = told.err().map_or(0, bench::Refusal::number);
        assert_eq!((number(lent), number(owned)), (expected, expected), "{call:?}");
        told
    }

    fn look_back(&mut self, second: u32, rows: usize, list: usize) {
        let (mut row_words, mut list_words) = (vec![0; rows], vec![0; list]);
        let told = Independent::look_back(&self.independent, second, &mut row_words, &mut list_words);
        let (mut rows, mut list) = (vec![5; rows], vec![5; list]);
        let lent = Reader::open(&self.lent).expect("a register").look_back(second, &mut rows, &mut list);
        let expected = told.map_or_else(bench::Refusal::number, |_| 0);
        assert_eq!(number(lent), expected, "look-back at {second}");
        let owned = self.owned.look_back(second);
        if let Ok(answer) = told {
            self.looked += 1;
            same(answer, &row_words, &list_words, &lent.expect("as told"));
            same(answer, &row_words, &list_words, &owned.expect("its buffers are long enough"));
        } else if told != Err(bench::Refusal::SHORT_BUFFER) {
            assert_eq!(number(owned), expected, "owned look-back at {second}");
        }
    }

    fn window(&mut self, first: u32, last: u32, rows: usize) {
        let mut row_words = vec![0; rows];
        let told = Independent::window(&self.independent, first, last, &mut row_words);
        let mut rows = vec![5; rows];
        let lent = Reader::open(&self.lent).expect("a register").window(first, last, &mut rows);
        let expected = told.map_or_else(bench::Refusal::number, |_| 0);
        assert_eq!(number(lent), expected, "window from {first} to {last}");
        let owned = self.owned.window(first, last);
        if let Ok(count) = told {
            self.crossed += 1;
            let (tags, words) = (self.independent[4], &row_words[..ROW * count as usize]);
            same_window(tags, words, &lent.expect("as told"));
            same_window(tags, words, &owned.expect("its buffer is long enough"));
        } else if told != Err(bench::Refusal::SHORT_BUFFER) {
            assert_eq!(number(owned), expected, "owned window from {first} to {last}");
        }
    }

    fn compare(&self) {
        let reader = Reader::open(&self.lent).expect("a register");
        assert!(reader.as_words() == self.independent, "the lent words");
        assert!(self.owned.reader().as_words() == self.independent, "the owned words");
        let [.., blocks, _, opened, clock] = self.independent[..7] else { unreachable!("a head") };
        assert_eq!((reader.clock(), reader.blocks_left()), (clock, blocks - opened));
    }
}

/// A look-back's rows, reading list, pages and counts are those of the answer and its words.
fn same<W: AsRef<[u32]>>(answer: Answer, row_words: &[u32], list: &[u32], told: &LookBack<W>) {
    let words = row_words.as_chunks::<ROW>().0.iter().take(answer.rows as usize);
    let rows = words.map(|&[tag, reading, since]| Row { tag, reading: reading as i32, since });
    assert!(told.rows().eq(rows.clone()));
    assert!(told.rows().rev().eq(rows.collect::<Vec<_>>().into_iter().rev()));
    assert_eq!(told.rows().len(), answer.rows as usize);
    assert_eq!(told.blocks(), &list[..answer.blocks as usize]);
    let counts = told.counts();
    assert_eq!((counts.rows, counts.pages, counts.blocks), (answer.rows, answer.pages, answer.blocks));
    assert_eq!(told.pages().map(|page| page.unwrap_or(NONE)), answer.page);
    assert_eq!(told.pages().iter().flatten().count(), answer.pages as usize, "each page read is passed");
}

/// A window's rows are those of the words, and each tag has the one row or none.
fn same_window<W: AsRef<[u32]>>(tags: u32, row_words: &[u32], told: &Window<W>) {
    let words = row_words.as_chunks::<ROW>().0.iter();
    let rows: Vec<Row> = words.map(|&[tag, reading, since]| Row { tag, reading: reading as i32, since }).collect();
    assert!(told.rows().eq(rows.iter().copied()));
    assert_eq!(told.rows().len(), rows.len());
    for tag in (0..tags).chain([tags, OPEN]) {
        assert_eq!(told.row(tag), rows.iter().copied().find(|row| row.tag == tag));
    }
}

/// How many look-backs and windows were answered.
fn run(s: bench::Settings, temper: Temper, seed: u64) -> (u32, u32) {
    let mut rng = Rng::new(seed);
    let (mut three, mut history) = (Three::new(s), History::new(s));
    for i in 0..400 {
        let call = history.draw(temper, &mut rng);
        if three.call(call).is_ok() {
            history.follow(call);
        }
        if i % 16 == 0 {
            three.compare();
        }
    }
    three.compare();
    (three.looked, three.crossed)
}

#[test]
fn histories() {
    let (mut looked, mut crossed, mut seed) = (0, 0, 20_000);
    for (b, q, blocks, tags) in [(2, 1, 40, 9), (4, 2, 8, 16), (5, 2, 300, 30), (33, 16, 20, 70), (64, 32, 4, 100)] {
        for temper in TEMPERS {
            for _ in 0..6 {
                seed += 1;
                let (some_looked, some_crossed) = run(settings(b, q, blocks, tags), temper, seed);
                looked += some_looked;
                crossed += some_crossed;
            }
        }
    }
    println!("wrapper, histories: {looked} answered look-backs, {crossed} answered windows");
    assert!(looked > 2_000 && crossed > 2_000);
}

/// What the independent implementation says of a store's head: a clock move to OPEN meets refusals 2, 3 and 4, then 5.
fn expected_of_open(store: &[u32]) -> u32 {
    match Independent::advance(&mut store.to_vec(), OPEN) {
        Err(bench::Refusal::TIME_OPEN) => 0,
        Err(refusal) => refusal.number(),
        Ok(()) => unreachable!("OPEN is no second"),
    }
}

/// Stores that are cut, and that have words changed: both faces open exactly those that pass, and write nothing.
#[test]
fn opened_as_the_calls_would() {
    let s = settings(4, 2, 8, 16);
    let mut rng = Rng::new(30_000);
    let mut by_number = [0; 14];
    for i in 0..60_000 {
        let mut store = vec![0; s.words() + 3];
        Register::start(&mut store, checked(s)).expect("long enough").set(4, 3, -1).expect("a free tag");
        for _ in 0..rng.below(4) {
            one_word(Map { settings: s }, &mut store, &mut rng);
        }
        if i % 3 == 0 {
            store[rng.below(16) as usize] = rng.pick(&[0, 1, 2, 4, 8, 16, 64, 65, 4096, 4097, 7001, OPEN]);
        }
        let length = if rng.chance(1, 4) { rng.below(store.len() as u32 + 1) as usize } else { store.len() };
        let length = if rng.chance(1, 20) { rng.below(18) as usize } else { length };
        let before = store.clone();
        let expected = expected_of_open(&store[..length]);
        assert_eq!(number(Reader::open(&store[..length])), expected);
        assert_eq!(number(Register::open(&mut store[..length])), expected);
        assert_eq!(number(OwnedRegister::open(store[..length].to_vec())), expected);
        assert!(before == store, "opening wrote");
        by_number[expected as usize] += 1;
    }
    println!("wrapper, opened: {by_number:?}");
    assert!([0, 2, 3, 4].into_iter().all(|number| by_number[number] > 100));
}
