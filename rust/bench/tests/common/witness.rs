//! A register that is held, call by call, to the plain log (demand 2, and windows) and the block book (demand 3).
use super::book::Book;
use super::damage::Map;
use super::history::History;
use super::log::{Log, Standing};
use super::pair::change;
use super::{Call, Rng};
use bench::{Answer, Calls, OPEN, Proved, ROW, Refusal, Settings};
use std::collections::BTreeMap;

/// A register with all that its history says of it, and nothing from the store.
pub struct Witness {
    pub settings: Settings,
    store: Vec<u32>,
    pub history: History,
    pub log: Log,
    book: Book,
    pub looked: u64,
    pub crossed: u64,
    pub changed: u64,
}

impl Witness {
    pub fn new(settings: Settings, rng: &mut Rng) -> Witness {
        let mut store: Vec<u32> = (0..settings.words()).map(|_| rng.word()).collect();
        Proved::start(&mut store, settings).expect("sound settings");
        let (history, log, book) = (History::new(settings), Log::default(), Book::new(settings));
        Witness { settings, store, history, log, book, looked: 0, crossed: 0, changed: 0 }
    }

    /// One call: its answer is the expected one, and the store follows the book.
    pub fn step(&mut self, call: Call, rng: &mut Rng) {
        let expected = self.expected(call);
        if let Call::LookBack { second, rows, list } = call {
            self.look_back(second, rows, list, expected, rng);
            return;
        }
        if let Call::Window { first, last, rows } = call {
            self.window(first, last, rows, expected);
            return;
        }
        let before = self.store.clone();
        let outcome = change::<Proved>(&mut self.store, call);
        assert_eq!(outcome, expected, "{call:?}");
        match outcome {
            Err(_) => assert!(before == self.store, "{call:?} was refused and wrote"),
            Ok(()) => self.follow(call),
        }
    }

    fn follow(&mut self, call: Call) {
        self.changed += 1;
        self.history.follow(call);
        self.log.follow(call);
        self.book.follow(call);
    }

    /// The refusal that applies, by what was called so far: none of 1 to 4 and never 12.
    fn expected(&self, call: Call) -> Result<(), Refusal> {
        let (s, clock) = (self.settings, self.history.clock);
        if let Call::Window { first, last, rows } = call {
            let tests = [
                (Refusal::TIME_OPEN, first == OPEN || last == OPEN),
                (Refusal::REVERSED, last < first),
                (Refusal::LATE, last > clock),
                (Refusal::SHORT_BUFFER, rows < s.row_words()),
            ];
            return tests.into_iter().find(|test| test.1).map_or(Ok(()), |test| Err(test.0));
        }
        let now = self.log.state(OPEN - 1);
        let (second, tag) = match call {
            Call::Set { second, tag, .. } | Call::Clear { second, tag } | Call::Update { second, tag, .. } => {
                (second, tag)
            }
            Call::Advance { second } | Call::LookBack { second, .. } => (second, 0),
            Call::Start(_) | Call::Window { .. } => return Ok(()),
        };
        let is_look = matches!(call, Call::LookBack { .. });
        let tests = [
            (Refusal::TIME_OPEN, second == OPEN),
            (Refusal::EARLY, !is_look && second < clock),
            (Refusal::LATE, is_look && second > clock),
            (Refusal::TAG, tag >= s.tags),
            (Refusal::STANDING, matches!(call, Call::Set { .. }) && now.contains_key(&tag)),
            (
                Refusal::NOT_STANDING,
                matches!(call, Call::Clear { .. } | Call::Update { .. }) && !now.contains_key(&tag),
            ),
            (Refusal::SHORT_BUFFER, short_buffer(s, call)),
        ];
        match tests.into_iter().find(|test| test.1) {
            Some((refusal, _)) => Err(refusal),
            None => self.room_for(call),
        }
    }

    /// Refusal 13: the book would have more than B blocks.
    fn room_for(&self, call: Call) -> Result<(), Refusal> {
        if call.is_query() || matches!(call, Call::Advance { .. }) {
            return Ok(());
        }
        let mut after = self.book.clone();
        after.follow(call);
        if after.blocks.len() > self.settings.blocks as usize {
            return Err(Refusal::OUT_OF_BLOCKS);
        }
        Ok(())
    }

    fn look_back(&mut self, t: u32, rows: usize, list: usize, expected: Result<(), Refusal>, rng: &mut Rng) {
        let (mut rows, mut list) = (vec![9; rows], vec![9; list]);
        let answer = Proved::look_back(&self.store, t, &mut rows, &mut list);
        assert_eq!(answer.map(|_| ()), expected, "look-back at {t}");
        if let Ok(answer) = answer {
            self.looked += 1;
            self.check_rows(t, answer, &rows);
            self.check_list(t, answer, &list);
            self.check_alike(t, answer, &rows, &list, rng);
        }
    }

    fn window(&mut self, first: u32, last: u32, rows: usize, expected: Result<(), Refusal>) {
        let mut words = vec![9; rows];
        let told = Proved::window(&self.store, first, last, &mut words);
        assert_eq!(told.map(|_| ()), expected, "window from {first} to {last}");
        match told {
            Ok(_) => self.check_window(first, last, rows, &self.log.window(first, last)),
            Err(_) => assert!(words.iter().all(|&word| word == 9), "refused, and wrote"),
        }
        self.crossed += u64::from(told.is_ok());
    }

    /// Request 2: each tag that stood at some second of the window, in ascending order, as it stood last.
    pub fn check_window(&self, first: u32, last: u32, rows: usize, stood: &BTreeMap<u32, Standing>) {
        let mut words = vec![9; rows];
        let told = Proved::window(&self.store, first, last, &mut words);
        assert_eq!(told, Ok(stood.len() as u32), "rows from {first} to {last}");
        let expected = stood.iter().flat_map(|(&tag, standing)| [tag, standing.reading as u32, standing.since]);
        let after = std::iter::repeat_n(9, rows - ROW * stood.len());
        assert!(words.into_iter().eq(expected.chain(after)), "rows from {first} to {last}, and the words after them");
    }

    /// A window of one second tells what a look-back at it does, in the order of tags.
    pub fn check_one_second(&self, t: u32) {
        let (mut rows, mut list) = (vec![9; self.settings.row_words()], vec![9; self.settings.blocks as usize]);
        let answer = Proved::look_back(&self.store, t, &mut rows, &mut list).expect("a past second");
        rows.as_chunks_mut::<ROW>().0[..answer.rows as usize].sort_unstable();
        let mut crossed = vec![9; self.settings.row_words()];
        assert_eq!(Proved::window(&self.store, t, t, &mut crossed), Ok(answer.rows), "at {t}");
        assert!(crossed == rows, "a window of the second {t} and the look-back at it");
    }

    /// Demand 2: each condition of the log at t once, with its reading and since, and no other.
    fn check_rows(&self, t: u32, answer: Answer, rows: &[u32]) {
        let words = rows.as_chunks::<ROW>().0.iter().take(answer.rows as usize);
        let standing = words.map(|&[tag, reading, since]| (tag, Standing { reading: reading as i32, since }));
        let told: BTreeMap<u32, Standing> = standing.collect();
        assert_eq!(told.len(), answer.rows as usize, "a tag twice at {t}");
        assert!(told == self.log.state(t), "rows at {t}");
        assert!(rows[ROW * answer.rows as usize..].iter().all(|&word| word == 9), "words after the rows at {t}");
    }

    /// Demand 3: no block twice, at most twice the open ones; those open, times q, at most the rows plus q.
    fn check_list(&self, t: u32, answer: Answer, list: &[u32]) {
        let mut listed = list[..answer.blocks as usize].to_vec();
        listed.sort_unstable();
        listed.dedup();
        assert_eq!(listed.len(), answer.blocks as usize, "a block twice at {t}");
        let open = self.book.open_at(t);
        assert!(listed.len() <= 2 * open, "{} blocks listed, {open} open at {t}", listed.len());
        assert!(open * self.book.q <= answer.rows as usize + self.book.q, "{open} open, {} rows at {t}", answer.rows);
    }

    /// Demand 3: a store alike in length, head, index pages passed and listed blocks gets the same answer.
    fn check_alike(&self, t: u32, answer: Answer, rows: &[u32], list: &[u32], rng: &mut Rng) {
        let mut alike: Vec<u32> = (0..self.store.len()).map(|_| rng.word()).collect();
        let map = Map { settings: self.settings };
        let mut keep =
            |from: usize, words: usize| alike[from..from + words].copy_from_slice(&self.store[from..from + words]);
        keep(0, 16);
        for (level, first) in [16, 16 + 4096, 16 + 4096 + 256].into_iter().enumerate() {
            if answer.page[level] != OPEN {
                keep(first + 16 * answer.page[level] as usize, 16);
            }
        }
        for &n in &list[..answer.blocks as usize] {
            keep(map.block(n, 0), self.settings.block_words());
        }
        let (mut rows_again, mut list_again) = (vec![9; rows.len()], vec![9; list.len()]);
        let again = Proved::look_back(&alike, t, &mut rows_again, &mut list_again);
        assert!(again == Ok(answer) && rows_again == rows && list_again == list, "a store alike at {t}");
    }

    /// Demand 3: blocks, their seconds, records placed, and the bound on these.
    pub fn check_book(&self) {
        let (s, map) = (self.settings, Map { settings: self.settings });
        assert_eq!(self.store[5] as usize, self.book.blocks.len());
        for (n, block) in (1..).zip(&self.book.blocks) {
            assert_eq!(self.store[map.block(n, 0)], block.opened, "block {n} opened");
            assert_eq!(self.store[map.block(n, 1)], block.closed, "block {n} closed");
        }
        let placed = match self.store[5] {
            0 => 0,
            opened => u64::from((opened - 1) * s.block + self.store[7]),
        };
        assert_eq!(placed, self.book.records() as u64);
        assert!(placed * u64::from(s.block - s.useful + 1) <= u64::from(s.block) * self.log.written);
    }
}

fn short_buffer(s: Settings, call: Call) -> bool {
    matches!(call, Call::LookBack { rows, list, .. } if rows < s.row_words() || list < s.blocks as usize)
}
