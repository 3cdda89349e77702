//! The register, by either implementation.
use super::{Contender, Crosser, Row};
use crate::input::{self, Change, Span};
use bench::{Answer, Calls, ROW, Settings};
use std::marker::PhantomData;

pub struct Store<R> {
    name: &'static str,
    settings: Settings,
    words: Vec<u32>,
    row_words: Vec<u32>,
    list: Vec<u32>,
    rows: Vec<Row>,
    answer: Option<Answer>,
    calls: PhantomData<R>,
}

impl<R: Calls> Store<R> {
    pub fn new(name: &'static str, settings: Settings) -> Store<R> {
        Store {
            name,
            settings,
            words: vec![0; settings.words()],
            row_words: vec![0; settings.row_words()],
            list: vec![0; settings.blocks as usize],
            rows: Vec::new(),
            answer: None,
            calls: PhantomData,
        }
    }

    fn opened(&self) -> usize {
        self.words[5] as usize
    }

    fn first_block(&self) -> usize {
        16 + 4096 + 256 + 16 + self.settings.tags as usize
    }

    /// How many of the blocks opened have such seconds of opening and closing.
    fn blocks_with(&self, which: impl Fn(u32, u32) -> bool) -> usize {
        let blocks = self.words[self.first_block()..].chunks(self.settings.block_words()).take(self.opened());
        blocks.filter(|block| which(block[0], block[1])).count()
    }

    /// Takes the first rows of the row buffer.
    fn take(&mut self, rows: usize) {
        let given = self.row_words.as_chunks::<ROW>().0.iter().take(rows);
        self.rows.clear();
        self.rows.extend(given.map(|&[tag, reading, since]| Row { tag, reading: reading as i32, since }));
    }
}

impl<R: Calls> Crosser for Store<R> {
    fn cross_all(&mut self, windows: &[Span]) -> u64 {
        let (mut rows, mut last) = (0, 0);
        for window in windows {
            let told = R::window(&self.words, window.first, window.last, &mut self.row_words);
            last = told.expect("the window is in the history");
            rows += u64::from(last);
        }
        self.take(last as usize);
        rows
    }

    fn blocks_read(&self, window: Span) -> Option<(usize, usize)> {
        let read = self.blocks_with(|opened, closed| opened <= window.last && window.first < closed);
        Some((read, self.opened()))
    }
}

impl<R: Calls> Contender for Store<R> {
    fn name(&self) -> &'static str {
        self.name
    }

    fn restart(&mut self) {
        R::start(&mut self.words, self.settings).expect("sound settings");
    }

    fn change_all(&mut self, changes: &[Change]) {
        for change in changes {
            input::apply::<R>(&mut self.words, change).expect("the input is cut to fit");
        }
    }

    fn look_all(&mut self, seconds: &[u32]) -> u64 {
        let mut rows = 0;
        for &second in seconds {
            let answer = R::look_back(&self.words, second, &mut self.row_words, &mut self.list);
            let answer = answer.expect("the second is in the history");
            rows += u64::from(answer.rows);
            self.answer = Some(answer);
        }
        self.take(self.answer.map_or(0, |answer| answer.rows as usize));
        rows
    }

    fn rows(&self) -> &[Row] {
        &self.rows
    }

    /// The blocks opened and all that stands before them.
    fn bytes(&mut self) -> usize {
        4 * (self.first_block() + self.opened() * self.settings.block_words())
    }

    /// The head, each page passed and each block listed, counted whole.
    fn words_read(&self) -> Option<usize> {
        self.answer.map(|answer| 16 + 16 * answer.pages as usize + answer.blocks as usize * self.settings.block_words())
    }

    fn blocks(&self, second: u32) -> Option<(usize, usize)> {
        let open = self.blocks_with(|opened, closed| opened <= second && second < closed);
        self.answer.map(|answer| (answer.blocks as usize, open))
    }
}
