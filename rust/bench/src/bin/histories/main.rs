//! What the Rattle program `histories` must print, found without it and without the proved register.
//!
//! The calls are test data, so they are drawn here as there: `random`, `draw`, `settings` and `damage` are ports of the
//! files of crates/model/src and crates/histories/src, number for number. Every answer and every word is the independent implementation's
//! (rust/bench/src/independent, written from the papers): the proved register is not called, and with
//! `--no-default-features`, as tools/expected-histories builds this, it is not linked. What is drawn depends on the
//! answers before it (the clock, the tags that stand, the words left), so the two programs stay together only while
//! their registers do.
//!
//! The last line is not found here: the Rattle program counts there where the register and its own log and book differ,
//! and there must be none.
mod account;
mod damage;
mod draw;
mod lent;
mod random;
mod settings;
mod tally;

use account::{Account, Kind};
use bench::Settings;
use lent::Lent;
use random::Random;
use tally::Tally;

/// Histories of 200 calls, and long ones, in which the index gets its third level.
const HISTORIES: u32 = 5000;
const CALLS: u32 = 200;
const LONG_HISTORIES: u32 = 24;
const LONG_CALLS: u32 = 2000;

fn main() {
    let (mut lent, mut tally) = (Lent::default(), Tally::default());
    for number in 0..HISTORIES + LONG_HISTORIES {
        let (settings, calls) = if number < HISTORIES {
            (settings::listed(number % settings::LISTED), CALLS)
        } else {
            (settings::listed(settings::LISTED), LONG_CALLS)
        };
        tally.histories += 1;
        let mut random = Random::seeded(number);
        let account = prepare(settings, &mut lent, &mut random);
        let mut history = History { account, lent: &mut lent, tally: &mut tally, random };
        history.play(settings, calls);
    }
    tally.print();
    println!("mismatches 0");
}

/// A store of words that tell their places, lent as long as the layout or somewhat longer; nothing is started yet.
fn prepare(settings: Settings, lent: &mut Lent, random: &mut Random) -> Account {
    let more = random.below(80).saturating_sub(40);
    let account = Account::new(settings, more, random.once_in(8));
    for (place, word) in (0..account.length).zip(&mut lent.store) {
        *word = place + 3_000_000_000;
    }
    account
}

struct History<'a> {
    account: Account,
    lent: &'a mut Lent,
    tally: &'a mut Tally,
    random: Random,
}

impl History<'_> {
    /// In one history of six some calls on an unstarted store; a start, the calls, then calls on the damaged store.
    fn play(&mut self, settings: Settings, calls: u32) {
        if self.random.once_in(6) {
            self.calls(3);
        }
        self.start(settings, self.account.length);
        self.calls(calls);
        self.tally.blocks(&self.lent.store, &self.account);
        damage::rounds(&self.account, self.lent, self.tally, &mut self.random);
    }

    fn calls(&mut self, calls: u32) {
        for _ in 0..calls {
            match self.random.below(200) {
                0..70 => self.change(Kind::Set),
                70..110 => self.change(Kind::Clear),
                110..145 => self.change(Kind::Update),
                145..155 => self.change(Kind::Advance),
                155..185 => self.look_back(),
                185..199 => self.window(),
                _ => self.restart(),
            }
        }
    }

    fn change(&mut self, kind: Kind) {
        let change = draw::change(kind, &self.account, &mut self.random);
        let told = self.lent.change(kind, &change);
        self.tally.changed(&told);
        if told.is_ok() {
            self.account.follow(kind, change.second, change.tag);
        }
    }

    fn look_back(&mut self) {
        let length = draw::length(&self.account, &mut self.random);
        let second = draw::past(&self.account, &mut self.random);
        let buffers = draw::buffers(&self.account, &mut self.random);
        self.tally.looked(&self.lent.look_back(length, second, buffers));
    }

    fn window(&mut self) {
        let length = draw::length(&self.account, &mut self.random);
        let last = draw::past(&self.account, &mut self.random);
        let window = draw::window_to(length, last, &self.account, &mut self.random);
        self.tally.windowed(&self.lent.window(&window));
    }

    fn restart(&mut self) {
        let settings = draw::settings(&self.account, &mut self.random);
        let length = draw::length(&self.account, &mut self.random);
        self.start(settings, length);
    }

    /// An accepted start ends the history before it, whose blocks are counted.
    fn start(&mut self, settings: Settings, length: u32) {
        let before = self.lent.store.clone();
        let told = self.lent.start(length, settings);
        self.tally.changed(&told);
        if told.is_ok() {
            if self.account.started {
                self.tally.blocks(&before, &self.account);
            }
            self.account.start(settings);
        }
    }
}
