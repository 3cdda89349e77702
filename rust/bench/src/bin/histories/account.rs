//! What a history's draws go by: the words that it lends, and what its accepted calls amount to.
use bench::Settings;

#[derive(Clone, Copy, PartialEq, Eq)]
pub enum Kind {
    Set,
    Clear,
    Update,
    Advance,
}

pub struct Account {
    /// Those of the last accepted start; before the first, those that it will have.
    pub settings: Settings,
    pub started: bool,
    /// The second of the last accepted change or clock move.
    pub clock: u32,
    /// For each tag, whether it stands now.
    pub standing: Vec<bool>,
    /// How many words of the store this history lends.
    pub length: u32,
    /// This history is to run near the last second.
    pub late: bool,
    /// This history has more blocks than two levels of the index hold.
    pub long: bool,
}

impl Account {
    /// Before the first start, on a store that is `more` words longer than the layout.
    pub fn new(settings: Settings, more: u32, late: bool) -> Account {
        let standing = vec![false; settings.tags as usize];
        let length = settings.words() as u32 + more;
        Account { settings, started: false, clock: 0, standing, length, late, long: settings.blocks > 256 }
    }

    /// Follows an accepted start.
    pub fn start(&mut self, settings: Settings) {
        (self.settings, self.started, self.clock) = (settings, true, 0);
        self.standing = vec![false; settings.tags as usize];
    }

    /// Follows an accepted change or clock move.
    pub fn follow(&mut self, kind: Kind, second: u32, tag: u32) {
        self.clock = second;
        if kind != Kind::Advance {
            self.standing[tag as usize] = kind != Kind::Clear;
        }
    }
}
