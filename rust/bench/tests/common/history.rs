//! Draws the next call of an honest history: mostly calls that will be accepted, some that will not.
use super::{Call, Rng};
use bench::{OPEN, Settings};

/// How a history behaves.
#[derive(Clone, Copy)]
pub struct Temper {
    /// Of 100 changes, how many are at the clock's own second.
    pub same_second: u32,
    /// Of 100 calls, how many are look-backs, and how many windows.
    pub look_backs: u32,
    pub windows: u32,
    /// Of 100 changes, how many are clears and how many new readings; the rest are sets.
    pub clears: u32,
    pub updates: u32,
    /// Of 1,000 calls, how many have an argument that is out of place.
    pub odd: u32,
}

pub const TEMPERS: [Temper; 4] = [
    Temper { same_second: 20, look_backs: 20, windows: 10, clears: 40, updates: 15, odd: 20 },
    Temper { same_second: 85, look_backs: 10, windows: 10, clears: 45, updates: 10, odd: 10 },
    Temper { same_second: 50, look_backs: 15, windows: 10, clears: 10, updates: 70, odd: 10 },
    Temper { same_second: 5, look_backs: 30, windows: 15, clears: 48, updates: 2, odd: 100 },
];

/// What stands, as the caller knows it, and the clock.
pub struct History {
    pub settings: Settings,
    pub clock: u32,
    standing: Vec<u32>,
    place: Vec<Option<usize>>,
}

impl History {
    pub fn new(settings: Settings) -> History {
        History { settings, clock: 0, standing: Vec::new(), place: vec![None; settings.tags as usize] }
    }

    pub fn draw(&self, temper: Temper, rng: &mut Rng) -> Call {
        let kind = rng.below(100);
        let call = if kind < temper.look_backs {
            self.draw_look_back(rng)
        } else if kind < temper.look_backs + temper.windows {
            self.draw_window(rng)
        } else if kind < temper.look_backs + temper.windows + 2 {
            Call::Advance { second: self.draw_second(temper, rng) }
        } else {
            self.draw_change(temper, rng)
        };
        if rng.chance(temper.odd, 1000) { self.bend(call, rng) } else { call }
    }

    /// Follows an accepted call.
    pub fn follow(&mut self, call: Call) {
        match call {
            Call::Start(settings) => *self = History::new(settings),
            Call::Set { second, tag, .. } => {
                self.clock = second;
                self.place[tag as usize] = Some(self.standing.len());
                self.standing.push(tag);
            }
            Call::Clear { second, tag } => {
                self.clock = second;
                let at = self.place[tag as usize].take().expect("an accepted clear was of a standing tag");
                self.standing.swap_remove(at);
                if let Some(&moved) = self.standing.get(at) {
                    self.place[moved as usize] = Some(at);
                }
            }
            Call::Update { second, .. } | Call::Advance { second } => self.clock = second,
            Call::LookBack { .. } | Call::Window { .. } => {}
        }
    }

    fn draw_second(&self, temper: Temper, rng: &mut Rng) -> u32 {
        if rng.chance(temper.same_second, 100) {
            self.clock
        } else {
            self.clock.saturating_add(1 + rng.below(3)).min(OPEN - 1)
        }
    }

    fn draw_change(&self, temper: Temper, rng: &mut Rng) -> Call {
        let second = self.draw_second(temper, rng);
        let reading = rng.word() as i32;
        let kind = rng.below(100);
        if kind < temper.clears && !self.standing.is_empty() {
            Call::Clear { second, tag: self.draw_standing(rng) }
        } else if kind < temper.clears + temper.updates && !self.standing.is_empty() {
            Call::Update { second, tag: self.draw_standing(rng), reading }
        } else {
            Call::Set { second, tag: self.draw_free(rng), reading }
        }
    }

    fn draw_standing(&self, rng: &mut Rng) -> u32 {
        rng.pick(&self.standing)
    }

    /// A tag that does not stand, if a few draws find one.
    fn draw_free(&self, rng: &mut Rng) -> u32 {
        let mut tag = rng.below(self.settings.tags);
        for _ in 0..20 {
            if self.place[tag as usize].is_none() {
                break;
            }
            tag = rng.below(self.settings.tags);
        }
        tag
    }

    /// A second up to the clock, often a late one.
    fn draw_past(&self, rng: &mut Rng) -> u32 {
        match rng.below(4) {
            0 => self.clock,
            1 => self.clock.saturating_sub(rng.below(8)),
            _ => rng.below(self.clock + 1),
        }
    }

    fn draw_look_back(&self, rng: &mut Rng) -> Call {
        self.look_back_at(self.draw_past(rng))
    }

    /// One second, a few, or any up to some past one.
    fn draw_window(&self, rng: &mut Rng) -> Call {
        let last = self.draw_past(rng);
        let first = match rng.below(4) {
            0 => last,
            1 => last.saturating_sub(rng.below(8)),
            _ => rng.below(last + 1),
        };
        self.window_from(first, last)
    }

    pub fn window_from(&self, first: u32, last: u32) -> Call {
        Call::Window { first, last, rows: self.settings.row_words() }
    }

    pub fn look_back_at(&self, second: u32) -> Call {
        Call::LookBack { second, rows: self.settings.row_words(), list: self.settings.blocks as usize }
    }

    /// Puts one argument out of place.
    fn bend(&self, call: Call, rng: &mut Rng) -> Call {
        let odd_second = rng.pick(&[OPEN, OPEN, self.clock.wrapping_sub(1), self.clock.wrapping_add(1), 0]);
        let odd_tag = rng.pick(&[self.settings.tags, self.settings.tags - 1, 0, OPEN, 4096]);
        let by_second = rng.chance(1, 2);
        match call {
            Call::Set { tag, reading, .. } if by_second => Call::Set { second: odd_second, tag, reading },
            Call::Set { second, reading, .. } => Call::Set { second, tag: odd_tag, reading },
            Call::Clear { tag, .. } if by_second => Call::Clear { second: odd_second, tag },
            Call::Clear { second, .. } => Call::Clear { second, tag: odd_tag },
            Call::Update { tag, reading, .. } if by_second => Call::Update { second: odd_second, tag, reading },
            Call::Update { second, reading, .. } => Call::Update { second, tag: odd_tag, reading },
            Call::Advance { .. } => Call::Advance { second: odd_second },
            Call::LookBack { rows, list, .. } if by_second => Call::LookBack { second: odd_second, rows, list },
            Call::LookBack { second, rows, list } => Call::LookBack {
                second,
                rows: rows + 3 - rng.below(5) as usize,
                list: list + 2 - rng.below(3) as usize,
            },
            Call::Window { first, last, rows } => match rng.below(5) {
                0 => Call::Window { first: odd_second, last, rows },
                1 => Call::Window { first, last: odd_second, rows },
                2 => Call::Window { first: last, last: first, rows },
                3 => Call::Window { first: odd_second, last: odd_second, rows: rows - 1 },
                _ => Call::Window { first, last, rows: rows + 3 - rng.below(5) as usize },
            },
            Call::Start(_) => call,
        }
    }
}
