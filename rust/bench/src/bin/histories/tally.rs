//! The totals, and what is printed.
use crate::account::Account;
use crate::settings::block_word;
use bench::{Answer, OPEN, Refusal};

/// How often each answer came: 0 is accepted, else the refusal's number.
type Answers = [u32; 15];

#[derive(Default)]
pub struct Tally {
    pub histories: u32,
    answers: Answers,
    damaged: Answers,
    look_backs: u32,
    rows: u32,
    listed: u32,
    windows: Answers,
    window_rows: u32,
    damaged_windows: Answers,
    opened: u32,
    closed: u32,
    most: u32,
}

fn number<T>(told: &Result<T, Refusal>) -> usize {
    told.as_ref().map_or_else(|refusal| refusal.number() as usize, |_| 0)
}

/// The counts on one line, a blank before each.
fn spaced(counts: &[u32]) -> String {
    counts.iter().map(|count| format!(" {count}")).collect()
}

impl Tally {
    /// A start, change or clock move of a history.
    pub fn changed(&mut self, told: &Result<(), Refusal>) {
        self.answers[number(told)] += 1;
    }

    /// A look-back of a history.
    pub fn looked(&mut self, told: &Result<Answer, Refusal>) {
        self.answers[number(told)] += 1;
        if let Ok(answer) = told {
            self.look_backs += 1;
            self.rows += answer.rows;
            self.listed += answer.blocks;
        }
    }

    /// A window of a history.
    pub fn windowed(&mut self, told: &Result<u32, Refusal>) {
        self.answers[number(told)] += 1;
        self.windows[number(told)] += 1;
        self.window_rows += told.unwrap_or(0);
    }

    /// A window on a damaged store.
    pub fn windowed_damaged(&mut self, told: &Result<u32, Refusal>) {
        self.damaged(told);
        self.damaged_windows[number(told)] += 1;
    }

    /// A call on a damaged store.
    pub fn damaged<T>(&mut self, told: &Result<T, Refusal>) {
        self.damaged[number(told)] += 1;
    }

    /// The blocks of a store whose history ends, or begins anew: N of its head, and those with a closing second.
    pub fn blocks(&mut self, store: &[u32], account: &Account) {
        let opened = store[5];
        let closed = (1..=opened).filter(|&n| store[block_word(account.settings, n, 1)] != OPEN);
        self.closed += closed.count() as u32;
        self.opened += opened;
        self.most = self.most.max(opened);
    }

    pub fn print(&self) {
        println!("histories {}", self.histories);
        println!("calls {}", self.answers.iter().sum::<u32>());
        println!("accepted starts, changes and clock moves {}", self.answers[0] - self.look_backs - self.windows[0]);
        println!("look-backs answered {}", self.look_backs);
        println!("rows compared {}", self.rows);
        println!("blocks listed {}", self.listed);
        println!("blocks opened {}", self.opened);
        println!("blocks closed {}", self.closed);
        println!("most blocks in a history {}", self.most);
        println!("windows asked {}", self.windows.iter().sum::<u32>());
        println!("windows answered {}", self.windows[0]);
        println!("windows, refusals 1 to 14:{}", spaced(&self.windows[1..]));
        println!("window rows compared {}", self.window_rows);
        println!("windows asked on damaged stores {}", self.damaged_windows.iter().sum::<u32>());
        println!("damaged, windows answered {}", self.damaged_windows[0]);
        println!("damaged, windows, refusals 1 to 14:{}", spaced(&self.damaged_windows[1..]));
        for (number, count) in self.answers.iter().enumerate().skip(1) {
            println!("refusal {number}: {count}");
        }
        println!("calls on damaged stores {}", self.damaged.iter().sum::<u32>());
        for (number, count) in self.damaged.iter().enumerate() {
            println!("damaged, answer {number}: {count}");
        }
    }
}
