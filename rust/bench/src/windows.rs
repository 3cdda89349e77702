//! Times and figures of windows in the year's work: of an hour, a day and a month, and over history length.
use crate::input::{self, Change, DAY, HOUR, MONTH, Span};
use crate::measure::{rounds, time_queries};
use crate::rivals::Crosser;
use crate::rivals::log::Log;
use crate::rivals::sqlite::Sqlite;
use crate::rivals::store::Store;
use bench::{Independent, Proved};

const LENGTHS: [(&str, u32); 3] = [("hour", HOUR), ("day", DAY), ("month", MONTH)];
/// Windows asked for, of each length.
const WINDOWS: u32 = 32;

/// What windows of one length cost and read, on average.
pub struct Crossing {
    pub name: &'static str,
    pub changes: usize,
    /// Microseconds, by contender: proved, independent, log and, if the machine has it, SQLite.
    pub us: Vec<f64>,
    pub rows: f64,
    pub read: f64,
    pub opened: usize,
}

/// Windows spread over all of the work.
pub fn setting(all: &[Change], block: u32) -> Vec<Crossing> {
    let changes = input::cut(all, input::settings(block));
    let mut crossers = crossers(block);
    crossers.iter_mut().for_each(|crosser| follow(&mut **crosser, changes));
    let windows = LENGTHS.map(|(name, seconds)| (name, input::windows(changes, seconds, WINDOWS)));
    windows.into_iter().map(|(name, windows)| crossing(&mut crossers, name, changes.len(), &windows)).collect()
}

/// Windows of the last day, after an eighth, a quarter, a half and all of the work.
pub fn growth(all: &[Change], block: u32) -> Vec<Crossing> {
    let changes = input::cut(all, input::settings(block));
    let mut crossers = crossers(block);
    let mut at = |part: usize| {
        let changes = &changes[..changes.len() / part];
        crossers.iter_mut().for_each(|crosser| follow(&mut **crosser, changes));
        let ends = input::seconds(changes, 99, WINDOWS);
        let windows: Vec<Span> = ends.into_iter().map(|last| Span::up_to(last, DAY)).collect();
        crossing(&mut crossers, "day", changes.len(), &windows)
    };
    [8, 4, 2, 1].map(&mut at).into()
}

fn crossers(block: u32) -> Vec<Box<dyn Crosser>> {
    let settings = input::settings(block);
    let mut all: Vec<Box<dyn Crosser>> = vec![
        Box::new(Store::<Proved>::new("proved", settings)),
        Box::new(Store::<Independent>::new("independent", settings)),
        Box::new(Log::default()),
    ];
    if let Some(sqlite) = Sqlite::new() {
        all.push(Box::new(sqlite));
    }
    all
}

fn follow(crosser: &mut dyn Crosser, changes: &[Change]) {
    crosser.restart();
    crosser.change_all(changes);
}

fn crossing(crossers: &mut [Box<dyn Crosser>], name: &'static str, changes: usize, windows: &[Span]) -> Crossing {
    let rows = agree(crossers, windows);
    let read: usize = windows.iter().filter_map(|&window| crossers[0].blocks_read(window)).map(|blocks| blocks.0).sum();
    let opened = crossers[0].blocks_read(windows[0]).map_or(0, |blocks| blocks.1);
    let times = rounds(crossers, |crosser| time_queries(windows, |few| crosser.cross_all(few)));
    let mean = |sum: usize| sum as f64 / windows.len() as f64;
    let us = times.into_iter().map(|time| 1e6 * time).collect();
    Crossing { name, changes, us, rows: mean(rows), read: mean(read), opened }
}

/// All contenders tell the same rows in the same order, and so many in all.
fn agree(crossers: &mut [Box<dyn Crosser>], windows: &[Span]) -> usize {
    let mut sum = 0;
    for window in windows {
        let mut told = crossers.iter_mut().map(|crosser| {
            crosser.cross_all(std::slice::from_ref(window));
            crosser.rows().to_vec()
        });
        let first = told.next().unwrap_or_default();
        assert!(told.all(|rows| rows == first), "contenders differ in {window:?}");
        sum += first.len();
    }
    sum
}
