//! Times and figures. All contenders of a setting take turns in each round, and the median of the rounds is given.
use crate::input::{self, Change};
use crate::rivals::Contender;
use crate::rivals::copies::Copies;
use crate::rivals::log::Log;
use crate::rivals::sqlite::Sqlite;
use crate::rivals::store::Store;
use bench::{Independent, Proved};
use std::time::{Duration, Instant};

pub const ROUNDS: usize = 5;
pub const AGES: [(&str, u32); 3] = [("recent", 99), ("middle", 50), ("old", 5)];
/// Seconds looked at for each age, and the least time of a round of look-backs.
const SECONDS: u32 = 64;
const LEAST: Duration = Duration::from_millis(25);

/// One contender's figures on one input.
pub struct Figures {
    pub name: &'static str,
    pub given: usize,
    pub changes_per_s: f64,
    /// For each age.
    pub looks: Vec<Look>,
    pub bytes_per_change: f64,
}

#[derive(Clone, Copy)]
pub struct Look {
    pub per_s: f64,
    pub rows: f64,
    pub words: Option<f64>,
    /// Blocks listed, blocks open.
    pub blocks: Option<(f64, f64)>,
}

/// The same work by every contender.
pub struct Setting {
    pub work: &'static str,
    pub block: u32,
    pub changes: usize,
    pub all: usize,
    pub figures: Vec<Figures>,
}

pub fn setting(work: &'static str, all: &[Change], block: u32) -> Setting {
    let settings = input::settings(block);
    let changes = input::cut(all, settings);
    let mut contenders = contenders(block);
    let change_times = rounds(&mut contenders, |c| time_changes(c, changes));
    agree(&mut contenders, changes);
    let look_times: Vec<Vec<f64>> = AGES
        .iter()
        .map(|&(_, from)| {
            rounds(&mut contenders, |c| {
                let seconds = input::seconds(given(c, changes), from, SECONDS);
                time_looks(c, &seconds)
            })
        })
        .collect();
    let figures = contenders.iter_mut().enumerate().map(|(i, c)| {
        let given = given(&**c, changes);
        let looks =
            AGES.iter().enumerate().map(|(age, &(_, from))| look(&mut **c, given, from, look_times[age][i])).collect();
        Figures {
            name: c.name(),
            given: given.len(),
            changes_per_s: given.len() as f64 / change_times[i],
            looks,
            bytes_per_change: c.bytes() as f64 / given.len() as f64,
        }
    });
    Setting { work, block, changes: changes.len(), all: all.len(), figures: figures.collect() }
}

pub fn contenders(block: u32) -> Vec<Box<dyn Contender>> {
    let settings = input::settings(block);
    let mut all: Vec<Box<dyn Contender>> = vec![
        Box::new(Store::<Proved>::new("proved", settings)),
        Box::new(Store::<Independent>::new("independent", settings)),
        Box::new(Log::default()),
        Box::new(Copies::default()),
    ];
    if let Some(sqlite) = Sqlite::new() {
        all.push(Box::new(sqlite));
    }
    all
}

/// The changes that a contender is given.
fn given<'a>(contender: &dyn Contender, changes: &'a [Change]) -> &'a [Change] {
    &changes[..changes.len().min(contender.most_changes())]
}

/// For each contender the median of its times, taken in turns.
pub fn rounds<C: ?Sized>(contenders: &mut [Box<C>], time: impl Fn(&mut C) -> f64) -> Vec<f64> {
    let mut times = vec![Vec::new(); contenders.len()];
    for _ in 0..ROUNDS {
        for (contender, times) in contenders.iter_mut().zip(&mut times) {
            times.push(time(&mut **contender));
        }
    }
    times.into_iter().map(median).collect()
}

pub fn median(mut times: Vec<f64>) -> f64 {
    times.sort_by(f64::total_cmp);
    times[times.len() / 2]
}

/// Seconds for the whole input.
fn time_changes(contender: &mut dyn Contender, changes: &[Change]) -> f64 {
    contender.restart();
    let changes = given(contender, changes);
    let begun = Instant::now();
    contender.change_all(changes);
    begun.elapsed().as_secs_f64()
}

/// Seconds for one look-back.
fn time_looks(contender: &mut dyn Contender, seconds: &[u32]) -> f64 {
    time_queries(seconds, |few| contender.look_all(few))
}

/// Seconds for one of these, which are asked for a few at a time.
pub fn time_queries<Q>(queries: &[Q], mut ask: impl FnMut(&[Q]) -> u64) -> f64 {
    let begun = Instant::now();
    let mut done = 0;
    while begun.elapsed() < LEAST {
        for few in queries.chunks(8) {
            ask(few);
            done += few.len();
            if begun.elapsed() > 4 * LEAST {
                break;
            }
        }
    }
    begun.elapsed().as_secs_f64() / done as f64
}

/// What the look-backs of an age read, on average.
fn look(contender: &mut dyn Contender, changes: &[Change], from: u32, time: f64) -> Look {
    let seconds = input::seconds(changes, from, SECONDS);
    let (mut rows, mut words, mut listed, mut open) = (0, 0, 0, 0);
    for &second in &seconds {
        rows += contender.look_all(&[second]);
        words += contender.words_read().unwrap_or(0);
        let blocks = contender.blocks(second).unwrap_or((0, 0));
        listed += blocks.0;
        open += blocks.1;
    }
    let mean = |sum: usize| sum as f64 / seconds.len() as f64;
    Look {
        per_s: 1.0 / time,
        rows: mean(rows as usize),
        words: contender.words_read().map(|_| mean(words)),
        blocks: contender.blocks(0).map(|_| (mean(listed), mean(open))),
    }
}

/// All contenders tell the same rows; else nothing they do is worth measuring.
fn agree(contenders: &mut [Box<dyn Contender>], changes: &[Change]) {
    let least = contenders.iter().map(|c| given(&**c, changes).len()).min().unwrap_or(0);
    let shared = &changes[..least];
    for (_, from) in AGES {
        // the last second of a shared part may go on in the rest
        for second in input::seconds(shared, from.min(98), 16) {
            let mut told = contenders.iter_mut().map(|contender| {
                contender.look_all(&[second]);
                let mut rows = contender.rows().to_vec();
                rows.sort_unstable();
                rows
            });
            let first = told.next();
            assert!(told.all(|rows| Some(&rows) == first.as_ref()), "contenders differ at {second}");
        }
    }
}

/// The cost at one length of history.
pub struct Growth {
    pub changes: usize,
    /// Nanoseconds of a change and microseconds of a look-back: proved, independent, log.
    pub change_ns: [f64; 3],
    pub look_us: [f64; 3],
    pub rows: f64,
    pub listed: f64,
}

/// How cost moves with history length: the last changes of an eighth, a quarter, a half and all of the input, and recent
/// look-backs after them.
pub fn growth(all: &[Change], block: u32) -> Vec<Growth> {
    let changes = input::cut(all, input::settings(block));
    let mut contenders = contenders(block);
    contenders.truncate(3);
    [8, 4, 2, 1].into_iter().map(|part| growth_at(&mut contenders, &changes[..changes.len() / part])).collect()
}

fn growth_at(contenders: &mut [Box<dyn Contender>], changes: &[Change]) -> Growth {
    const LAST: usize = 4_000;
    let (before, last) = changes.split_at(changes.len() - LAST);
    let change_times = rounds(contenders, |c| {
        c.restart();
        c.change_all(before);
        let begun = Instant::now();
        c.change_all(last);
        begun.elapsed().as_secs_f64() / LAST as f64
    });
    let seconds = input::seconds(changes, 99, SECONDS);
    let look_times = rounds(contenders, |c| time_looks(c, &seconds));
    let seen = look(&mut *contenders[0], changes, 99, 1.0);
    let three = |times: &[f64], scale: f64| [times[0] * scale, times[1] * scale, times[2] * scale];
    Growth {
        changes: changes.len(),
        change_ns: three(&change_times, 1e9),
        look_us: three(&look_times, 1e6),
        rows: seen.rows,
        listed: seen.blocks.map_or(0.0, |blocks| blocks.0),
    }
}
