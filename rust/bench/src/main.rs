//! Measures the proved register beside its rivals. Prints the tables; writes only where it is told to.
//!
//! `cargo run --release` measures everything; `-- write ../docs` also puts the tables into ../docs/BENCHMARKS.md and
//! the plot into ../docs/benchmarks.svg. `-- count proved sets year 16 4` makes one kind of call for callgrind, and
//! `-- put counted ../docs` puts what it reads from standard input into the page; count.sh uses these two.
mod closings;
mod count;
mod draw;
mod input;
mod measure;
mod plot;
mod report;
mod rivals;
mod windows;

use std::path::Path;

const USAGE: &str = "usage: bench [write FOLDER | count WHO WHAT WORK B Q | put NAME FOLDER]
FOLDER: has BENCHMARKS.md
WHO: proved, independent, nothing or, with the feature `array`, array
WHAT: sets, clears, readings, closings, lookbacks or windows; WORK: year, days (its first four) or stress";

fn main() {
    let words: Vec<String> = std::env::args().skip(1).collect();
    let words: Vec<&str> = words.iter().map(String::as_str).collect();
    match words[..] {
        [] => benchmark(None),
        ["write", folder] => benchmark(Some(Path::new(folder))),
        ["count", who, what, work, block, useful] => count::run(who, what, work, block, useful),
        ["put", name, folder] => {
            let text = std::io::read_to_string(std::io::stdin()).expect("standard input is text");
            report::put(Path::new(folder), name, &text);
        }
        _ => {
            eprintln!("{USAGE}");
            std::process::exit(2);
        }
    }
}

fn benchmark(folder: Option<&Path>) {
    if let Some(folder) = folder {
        report::page(folder); // a wrong folder is told before the measuring
    }
    let mut settings = Vec::new();
    for (work, changes) in [("year", input::year()), ("stress", input::stress())] {
        for block in [8, 16, 64] {
            eprintln!("{work}, b = {block}");
            settings.push(measure::setting(work, &changes, block));
        }
    }
    let year = input::year();
    let growth: Vec<_> = [16, 64].into_iter().map(|block| (block, measure::growth(&year, block))).collect();
    let crossings: Vec<_> = [8, 16, 64].into_iter().map(|block| (block, windows::setting(&year, block))).collect();
    let window_growth: Vec<_> = [16, 64].into_iter().map(|block| (block, windows::growth(&year, block))).collect();
    let mut tables = report::tables(&settings, &growth);
    tables += &report::window_tables(&crossings, &window_growth);
    println!("{tables}");
    if let Some(folder) = folder {
        report::put(folder, "measured", &tables);
        let plot = plot::svg(&settings[2], &growth[1].1, &window_growth[1].1);
        std::fs::write(folder.join("benchmarks.svg"), plot).expect("the folder can be written");
    }
}
