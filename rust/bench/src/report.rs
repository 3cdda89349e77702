//! The measured tables as Markdown, and their place in the page BENCHMARKS.md.
use crate::measure::{AGES, Figures, Growth, Setting};
use crate::windows::Crossing;
use std::fmt::Write;
use std::path::Path;

/// The text of FOLDER/BENCHMARKS.md.
pub fn page(folder: &Path) -> String {
    let path = folder.join("BENCHMARKS.md");
    std::fs::read_to_string(&path).unwrap_or_else(|error| panic!("{}: {error}", path.display()))
}

/// Puts text between `<!-- NAME: begin -->` and `<!-- NAME: end -->` of FOLDER/BENCHMARKS.md.
pub fn put(folder: &Path, name: &str, text: &str) {
    let page = page(folder);
    let (begin, end) = (format!("<!-- {name}: begin -->\n"), format!("<!-- {name}: end -->"));
    let from = page.find(&begin).expect("the page has the place") + begin.len();
    let to = page.find(&end).expect("the place has an end");
    let page = format!("{}\n{}\n{}", &page[..from], text.trim(), &page[to..]);
    std::fs::write(folder.join("BENCHMARKS.md"), page).expect("the page can be written");
}

/// The machine and the day.
pub fn machine() -> String {
    let info = std::fs::read_to_string("/proc/cpuinfo").unwrap_or_default();
    let model = info.lines().find(|line| line.starts_with("model name")).and_then(|line| line.split(": ").nth(1));
    let cores = std::thread::available_parallelism().map_or(0, |n| n.get());
    let load = std::fs::read_to_string("/proc/loadavg").unwrap_or_default();
    let load = load.split(' ').next().unwrap_or("?").to_string();
    let model = model.unwrap_or("unknown");
    let (day, commit, kit) = (today(), commit(), kit());
    format!(
        "Machine: {model}, {cores} cores, load average {load} when the run ended.\n\
         Date: {day}. Commit: {commit}. Toolchain: {kit}."
    )
}

/// The commit that was measured, if git knows it.
fn commit() -> String {
    let said = std::process::Command::new("git").args(["rev-parse", "--short", "HEAD"]).output();
    let text = said.map(|out| String::from_utf8_lossy(&out.stdout).trim().to_string()).unwrap_or_default();
    if text.is_empty() { "unknown".into() } else { text }
}

/// The name of the Rattle toolchain that is on the path, which made the archive.
fn kit() -> String {
    let said = std::process::Command::new("rt").arg("version").output();
    let text = said.map(|out| String::from_utf8_lossy(&out.stdout).to_string()).unwrap_or_default();
    text.split(' ').next().filter(|name| !name.is_empty()).unwrap_or("unknown").to_string()
}

/// The date, from the seconds since 1970.
fn today() -> String {
    let seconds = std::time::SystemTime::now().duration_since(std::time::UNIX_EPOCH).map_or(0, |d| d.as_secs());
    let mut day = seconds / 86_400;
    let mut year = 1970;
    let leap = |y: u64| y.is_multiple_of(4) && (!y.is_multiple_of(100) || y.is_multiple_of(400));
    while day >= 365 + u64::from(leap(year)) {
        day -= 365 + u64::from(leap(year));
        year += 1;
    }
    let mut month = 1;
    for days in [31, 28 + u64::from(leap(year)), 31, 30, 31, 30, 31, 31, 30, 31, 30] {
        if day < days {
            break;
        }
        day -= days;
        month += 1;
    }
    format!("{year}-{month:02}-{:02}", day + 1)
}

pub fn tables(settings: &[Setting], growth: &[(u32, Vec<Growth>)]) -> String {
    let mut text = machine();
    text.push_str("\n\n### Ratios: how many times as fast the proved register is\n\n");
    ratios(settings, &mut text);
    text.push_str("\n### Absolute numbers\n\n");
    absolute(settings, &mut text);
    text.push_str("\n### What a look-back reads\n\n");
    reads(settings, &mut text);
    text.push_str("\n### Growth with history length, look-backs at recent seconds\n\n");
    growths(growth, &mut text);
    text
}

/// Proved over each rival; a figure above 1 is in favour of the proved register.
fn ratios(settings: &[Setting], text: &mut String) {
    text.push_str(
        "| Work | b | Against | changes | look-back recent | middle | old | bytes per change, rival / proved |\n",
    );
    text.push_str("|---|---|---|---|---|---|---|---|\n");
    for setting in settings {
        let proved = &setting.figures[0];
        for rival in &setting.figures[1..] {
            let _ = write!(
                text,
                "| {} | {} | {} | {}",
                setting.work,
                setting.block,
                named(setting, rival),
                ratio(proved.changes_per_s / rival.changes_per_s)
            );
            for age in 0..AGES.len() {
                let _ = write!(text, " | {}", ratio(proved.looks[age].per_s / rival.looks[age].per_s));
            }
            let _ = writeln!(text, " | {} |", ratio(rival.bytes_per_change / proved.bytes_per_change));
        }
    }
}

fn absolute(settings: &[Setting], text: &mut String) {
    text.push_str(
        "| Work | b | Contender | changes per s | look-backs per s: recent | middle | old | bytes per change |\n",
    );
    text.push_str("|---|---|---|---|---|---|---|---|\n");
    for setting in settings {
        for figures in &setting.figures {
            let looks: Vec<String> = figures.looks.iter().map(|look| number(look.per_s)).collect();
            let _ = writeln!(
                text,
                "| {} | {} | {} | {} | {} | {:.0} |",
                setting.work,
                setting.block,
                named(setting, figures),
                number(figures.changes_per_s),
                looks.join(" | "),
                figures.bytes_per_change
            );
        }
    }
}

/// Words and blocks; proved and independent are alike here to the last word, so they share a row.
fn reads(settings: &[Setting], text: &mut String) {
    text.push_str("| Work | b | changes taken | age | rows | words read: register | log | copy | blocks listed | blocks open | listed / open |\n");
    text.push_str("|---|---|---|---|---|---|---|---|---|---|---|\n");
    for setting in settings {
        for (age, (name, _)) in AGES.iter().enumerate() {
            let look = setting.figures[0].looks[age];
            let words = |i: usize| setting.figures[i].looks[age].words.map_or("-".into(), number);
            let (listed, open) = look.blocks.unwrap_or((0.0, 0.0));
            let _ = writeln!(
                text,
                "| {} | {} | {} of {} | {name} | {:.0} | {} | {} | {} | {listed:.1} | {open:.1} | {:.2} |",
                setting.work,
                setting.block,
                setting.changes,
                setting.all,
                look.rows,
                words(0),
                words(2),
                words(3),
                listed / open
            );
        }
    }
}

fn growths(growth: &[(u32, Vec<Growth>)], text: &mut String) {
    text.push_str("| b | changes so far | ns per change: proved | independent | log | µs per look-back: proved | independent | log | rows | blocks listed |\n");
    text.push_str("|---|---|---|---|---|---|---|---|---|---|\n");
    for (block, lengths) in growth {
        for at in lengths {
            let [a, b, c] = at.change_ns;
            let [d, e, f] = at.look_us;
            let _ = writeln!(
                text,
                "| {block} | {} | {a:.0} | {b:.0} | {c:.0} | {d:.1} | {e:.1} | {f:.0} | {:.0} | {:.0} |",
                at.changes, at.rows, at.listed
            );
        }
    }
}

pub fn window_tables(crossings: &[(u32, Vec<Crossing>)], growth: &[(u32, Vec<Crossing>)]) -> String {
    let mut text = String::from("\n### Windows, year: how many times as fast the proved register is\n\n");
    text.push_str("| b | changes | window | rows | blocks read | of | independent | log | SQLite |\n");
    text.push_str("|---|---|---|---|---|---|---|---|---|\n");
    window_rows(crossings, &mut text, |at, rival| ratio(at.us[rival] / at.us[0]), 1);
    text.push_str("\n### Windows, year: microseconds each\n\n");
    text.push_str("| b | changes | window | rows | blocks read | of | proved | independent | log | SQLite |\n");
    text.push_str("|---|---|---|---|---|---|---|---|---|---|\n");
    window_rows(crossings, &mut text, |at, who| micros(at.us[who]), 0);
    text.push_str("\n### Growth with history length, windows of a day at recent seconds, microseconds each\n\n");
    text.push_str("| b | changes so far | window | rows | blocks read | of | proved | independent | log | SQLite |\n");
    text.push_str("|---|---|---|---|---|---|---|---|---|---|\n");
    window_rows(growth, &mut text, |at, who| micros(at.us[who]), 0);
    text
}

/// A row for each length of window, with a figure for each contender from the given one on.
fn window_rows(
    crossings: &[(u32, Vec<Crossing>)],
    text: &mut String,
    figure: impl Fn(&Crossing, usize) -> String,
    from: usize,
) {
    for (block, lengths) in crossings {
        for at in lengths {
            let all = (from..4).map(|who| if who < at.us.len() { figure(at, who) } else { "-".into() });
            let _ = writeln!(
                text,
                "| {block} | {} | {} | {:.0} | {:.0} | {} | {} |",
                at.changes,
                at.name,
                at.rows,
                at.read,
                at.opened,
                all.collect::<Vec<_>>().join(" | ")
            );
        }
    }
}

/// Microseconds, to three places.
fn micros(us: f64) -> String {
    if us < 10.0 { format!("{us:.1}") } else { number(us) }
}

/// A contender's name, with how much it was given if that is less than all.
fn named(setting: &Setting, figures: &Figures) -> String {
    if figures.given < setting.changes {
        format!("{} (first {} changes)", figures.name, figures.given)
    } else {
        figures.name.to_string()
    }
}

fn ratio(r: f64) -> String {
    if r >= 10.0 { format!("{r:.0}") } else { format!("{r:.2}") }
}

/// A number with commas, to three places.
pub fn number(x: f64) -> String {
    let digits = (x.max(1.0).log10() as i32 - 2).max(0);
    let unit = 10f64.powi(digits);
    let plain = format!("{:.0}", (x / unit).round() * unit);
    let mut text = String::new();
    for (i, digit) in plain.chars().enumerate() {
        if i > 0 && (plain.len() - i).is_multiple_of(3) {
            text.push(',');
        }
        text.push(digit);
    }
    text
}
