//! The plot: bars of look-backs per second, and lines of cost over history length, as plain SVG.
use crate::measure::{AGES, Growth, Setting};
use crate::report::number;
use crate::windows::Crossing;
use std::fmt::Write;

const COLOURS: [&str; 5] = ["#1b6ca8", "#7fb7de", "#c27c0e", "#7a8b2f", "#8c4a6d"];

/// A picture of the year with this b: bars on the left, growth on the right.
pub fn svg(setting: &Setting, growth: &[Growth], windows: &[Crossing]) -> String {
    let mut text = String::from(
        "<svg xmlns='http://www.w3.org/2000/svg' width='1000' height='400' font-family='sans-serif' font-size='12'>\n",
    );
    text.push_str("<rect width='1000' height='400' fill='white'/>\n");
    bars(setting, &mut text);
    lines(setting.block, growth, windows, &mut text);
    text.push_str("</svg>\n");
    text
}

/// A frame with a logarithmic scale from 10^low to 10^high.
struct Frame {
    left: f64,
    width: f64,
    low: f64,
    high: f64,
}

const TOP: f64 = 50.0;
const BOTTOM: f64 = 320.0;

impl Frame {
    fn y(&self, value: f64) -> f64 {
        let part = (value.max(1e-9).log10() - self.low) / (self.high - self.low);
        BOTTOM - part.clamp(0.0, 1.0) * (BOTTOM - TOP)
    }

    fn draw(&self, title: &str, text: &mut String) {
        label(self.left, 24.0, "start", title, text);
        for power in self.low as i32..=self.high as i32 {
            let y = self.y(10f64.powi(power));
            let _ = writeln!(
                text,
                "<line x1='{0}' x2='{1}' y1='{y}' y2='{y}' stroke='#ddd'/>",
                self.left,
                self.left + self.width
            );
            label(self.left - 6.0, y + 4.0, "end", &number(10f64.powi(power)), text);
        }
    }
}

fn label(x: f64, y: f64, anchor: &str, words: &str, text: &mut String) {
    let _ = writeln!(text, "<text x='{x:.1}' y='{y:.1}' text-anchor='{anchor}'>{words}</text>");
}

fn bars(setting: &Setting, text: &mut String) {
    let fastest = setting.figures.iter().flat_map(|f| f.looks.iter().map(|look| look.per_s)).fold(1.0, f64::max);
    let frame = Frame { left: 100.0, width: 380.0, low: 1.0, high: fastest.log10().ceil() };
    frame.draw(&format!("Look-backs per second, {}, b = {}", setting.work, setting.block), text);
    let group = frame.width / AGES.len() as f64;
    let bar = group * 0.8 / setting.figures.len() as f64;
    for (age, (name, _)) in AGES.iter().enumerate() {
        let left = frame.left + group * age as f64 + group * 0.1;
        label(left + group * 0.4, BOTTOM + 18.0, "middle", name, text);
        for (i, figures) in setting.figures.iter().enumerate() {
            let y = frame.y(figures.looks[age].per_s);
            let (x, height) = (left + bar * i as f64, BOTTOM - y);
            let _ = writeln!(
                text,
                "<rect x='{x:.1}' y='{y:.1}' width='{:.1}' height='{height:.1}' fill='{}'/>",
                bar - 1.0,
                COLOURS[i]
            );
        }
    }
    let mut x = frame.left;
    for (i, figures) in setting.figures.iter().enumerate() {
        let _ = writeln!(text, "<rect x='{x:.0}' y='352' width='10' height='10' fill='{}'/>", COLOURS[i]);
        label(x + 14.0, 362.0, "start", figures.name, text);
        x += 30.0 + 7.0 * figures.name.len() as f64;
    }
}

fn lines(block: u32, growth: &[Growth], windows: &[Crossing], text: &mut String) {
    let frame = Frame { left: 610.0, width: 340.0, low: 1.0, high: 7.0 };
    frame.draw(&format!("Nanoseconds by history length, year, b = {block}"), text);
    let x = |i: usize| frame.left + frame.width * (i as f64 + 0.5) / growth.len() as f64;
    for (i, at) in growth.iter().enumerate() {
        label(x(i), BOTTOM + 18.0, "middle", &number(at.changes as f64), text);
    }
    label(frame.left + frame.width / 2.0, BOTTOM + 36.0, "middle", "changes so far (doubling)", text);
    let series = [
        ("log: look-back", COLOURS[2], growth.iter().map(|at| at.look_us[2] * 1e3).collect::<Vec<_>>()),
        ("proved: window of a day", COLOURS[0], windows.iter().map(|at| at.us[0] * 1e3).collect()),
        ("proved: look-back", COLOURS[0], growth.iter().map(|at| at.look_us[0] * 1e3).collect()),
        ("proved: change", COLOURS[0], growth.iter().map(|at| at.change_ns[0]).collect()),
    ];
    for (name, colour, values) in series {
        let points: Vec<String> =
            values.iter().enumerate().map(|(i, &v)| format!("{:.1},{:.1}", x(i), frame.y(v))).collect();
        let _ =
            writeln!(text, "<polyline points='{}' fill='none' stroke='{colour}' stroke-width='2'/>", points.join(" "));
        let last = values.len() - 1;
        label(x(last), frame.y(values[last]) - 10.0, "end", name, text);
    }
}
