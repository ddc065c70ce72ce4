//! Plots of cost, as SVG.

use crate::growth::Growth;
use std::fmt::Write;

const WIDTH: f64 = 760.0;
const HEIGHT: f64 = 440.0;
/// Where the axes cross, and where they end.
const LEFT: f64 = 80.0;
const BOTTOM: f64 = 380.0;
const RIGHT: f64 = 730.0;
const TOP: f64 = 50.0;

pub struct Plot<'a> {
    pub title: &'a str,
    pub across: &'a str,
    pub growth: &'a Growth,
}

/// One axis: what it ends with and the distance of its numbers.
struct Axis {
    end: f64,
    tick: f64,
}

impl Axis {
    /// Some five to ten numbers of 1, 2 or 5 and zeros.
    fn to(greatest: f64) -> Axis {
        let power = 10f64.powf((greatest / 5.0).log10().floor());
        let ticks = [power, 2.0 * power, 5.0 * power, 10.0 * power];
        let tick = ticks.into_iter().find(|tick| greatest / tick <= 8.0);
        let tick = tick.unwrap_or(power);
        Axis {
            end: (greatest / tick).ceil() * tick,
            tick,
        }
    }

    fn ticks(&self) -> impl Iterator<Item = f64> + '_ {
        let count = (self.end / self.tick).round() as u32;
        (0..=count).map(|place| f64::from(place) * self.tick)
    }

    fn share(&self, value: f64) -> f64 {
        value / self.end
    }
}

impl Plot<'_> {
    pub fn svg(&self) -> String {
        let names: Vec<&str> = self.growth.points[0]
            .1
            .iter()
            .map(|times| times.name)
            .collect();
        let lines: Vec<Vec<(f64, f64)>> = (0..names.len())
            .map(|runner| in_microseconds(self.growth.line(runner)))
            .collect();
        let all = || lines.iter().flatten();
        let x = Axis::to(all().map(|(x, _)| *x).fold(0.0, f64::max));
        let y = Axis::to(all().map(|(_, y)| *y).fold(0.0, f64::max));
        let mut svg = self.frame();
        svg += &numbers(&x, &y);
        for (name, line) in names.iter().zip(&lines) {
            let points = line.iter().map(|point| position(&x, &y, *point));
            svg += &drawn(name, &points.collect::<Vec<_>>());
        }
        svg + &legend(&names) + "</svg>\n"
    }

    /// The white ground, the title, the names of the axes and the axes.
    fn frame(&self) -> String {
        let (title, across) = (self.title, self.across);
        let (middle, low) = ((LEFT + RIGHT) / 2.0, BOTTOM + 45.0);
        let centre = (TOP + BOTTOM) / 2.0;
        format!(
            r##"<svg xmlns="http://www.w3.org/2000/svg" viewBox="0 0 {WIDTH} {HEIGHT}" width="{WIDTH}" height="{HEIGHT}" font-family="sans-serif" font-size="13" fill="#222222">
<rect width="{WIDTH}" height="{HEIGHT}" fill="#ffffff"/>
<text x="{middle}" y="26" text-anchor="middle" font-size="15">{title}</text>
<text x="{middle}" y="{low}" text-anchor="middle">{across}</text>
<text x="24" y="{centre}" text-anchor="middle" transform="rotate(-90 24 {centre})">microseconds a call</text>
<path d="M{LEFT} {TOP}V{BOTTOM}H{RIGHT}" fill="none" stroke="#222222"/>
"##
        )
    }
}

fn in_microseconds(line: Vec<(f64, f64)>) -> Vec<(f64, f64)> {
    line.into_iter().map(|(x, y)| (x, y / 1000.0)).collect()
}

fn position(x: &Axis, y: &Axis, point: (f64, f64)) -> (f64, f64) {
    let across = LEFT + x.share(point.0) * (RIGHT - LEFT);
    let up = BOTTOM - y.share(point.1) * (BOTTOM - TOP);
    (across, up)
}

/// The numbers of both axes, with a thin line for each of the second.
fn numbers(x: &Axis, y: &Axis) -> String {
    let mut text = String::new();
    for number in x.ticks() {
        let (across, _) = position(x, y, (number, 0.0));
        let low = BOTTOM + 20.0;
        let _ = writeln!(
            text,
            r#"<text x="{across:.1}" y="{low}" text-anchor="middle">{number:.0}</text>"#
        );
    }
    let digits = if y.tick < 1.0 { 1 } else { 0 };
    for number in y.ticks() {
        let (_, up) = position(x, y, (0.0, number));
        let (beside, middle) = (LEFT - 8.0, up + 4.5);
        let _ = writeln!(
            text,
            r#"<text x="{beside}" y="{middle:.1}" text-anchor="end">{number:.digits$}</text>"#
        );
        let _ = writeln!(
            text,
            r##"<path d="M{LEFT} {up:.1}H{RIGHT}" stroke="#dddddd"/>"##
        );
    }
    text
}

/// How a runner's line is drawn; C's, which lies on the library's, has gaps.
fn stroke(name: &str) -> (&'static str, &'static str) {
    match name {
        "library" => ("#0b6e4f", "none"),
        "library from C" => ("#e08e00", "6 6"),
        "second" => ("#b3322b", "none"),
        _ => ("#2b5fa8", "none"),
    }
}

/// A line with its points.
fn drawn(name: &str, points: &[(f64, f64)]) -> String {
    let (colour, dashes) = stroke(name);
    let corners = points.iter().map(|(x, y)| format!("{x:.1},{y:.1}"));
    let corners = corners.collect::<Vec<_>>().join(" ");
    let mut text = format!(
        r#"<polyline points="{corners}" fill="none" stroke="{colour}" stroke-width="2" stroke-dasharray="{dashes}"/>"#
    );
    text.push('\n');
    for (x, y) in points {
        let _ = writeln!(
            text,
            r#"<circle cx="{x:.1}" cy="{y:.1}" r="3" fill="{colour}"/>"#
        );
    }
    text
}

/// The names of the lines, on a white ground at the top.
fn legend(names: &[&str]) -> String {
    let (left, height) = (LEFT + 12.0, 10.0 + 20.0 * names.len() as f64);
    let mut text =
        format!(r##"<rect x="{left}" y="{TOP}" width="190" height="{height}" fill="#ffffff"/>"##);
    text.push('\n');
    for (place, name) in names.iter().enumerate() {
        let (colour, dashes) = stroke(name);
        let up = TOP + 14.0 + 20.0 * place as f64;
        let (from, to, beside, low) = (left + 8.0, left + 38.0, left + 46.0, up + 4.5);
        let _ = writeln!(
            text,
            r#"<path d="M{from} {up}H{to}" stroke="{colour}" stroke-width="2" stroke-dasharray="{dashes}"/>"#
        );
        let _ = writeln!(text, r#"<text x="{beside}" y="{low}">{name}</text>"#);
    }
    text
}
