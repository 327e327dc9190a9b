//! The product's time as a multiple of the independent implementation's, as SVG: for each family of comparisons over its size, and below
//! as a bar for each worst case. All scales are logarithmic, with a line at 1.

use crate::{milliseconds, Point};
use std::fmt::Write;

const WIDTH: f64 = 900.0;
const INK: &str = "#222222";
const PALE: &str = "#dddddd";
const FASTER: &str = "#1b6ca8";
const SLOWER: &str = "#c0392b";

/// The cells of the families: how many in a row, where the first one is, how large they are, and from one to the next.
const COLUMNS: usize = 4;
const CELL: (f64, f64) = (46.0, 96.0);
const CELL_SIZE: (f64, f64) = (150.0, 100.0);
const CELL_STEP: (f64, f64) = (216.0, 154.0);

/// The bars: where the scale begins and ends, and from one to the next.
const BARS: (f64, f64) = (380.0, 780.0);
const BAR_STEP: f64 = 21.0;

/// Ratios from a power of the base below 1 to one above it, at places from one to another.
struct Scale {
    base: f64,
    powers: (i32, i32),
    places: (f64, f64),
}

impl Scale {
    /// So that all ratios have room.
    fn new(base: f64, ratios: impl Iterator<Item = f64>, places: (f64, f64)) -> Scale {
        let reach =
            |(low, high): (i32, i32), power: f64| (low.min(power.floor() as i32), high.max(power.ceil() as i32));
        Scale { base, powers: ratios.map(|ratio| ratio.log(base)).fold((-1, 1), reach), places }
    }

    fn at(&self, ratio: f64) -> f64 {
        let (low, high) = (f64::from(self.powers.0), f64::from(self.powers.1));
        self.places.0 + (ratio.log(self.base) - low) / (high - low) * (self.places.1 - self.places.0)
    }

    fn marks(&self) -> impl Iterator<Item = f64> + '_ {
        (self.powers.0..=self.powers.1).map(|power| self.base.powi(power))
    }
}

struct Picture {
    text: String,
}

impl Picture {
    fn put(&mut self, element: std::fmt::Arguments) {
        writeln!(self.text, "{element}").expect("a string takes it");
    }

    fn line(&mut self, places: &[(f64, f64)], colour: &str, width: f64) {
        let places: Vec<String> = places.iter().map(|(x, y)| format!("{x:.1},{y:.1}")).collect();
        let places = places.join(" ");
        self.put(format_args!(
            "<polyline points=\"{places}\" fill=\"none\" stroke=\"{colour}\" stroke-width=\"{width}\"/>"
        ));
    }

    /// A line of a scale: the one at 1 is dark.
    fn mark(&mut self, mark: f64, from: (f64, f64), to: (f64, f64)) {
        self.line(&[from, to], if mark == 1.0 { INK } else { PALE }, 1.0);
    }

    fn label(&mut self, x: f64, y: f64, anchor: &str, words: &str) {
        self.put(format_args!(
            "<text x=\"{x:.1}\" y=\"{y:.1}\" text-anchor=\"{anchor}\" fill=\"{INK}\">{words}</text>"
        ));
    }

    fn heading(&mut self, y: f64, words: &str) {
        self.put(format_args!("<text x=\"16\" y=\"{y:.1}\" font-weight=\"bold\" fill=\"{INK}\">{words}</text>"));
    }
}

pub fn svg(points: &[Point]) -> String {
    let comparisons: Vec<&Point> = points.iter().filter(|point| point.entry.part > 0).collect();
    let mut worst: Vec<&Point> = points.iter().filter(|point| point.entry.family.is_empty()).collect();
    worst.sort_by(|a, b| b.ratio.total_cmp(&a.ratio));
    let mut picture = Picture { text: String::new() };
    picture
        .heading(28.0, "The product's time divided by the independent implementation's: below 1 the product is faster");
    picture.heading(62.0, "Comparisons, over the part of the limits that they fill");
    let below = cells(&mut picture, &comparisons);
    picture.heading(below, "Worst cases, with the product's time");
    let height = bars(&mut picture, &worst, below + 14.0) + 16.0;
    format!(
        "<svg xmlns=\"http://www.w3.org/2000/svg\" viewBox=\"0 0 {WIDTH} {height}\" font-family=\"sans-serif\" font-size=\"12\">\n\
         <rect width=\"{WIDTH}\" height=\"{height}\" fill=\"white\"/>\n{}</svg>\n",
        picture.text
    )
}

fn colour(ratio: f64) -> &'static str {
    if ratio > 1.0 {
        SLOWER
    } else {
        FASTER
    }
}

/// Two digits that count.
fn number(ratio: f64) -> String {
    let digits = (1.0 - ratio.log10().floor()).max(0.0) as usize;
    format!("{ratio:.digits$}")
}

/// A cell for each family; answers where they end.
fn cells(picture: &mut Picture, comparisons: &[&Point]) -> f64 {
    let mut families: Vec<&str> = comparisons.iter().map(|point| point.entry.family.as_str()).collect();
    families.dedup();
    for (i, family) in families.iter().enumerate() {
        let (column, row) = ((i % COLUMNS) as f64, (i / COLUMNS) as f64);
        let (left, top) = (CELL.0 + column * CELL_STEP.0, CELL.1 + row * CELL_STEP.1);
        let (right, bottom) = (left + CELL_SIZE.0, top + CELL_SIZE.1);
        let scale = Scale::new(2.0, comparisons.iter().map(|point| point.ratio), (bottom, top));
        let x = |part: usize| right - (part as f64).log2() / 3.0 * CELL_SIZE.0;
        picture.label(left - 30.0, top - 10.0, "start", family);
        for mark in scale.marks() {
            picture.mark(mark, (left, scale.at(mark)), (right, scale.at(mark)));
            picture.label(left - 8.0, scale.at(mark) + 4.0, "end", &mark.to_string());
        }
        for (part, words) in [(8, "1/8"), (4, "1/4"), (2, "1/2"), (1, "full")] {
            picture.label(x(part), bottom + 18.0, "middle", words);
        }
        let of_family = comparisons.iter().filter(|point| point.entry.family == *family);
        let places: Vec<_> = of_family.clone().map(|point| (x(point.entry.part), scale.at(point.ratio))).collect();
        picture.line(&places, INK, 1.5);
        for (point, (x, y)) in of_family.zip(places) {
            picture.put(format_args!("<circle cx=\"{x:.1}\" cy=\"{y:.1}\" r=\"4\" fill=\"{}\"/>", colour(point.ratio)));
            if point.entry.part == 1 {
                picture.label(x + 8.0, y + 4.0, "start", &number(point.ratio));
            }
        }
    }
    CELL.1 + families.len().div_ceil(COLUMNS) as f64 * CELL_STEP.1
}

/// A bar for each list, beginning at 1; answers where they end.
fn bars(picture: &mut Picture, worst: &[&Point], top: f64) -> f64 {
    let scale = Scale::new(10.0, worst.iter().map(|point| point.ratio), BARS);
    let bottom = top + worst.len() as f64 * BAR_STEP;
    for mark in scale.marks() {
        picture.mark(mark, (scale.at(mark), top), (scale.at(mark), bottom));
        picture.label(scale.at(mark), bottom + 18.0, "middle", &mark.to_string());
    }
    for (i, point) in worst.iter().enumerate() {
        let y = top + i as f64 * BAR_STEP;
        let (from, to) = (scale.at(point.ratio.min(1.0)), scale.at(point.ratio.max(1.0)));
        let (width, height, colour) = (to - from, BAR_STEP - 7.0, colour(point.ratio));
        picture.put(format_args!(
            "<rect x=\"{from:.1}\" y=\"{:.1}\" width=\"{width:.1}\" height=\"{height}\" fill=\"{colour}\"/>",
            y + 3.5
        ));
        picture.label(BARS.0 - 10.0, y + 15.0, "end", &point.entry.title);
        let words = format!("{} ({} ms)", number(point.ratio), milliseconds(point.work));
        picture.label(to + 6.0, y + 15.0, "start", &words);
    }
    bottom + 18.0
}
