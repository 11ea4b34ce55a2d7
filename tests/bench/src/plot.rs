// plot.rs: the counts as a picture: bars for the tapes, and lines for how commands grow with the records in the journals.

use crate::limits::Counted;
use crate::report::grouped;
use std::fmt::Write;

const TEXT: &str = "#222";
const GRID: &str = "#ddd";
/// The cards' names and colours, the library's first.
const CARDS: [(&str, &str); 2] = [("library", "#1f5fa8"), ("plain Rust", "#d9822b")];
const WIDTH: f64 = 960.0;
const HEIGHT: f64 = 815.0;

/// A name, and the counts of library and plain card for each size.
pub type Growth = (String, Vec<[f64; 2]>);

/// What a panel shows, by records in the journals.
pub struct Chart<'a> {
    pub title: &'a str,
    pub sizes: &'a [usize],
    pub growths: Vec<Growth>,
}

/// Where the charts stand: their left and top.
const PLACES: [(f64, f64); 3] = [(574.0, 50.0), (90.0, 470.0), (574.0, 470.0)];

/// A chart's area in the picture, and the value at its top.
struct Panel<'a> {
    left: f64,
    top: f64,
    width: f64,
    height: f64,
    sizes: &'a [usize],
    most: f64,
}

pub fn svg(tapes: &[Counted], charts: &[Chart; 3]) -> String {
    let mut out = format!(
        "<svg xmlns=\"http://www.w3.org/2000/svg\" viewBox=\"0 0 {WIDTH} {HEIGHT}\" font-family=\"sans-serif\" \
         font-size=\"12\" fill=\"{TEXT}\">\n<rect width=\"{WIDTH}\" height=\"{HEIGHT}\" fill=\"#fff\"/>\n"
    );
    bars(&mut out, tapes);
    for ((left, top), Chart { title, sizes, growths }) in PLACES.into_iter().zip(charts) {
        let most = growths.iter().flat_map(|(_, counts)| counts.iter().flatten()).copied().fold(1.0, f64::max);
        let most = (most / step_for(most)).ceil() * step_for(most);
        text(&mut out, left - 74.0, top - 26.0, "start", TEXT, title);
        draw(&mut out, &Panel { left, top, width: 280.0, height: 290.0, sizes, most }, growths);
    }
    out + "</svg>\n"
}

fn text(out: &mut String, x: f64, y: f64, anchor: &str, colour: &str, words: &str) {
    let place = format!("x=\"{x:.1}\" y=\"{y:.1}\" text-anchor=\"{anchor}\"");
    writeln!(out, "<text {place} fill=\"{colour}\">{words}</text>").expect("a string");
}

fn bar(out: &mut String, x: f64, y: f64, width: f64, height: f64, colour: &str) {
    let size = format!("width=\"{width:.1}\" height=\"{height:.1}\"");
    writeln!(out, "<rect x=\"{x:.1}\" y=\"{y:.1}\" {size} fill=\"{colour}\"/>").expect("a string");
}

/// Two bars for each tape, and what the colours mean.
fn bars(out: &mut String, tapes: &[Counted]) {
    let (left, top, width) = (140.0, 50.0, 230.0);
    let both = |tape: &Counted| [tape.counts[0], tape.counts[2]];
    let most = tapes.iter().flat_map(both).fold(1.0, f64::max);
    text(out, 16.0, 24.0, "start", TEXT, "Instructions a command, by tape");
    for (i, tape) in tapes.iter().enumerate() {
        let y = top + 50.0 * i as f64;
        text(out, left - 8.0, y + 20.0, "end", TEXT, &tape.name);
        for (k, (value, (_, colour))) in both(tape).into_iter().zip(CARDS).enumerate() {
            let (y, width) = (y + 17.0 * k as f64, value / most * width);
            bar(out, left, y, width, 15.0, colour);
            text(out, left + width + 5.0, y + 12.0, "start", TEXT, &grouped(value));
        }
    }
    for (x, (card, colour)) in [140.0, 230.0].into_iter().zip(CARDS) {
        bar(out, x, 366.0, 14.0, 14.0, colour);
        text(out, x + 20.0, 378.0, "start", TEXT, card);
    }
}

/// A line for each growth and card, with its name at its end, or the card's where there is one growth; names keep their distance.
fn draw(out: &mut String, panel: &Panel, growths: &[Growth]) {
    axes(out, panel);
    let mut ends = Vec::new();
    for (name, counts) in growths {
        for (k, (card, colour)) in CARDS.into_iter().enumerate() {
            let values: Vec<f64> = counts.iter().map(|both| both[k]).collect();
            let name = if growths.len() == 1 { card } else { name };
            ends.push((line(out, panel, &values, colour), name, colour));
        }
    }
    ends.sort_by(|(one, ..), (other, ..)| other.total_cmp(one));
    let mut highest = HEIGHT;
    for (y, name, colour) in ends {
        highest = f64::min(y, highest - 14.0);
        text(out, panel.left + panel.width + 8.0, highest + 4.0, "start", colour, name);
    }
}

/// Where a size and a value stand in a panel.
fn place(panel: &Panel, size: usize, value: f64) -> (f64, f64) {
    let last = panel.sizes.last().copied().unwrap_or(1) as f64;
    (panel.left + size as f64 / last * panel.width, panel.top + panel.height * (1.0 - value / panel.most))
}

/// The distance of the lines behind values up to this: 1, 2 or 5 with zeros behind it, so that there are at most eight.
fn step_for(most: f64) -> f64 {
    let power = 10.0_f64.powf((most / 8.0).log10().floor());
    let steps = [1.0, 2.0, 5.0].into_iter().map(|digit| digit * power);
    steps.filter(|step| most / step <= 8.0).fold(10.0 * power, f64::min)
}

fn axes(out: &mut String, panel: &Panel) {
    let step = step_for(panel.most);
    for i in 0..=(panel.most / step).round() as usize {
        let value = i as f64 * step;
        let (x, y) = place(panel, 0, value);
        bar(out, x, y, panel.width, 1.0, GRID);
        text(out, x - 8.0, y + 4.0, "end", TEXT, &grouped(value));
    }
    for size in panel.sizes {
        let (x, y) = place(panel, *size, 0.0);
        text(out, x, y + 18.0, "middle", TEXT, &size.to_string());
    }
    let middle = panel.left + panel.width / 2.0;
    text(out, middle, panel.top + panel.height + 36.0, "middle", TEXT, "records in the journals");
}

/// Draws a line, and tells how far down it ends.
fn line(out: &mut String, panel: &Panel, values: &[f64], colour: &str) -> f64 {
    let places = panel.sizes.iter().zip(values).map(|(size, value)| place(panel, *size, *value));
    let points: Vec<String> = places.map(|(x, y)| format!("{x:.1},{y:.1}")).collect();
    let style = format!("fill=\"none\" stroke=\"{colour}\" stroke-width=\"2\"");
    writeln!(out, "<polyline points=\"{}\" {style}/>", points.join(" ")).expect("a string");
    place(panel, 0, values.last().copied().unwrap_or(0.0)).1
}
