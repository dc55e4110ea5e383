//! A plot of panels side by side, both axes logarithmic, in colours that can be read on white and on dark.

use std::fmt::Write;

use crate::measure::time;

pub struct Panel {
    pub title: &'static str,
    pub axis: &'static str,
    pub points: Vec<Point>,
}

/// Two times, in seconds, at a place of the axis.
pub struct Point {
    pub at: f64,
    pub ours: f64,
    pub rust: f64,
}

const OURS: &str = "#2f86d6";
const RUST: &str = "#d9731a";
const GREY: &str = "#808080";

/// The pixels of a panel's plot, and of the room around it.
const PLOT: (f64, f64) = (230.0, 220.0);
const LEFT: f64 = 60.0;
const RIGHT: f64 = 20.0;
const TOP: f64 = 56.0;
const BOTTOM: f64 = 48.0;

/// Where a number stands on an axis, from 0 to 1.
struct Scale {
    low: f64,
    high: f64,
}

impl Scale {
    fn at(&self, number: f64) -> f64 {
        (number / self.low).ln() / (self.high / self.low).ln()
    }

    /// The powers of ten on it.
    fn tens(&self) -> impl Iterator<Item = f64> {
        let (low, high) = (self.low * 0.999, self.high * 1.001);
        (-9..9).map(|power| 10f64.powi(power)).filter(move |ten| (low..=high).contains(ten))
    }
}

pub fn svg(panels: &[Panel]) -> String {
    let (wide, high) = (LEFT + PLOT.0 + RIGHT, TOP + PLOT.1 + BOTTOM);
    let width = wide * panels.len() as f64;
    let mut out = format!(
        "<svg xmlns=\"http://www.w3.org/2000/svg\" viewBox=\"0 0 {width} {high}\" width=\"{width}\" height=\"{high}\" \
         font-family=\"sans-serif\" font-size=\"12\" fill=\"{GREY}\">\n\
         <title>The time of a row call, ours and the Rust's</title>\n"
    );
    legend(&mut out);
    let times = times(panels);
    for (number, panel) in panels.iter().enumerate() {
        line(&mut out, format_args!("<g transform=\"translate({}, {TOP})\">", wide * number as f64 + LEFT));
        draw(&mut out, panel, &times);
        line(&mut out, format_args!("</g>"));
    }
    line(&mut out, format_args!("</svg>"));
    out
}

fn line(out: &mut String, text: std::fmt::Arguments) {
    writeln!(out, "{text}").expect("a string takes all");
}

fn legend(out: &mut String) {
    for (x, name, colour) in [(LEFT, "ours", OURS), (LEFT + 80.0, "Rust", RUST)] {
        line(out, format_args!("<path d=\"M{x} 16h24\" stroke=\"{colour}\" stroke-width=\"2\"/>"));
        line(out, format_args!("<text x=\"{}\" y=\"20\" fill=\"{colour}\">{name}</text>", x + 30.0));
    }
}

/// The powers of ten around all times, the same for every panel.
fn times(panels: &[Panel]) -> Scale {
    let all = || panels.iter().flat_map(|panel| &panel.points).flat_map(|point| [point.ours, point.rust]);
    let (low, high) = (all().fold(f64::MAX, f64::min), all().fold(0.0, f64::max));
    Scale { low: 10f64.powf(low.log10().floor()), high: 10f64.powf(high.log10().ceil()) }
}

fn draw(out: &mut String, panel: &Panel, times: &Scale) {
    let (width, height) = PLOT;
    let places = Scale { low: panel.points[0].at, high: panel.points[panel.points.len() - 1].at };
    line(out, format_args!("<text x=\"{}\" y=\"-12\" text-anchor=\"middle\">{}</text>", width / 2.0, panel.title));
    line(
        out,
        format_args!(
            "<text x=\"{}\" y=\"{}\" text-anchor=\"middle\">{}</text>",
            width / 2.0,
            height + 38.0,
            panel.axis
        ),
    );
    for ten in times.tens() {
        let y = height * (1.0 - times.at(ten));
        line(out, format_args!("<path d=\"M0 {y:.1}h{width}\" stroke=\"{GREY}\" stroke-opacity=\"0.4\"/>"));
        line(out, format_args!("<text x=\"-6\" y=\"{:.1}\" text-anchor=\"end\">{}</text>", y + 4.0, round(ten)));
    }
    for place in labelled(panel) {
        let x = width * places.at(place);
        line(out, format_args!("<path d=\"M{x:.1} {height}v4\" stroke=\"{GREY}\"/>"));
        line(out, format_args!("<text x=\"{x:.1}\" y=\"{}\" text-anchor=\"middle\">{place}</text>", height + 18.0));
    }
    for (colour, side) in [(OURS, (|point| point.ours) as fn(&Point) -> f64), (RUST, |point| point.rust)] {
        let dots =
            panel.points.iter().map(|point| (width * places.at(point.at), height * (1.0 - times.at(side(point)))));
        curve(out, colour, &dots.collect::<Vec<_>>());
    }
}

/// The ends of the axis, and each point between them that is not too near to its neighbours.
fn labelled(panel: &Panel) -> impl Iterator<Item = f64> {
    let every = if panel.points.len() > 8 { 2 } else { 1 };
    panel.points.iter().step_by(every).map(|point| point.at)
}

/// A power of ten, without decimals.
fn round(seconds: f64) -> String {
    time(seconds * 1.000_001).replace(".00", "").replace(".0", "")
}

fn curve(out: &mut String, colour: &str, dots: &[(f64, f64)]) {
    let places: Vec<String> = dots.iter().map(|(x, y)| format!("{x:.1},{y:.1}")).collect();
    line(
        out,
        format_args!(
            "<polyline points=\"{}\" fill=\"none\" stroke=\"{colour}\" stroke-width=\"2\"/>",
            places.join(" ")
        ),
    );
    for (x, y) in dots {
        line(out, format_args!("<circle cx=\"{x:.1}\" cy=\"{y:.1}\" r=\"2.5\" fill=\"{colour}\"/>"));
    }
}
