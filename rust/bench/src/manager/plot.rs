//! The growth panels as one SVG image, both axes logarithmic, on white so that it reads in light and dark viewers.

use super::growth::{Curves, Panel, PANELS};
use std::fmt::Write;

const WIDTH: f64 = 460.0;
const HEIGHT: f64 = 380.0;
const LEFT: f64 = 70.0;
const RIGHT: f64 = 15.0;
const TOP: f64 = 40.0;
const BOTTOM: f64 = 55.0;

/// The air between the outermost values and the frame.
const AIR: f64 = 1.15;

/// Each side's name, colour and dashes, in the order of the curves.
const LINES: [(&str, &str, &str); 3] =
    [("port", "#1f5fbf", "none"), ("original", "#c4511a", "7 3"), ("simple", "#2b7a3d", "2 3")];

/// Values between two ends, drawn between two places.
struct Axis {
    least: f64,
    most: f64,
    from: f64,
    to: f64,
}

impl Axis {
    fn over(values: impl Iterator<Item = f64> + Clone, from: f64, to: f64) -> Axis {
        let least = values.clone().fold(f64::INFINITY, f64::min) / AIR;
        let most = values.fold(0.0, f64::max) * AIR;
        Axis { least, most, from, to }
    }

    fn place(&self, value: f64) -> f64 {
        let share = (value / self.least).ln() / (self.most / self.least).ln();
        self.from + share * (self.to - self.from)
    }

    /// 1, 2 and 5 times each power of ten that stand between the ends.
    fn ticks(&self) -> impl Iterator<Item = f64> + '_ {
        let tens = self.least.log10().floor() as i32..=self.most.log10().ceil() as i32;
        let near = tens.flat_map(|ten| [1.0, 2.0, 5.0].map(|digit| digit * 10f64.powi(ten)));
        near.filter(move |&tick| self.least <= tick && tick <= self.most)
    }
}

pub fn svg(curves: &[Curves; 2]) -> String {
    let width = WIDTH * PANELS.len() as f64;
    let mut image = format!(
        "<svg xmlns=\"http://www.w3.org/2000/svg\" viewBox=\"0 0 {0} {1}\" width=\"{0}\" height=\"{1}\" \
         font-family=\"sans-serif\" font-size=\"12\" fill=\"#222\">\n\
         <rect width=\"{0}\" height=\"{1}\" fill=\"#fff\"/>\n",
        width, HEIGHT
    );
    for (at, (panel, curves)) in PANELS.iter().zip(curves).enumerate() {
        let _ = writeln!(image, "<g transform=\"translate({},0)\">", at as f64 * WIDTH);
        image += &drawn(panel, curves);
        image += "</g>\n";
    }
    image + "</svg>\n"
}

fn drawn(panel: &Panel, curves: &Curves) -> String {
    let along = Axis::over(panel.points.iter().map(|&n| n as f64), LEFT, WIDTH - RIGHT);
    let up = Axis::over(curves.iter().flatten().copied(), HEIGHT - BOTTOM, TOP);
    let mut image = frame(panel, &along, &up);
    for (at, (line, curve)) in LINES.iter().zip(curves).enumerate() {
        let places = panel.points.iter().zip(curve);
        let places = places.map(|(&x, &y)| (along.place(x as f64), up.place(y))).collect();
        image += &curve_of(line, places);
        image += &legend(line, TOP + 18.0 + 18.0 * at as f64);
    }
    image
}

fn frame(panel: &Panel, along: &Axis, up: &Axis) -> String {
    let (right, bottom) = (WIDTH - RIGHT, HEIGHT - BOTTOM);
    let middle = (LEFT + right) / 2.0;
    let mut image = text(middle, TOP - 16.0, "middle", panel.title);
    for tick in up.ticks() {
        image += &grid(LEFT, up.place(tick), right, up.place(tick));
        image += &text(LEFT - 6.0, up.place(tick) + 4.0, "end", &tick.to_string());
    }
    for &point in panel.points {
        let x = along.place(point as f64);
        image += &grid(x, TOP, x, bottom);
        image += &text(x, bottom + 17.0, "middle", &point.to_string());
    }
    let _ = writeln!(
        image,
        "<path d=\"M{0} {1}V{2}H{3}\" stroke=\"#555\" fill=\"none\"/>",
        LEFT, TOP, bottom, right
    );
    image += &text(middle, HEIGHT - 14.0, "middle", panel.along);
    let turned = text(0.0, 0.0, "middle", "time over the port's at the first point");
    let (x, y) = (18.0, (TOP + bottom) / 2.0);
    let _ =
        writeln!(image, "<g transform=\"translate({},{:.1}) rotate(-90)\">{}</g>", x, y, turned);
    image
}

fn curve_of((_, colour, dashes): &(&str, &str, &str), places: Vec<(f64, f64)>) -> String {
    let points: Vec<String> = places.iter().map(|(x, y)| format!("{:.1},{:.1}", x, y)).collect();
    let mut image = format!(
        "<polyline points=\"{}\" fill=\"none\" stroke=\"{}\" stroke-width=\"2\" stroke-dasharray=\"{}\"/>\n",
        points.join(" "),
        colour,
        dashes
    );
    for (x, y) in places {
        let _ = writeln!(
            image,
            "<circle cx=\"{:.1}\" cy=\"{:.1}\" r=\"3\" fill=\"{}\"/>",
            x, y, colour
        );
    }
    image
}

fn legend(line: &(&str, &str, &str), y: f64) -> String {
    let ends = vec![(LEFT + 12.0, y), (LEFT + 48.0, y)];
    curve_of(line, ends) + &text(LEFT + 56.0, y + 4.0, "start", line.0)
}

fn grid(x: f64, y: f64, to_x: f64, to_y: f64) -> String {
    format!(
        "<path d=\"M{:.1} {:.1}L{:.1} {:.1}\" stroke=\"#ddd\" fill=\"none\"/>\n",
        x, y, to_x, to_y
    )
}

fn text(x: f64, y: f64, anchor: &str, words: &str) -> String {
    format!("<text x=\"{:.1}\" y=\"{:.1}\" text-anchor=\"{}\">{}</text>\n", x, y, anchor, words)
}
