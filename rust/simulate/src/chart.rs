//! A drawing of lines, on panels one below the other.
//!
//! The drawing brings its own paper, so it reads on light and dark backgrounds
//! alike, and lines differ in marks, not in colour alone.

use std::fmt::Write;

const WIDTH: f64 = 860.0;
const LEFT: f64 = 96.0;
const RIGHT: f64 = 24.0;
const PANEL: f64 = 210.0;
const ABOVE: f64 = 40.0;
const BELOW: f64 = 34.0;
const LEGEND_ROW: f64 = 20.0;
const COLOURS: [&str; 11] = [
    "#0f5a9e", "#a8480c", "#2a7a3b", "#7a3b8f", "#8a6d00", "#a3234b", "#1f7f86", "#4a4a46",
    "#5b6fd6", "#b02a9a", "#5d4037",
];

const STYLE: &str = "\
.paper{fill:#fcfcf9;stroke:#8a8a84}
text{font:13px sans-serif;fill:#1c1c1a}
.scale{font-size:11px;fill:#4a4a46}
.grid{stroke:#d9d9d2}
.line{fill:none;stroke-width:2}
";

/// A line: its name and its points, each with its place, 0 leftmost and 1
/// rightmost, and its value.
#[derive(Clone, Debug)]
pub struct Line {
    /// Its name.
    pub name: String,
    /// Its points, from the left.
    pub points: Vec<(f64, f64)>,
}

/// A panel.
#[derive(Clone, Debug)]
pub struct Panel {
    /// What its values say.
    pub meaning: String,
    /// Its lines.
    pub lines: Vec<Line>,
}

/// A drawing. Its panels' lines have the same names, in the same order.
#[derive(Clone, Debug)]
pub struct Chart {
    /// The panels, from the top.
    pub panels: Vec<Panel>,
    /// What the lines go along.
    pub along: &'static str,
    /// The places below each panel that have words, and these.
    pub ticks: Vec<(f64, String)>,
    /// A value that each upright scale reaches at least.
    pub reach: f64,
    /// Whether the upright scales are logarithmic.
    pub log: bool,
}

/// Words at equal distances, for ticks.
pub fn spaced(words: Vec<String>) -> Vec<(f64, String)> {
    let step = (words.len().max(2) - 1) as f64;
    let at = |(i, word)| (f64::from(i) / step, word);
    (0..).zip(words).map(at).collect()
}

/// The place of a tick.
pub fn place(ticks: &[(f64, String)], word: &str) -> Option<f64> {
    let mut ticks = ticks.iter();
    ticks.find(|tick| tick.1 == word).map(|tick| tick.0)
}

impl Chart {
    /// The drawing.
    pub fn svg(&self) -> String {
        let names = self.names();
        let height = 12.0
            + self.panels.len() as f64 * (ABOVE + PANEL + BELOW)
            + 16.0
            + names.len().div_ceil(2) as f64 * LEGEND_ROW;
        let mut out = String::new();
        self.paper(&mut out, height);
        let mut top = 12.0;
        for panel in &self.panels {
            self.panel(&mut out, top, panel);
            top += ABOVE + PANEL + BELOW;
        }
        for (number, name) in names.iter().enumerate() {
            let x = LEFT + (number % 2) as f64 * 370.0;
            let y = top + 20.0 + (number / 2) as f64 * LEGEND_ROW;
            mark(&mut out, number, x, y - 4.0);
            text(&mut out, x + 14.0, y, "", "start", name);
        }
        out += "</svg>\n";
        out
    }

    /// The names of its lines.
    fn names(&self) -> Vec<&str> {
        let lines = self.panels.first().map(|panel| &panel.lines[..]);
        let names = lines.unwrap_or_default().iter();
        names.map(|line| &line.name[..]).collect()
    }

    /// The head, and what everything is drawn on.
    fn paper(&self, out: &mut String, height: f64) {
        let meanings = self.panels.iter().map(|panel| &panel.meaning[..]);
        let meanings = Vec::from_iter(meanings).join("; ");
        let title = escaped(&format!("{meanings}, along {}", self.along));
        put(out, format_args!(
            "<svg xmlns=\"http://www.w3.org/2000/svg\" viewBox=\"0 0 {WIDTH} {height}\" width=\"{WIDTH}\" \
             height=\"{height}\" role=\"img\" aria-labelledby=\"title\">"
        ));
        put(out, format_args!("<title id=\"title\">{title}</title>"));
        put(out, format_args!("<style>\n{STYLE}</style>"));
        put(
            out,
            format_args!(
                "<rect class=\"paper\" x=\".5\" y=\".5\" width=\"{}\" height=\"{}\" rx=\"6\"/>",
                WIDTH - 1.0,
                height - 1.0
            ),
        );
    }

    fn panel(&self, out: &mut String, top: f64, panel: &Panel) {
        let wide = WIDTH - LEFT - RIGHT;
        let (high, low) = (top + ABOVE, top + ABOVE + PANEL);
        let scale = Scale::of(&panel.lines, self.reach, self.log);
        let y = |value: f64| low - PANEL * scale.place(value);
        // Marks at the ends stand a little inside.
        let x = |place: f64| LEFT + wide * (0.03 + 0.94 * place);
        text(out, 16.0, top + 18.0, "", "start", &panel.meaning);
        for tick in &scale.ticks {
            let at = y(*tick);
            put(
                out,
                format_args!(
                    "<path class=\"grid\" d=\"M{LEFT} {at:.1}H{}\"/>",
                    WIDTH - RIGHT
                ),
            );
            text(out, LEFT - 8.0, at + 4.0, "scale", "end", &grouped(*tick));
        }
        for (place, tick) in &self.ticks {
            put(
                out,
                format_args!(
                    "<path class=\"grid\" d=\"M{:.1} {high}V{low}\"/>",
                    x(*place)
                ),
            );
            text(out, x(*place), low + 15.0, "scale", "middle", tick);
        }
        text(out, WIDTH - RIGHT, low + 29.0, "scale", "end", self.along);
        for (number, line) in panel.lines.iter().enumerate() {
            let points = line
                .points
                .iter()
                .map(|(place, value)| format!("{:.1},{:.1}", x(*place), y(*value)));
            let points = Vec::from_iter(points).join(" ");
            let colour = COLOURS[number % COLOURS.len()];
            put(out, format_args!("<polyline class=\"line\" stroke=\"{colour}\" points=\"{points}\"><title>{}</title></polyline>", escaped(&line.name)));
            let every = line.points.len().div_ceil(16).max(1);
            for (place, value) in line.points.iter().step_by(every) {
                mark(out, number, x(*place), y(*value));
            }
        }
    }
}

/// The upright scale.
struct Scale {
    low: f64,
    high: f64,
    log: bool,
    ticks: Vec<f64>,
}

impl Scale {
    fn of(lines: &[Line], reach: f64, log: bool) -> Scale {
        let all = || {
            lines
                .iter()
                .flat_map(|line| line.points.iter().map(|(_, value)| *value))
        };
        let most = all().fold(reach, f64::max);
        match log {
            true => {
                let least = all().filter(|value| *value > 0.0).fold(most, f64::min);
                let from = least.max(1e-3).log10().floor() as i32;
                let to = (most.max(1e-3).log10().ceil() as i32).max(from + 1);
                let ticks = Vec::from_iter((from..=to).map(|power| 10f64.powi(power)));
                Scale {
                    low: f64::from(from),
                    high: f64::from(to),
                    log,
                    ticks,
                }
            }
            false => {
                let step = nice(most / 4.0);
                let count = (most / step).ceil().max(1.0) as u32;
                let ticks = Vec::from_iter((0..=count).map(|i| f64::from(i) * step));
                Scale {
                    low: 0.0,
                    high: f64::from(count) * step,
                    log,
                    ticks,
                }
            }
        }
    }

    /// Where a value stands, 0 lowest and 1 highest.
    fn place(&self, value: f64) -> f64 {
        let value = match self.log {
            true => value.max(10f64.powf(self.low)).log10(),
            false => value,
        };
        (value - self.low) / (self.high - self.low)
    }
}

/// The next 1, 2 or 5 times a power of ten.
fn nice(step: f64) -> f64 {
    if step <= 0.0 {
        return 1.0;
    }
    let power = 10f64.powi(step.log10().floor() as i32);
    let factors = [1.0, 2.0, 5.0, 10.0];
    let factor = factors
        .into_iter()
        .find(|factor| factor * power >= step * 0.999);
    factor.unwrap_or(10.0) * power
}

/// A number with its thousands apart.
pub fn grouped(number: f64) -> String {
    let decimals = if number.fract().abs() < 1e-9 { 0 } else { 3 };
    let text = format!("{number:.decimals$}");
    let (whole, rest) = text.split_once('.').unwrap_or((&text, ""));
    let mut out = String::new();
    for (i, digit) in whole.chars().enumerate() {
        if i > 0 && (whole.len() - i) % 3 == 0 {
            out.push(',');
        }
        out.push(digit);
    }
    match rest.trim_end_matches('0') {
        "" => out,
        rest => out + "." + rest,
    }
}

/// A line's mark: each has its own form and colour.
fn mark(out: &mut String, number: usize, x: f64, y: f64) {
    let colour = COLOURS[number % COLOURS.len()];
    match number % 4 {
        0 => put(out, format_args!("<circle cx=\"{x:.1}\" cy=\"{y:.1}\" r=\"4\" fill=\"{colour}\"/>")),
        1 => put(out, format_args!(
            "<rect x=\"{:.1}\" y=\"{:.1}\" width=\"8\" height=\"8\" fill=\"{colour}\"/>",
            x - 4.0,
            y - 4.0
        )),
        2 => put(out, format_args!("<path d=\"M{x:.1} {:.1}l5 9h-10z\" fill=\"{colour}\"/>", y - 5.0)),
        _ => put(out, format_args!(
            "<path d=\"M{x:.1} {:.1}l5 5l-5 5l-5 -5z\" fill=\"#fcfcf9\" stroke=\"{colour}\" stroke-width=\"2\"/>",
            y - 5.0
        )),
    }
}

fn text(out: &mut String, x: f64, y: f64, class: &str, anchor: &str, words: &str) {
    put(
        out,
        format_args!(
            "<text x=\"{x:.1}\" y=\"{y:.1}\" class=\"{class}\" text-anchor=\"{anchor}\">{}</text>",
            escaped(words)
        ),
    );
}

fn put(out: &mut String, line: std::fmt::Arguments<'_>) {
    writeln!(out, "{line}").expect("a string takes it");
}

/// Words that may hold the signs of a drawing's own language.
fn escaped(words: &str) -> String {
    let words = words.replace('&', "&amp;");
    words.replace('<', "&lt;").replace('>', "&gt;")
}

#[cfg(test)]
mod tests {
    use super::*;

    #[test]
    fn scales_are_round() {
        assert_eq!(
            [0.0, 0.7, 1.0, 13.0, 2600.0].map(nice),
            [1.0, 1.0, 1.0, 20.0, 5000.0]
        );
        assert_eq!(
            [0.0, 0.25, 999.0, 1234567.0].map(grouped),
            ["0", "0.25", "999", "1,234,567"]
        );
    }
}
