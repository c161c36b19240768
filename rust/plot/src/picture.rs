//! The picture as SVG.

use std::fmt::Write;

use crate::axis::{movement_step, movements, number_text, times, Tick};
use crate::date::{duration_text, unit_of, Date, DAY, MINUTE};
use crate::gaps::{runs, usual_step, GAP};
use crate::Reading;

const WIDTH: f64 = 960.0;
const HEIGHT: f64 = 560.0;
const LEFT: f64 = 96.0;
const RIGHT: f64 = WIDTH - 24.0;
const TOP: f64 = 102.0;
const BOTTOM: f64 = HEIGHT - 100.0;

const INK: &str = "#222222";
const PALE_INK: &str = "#555555";
const GRID: &str = "#dddddd";
const LINE: &str = "#1f5fa8";
const SHADE: &str = "#f4ead6";

/// The picture of readings, each later than the one before; `name` is that of their file.
pub fn picture(name: &str, readings: &[Reading]) -> String {
    let frame = Frame::around(readings);
    let mut svg = Svg::new(name);
    svg.titles(name, readings);
    if readings.is_empty() {
        svg.empty_frame();
    } else {
        let runs = runs(readings);
        let gaps = gaps(&runs);
        svg.shades(&frame, &gaps);
        svg.grid(&frame);
        svg.lines(&frame, &runs);
        svg.points(&frame, readings);
        svg.gap_labels(&frame, &gaps);
        svg.note(readings, &gaps);
    }
    svg.axis_titles();
    svg.end()
}

/// Which moments, in milliseconds, and which movements lie inside the frame.
struct Frame {
    first: i64,
    last: i64,
    low: i64,
    high: i64,
    step: i64,
}

impl Frame {
    /// A frame with some room around all readings.
    fn around(readings: &[Reading]) -> Frame {
        let stamp = |reading: Option<&Reading>| reading.map_or(0, |it| it.milliseconds as i64);
        let (first, last) = (stamp(readings.first()), stamp(readings.last()));
        let room = if first == last {
            MINUTE as i64
        } else {
            (last - first) / 50 + 1
        };
        let (least, most) = least_and_most(readings).unwrap_or((0, 0));
        let space = ((most - least) / 25).max(5);
        let (least, most) = (least - space, most + space);
        let step = movement_step(least, most);
        Frame {
            first: first - room,
            last: last + room,
            low: least.div_euclid(step) * step,
            high: -(-most).div_euclid(step) * step,
            step,
        }
    }

    fn x(&self, milliseconds: u64) -> f64 {
        let part = (milliseconds as i64 - self.first) as f64 / (self.last - self.first) as f64;
        LEFT + part * (RIGHT - LEFT)
    }

    fn y(&self, micrometres: i64) -> f64 {
        let part = (micrometres - self.low) as f64 / (self.high - self.low) as f64;
        BOTTOM - part * (BOTTOM - TOP)
    }
}

struct Svg {
    text: String,
}

impl Svg {
    fn new(name: &str) -> Svg {
        let mut svg = Svg {
            text: String::new(),
        };
        svg.put(&format!(
            "<svg xmlns=\"http://www.w3.org/2000/svg\" role=\"img\" width=\"{WIDTH}\" \
             height=\"{HEIGHT}\" viewBox=\"0 0 {WIDTH} {HEIGHT}\" \
             font-family=\"'DejaVu Sans', Verdana, Helvetica, Arial, sans-serif\" \
             font-size=\"13\" fill=\"{INK}\">"
        ));
        svg.put(&format!(
            "<title>Movement over time: {}</title>",
            escaped(name)
        ));
        svg.put(&format!(
            "<rect width=\"{WIDTH}\" height=\"{HEIGHT}\" fill=\"#ffffff\"/>"
        ));
        svg
    }

    fn end(mut self) -> String {
        self.put("</svg>");
        self.text
    }

    fn put(&mut self, line: &str) {
        self.text.push_str(line);
        self.text.push('\n');
    }

    fn text(&mut self, x: f64, y: f64, attributes: &str, text: &str) {
        self.put(&format!(
            "<text x=\"{x:.1}\" y=\"{y:.1}\"{attributes}>{}</text>",
            escaped(text)
        ));
    }

    fn line(&mut self, from: (f64, f64), to: (f64, f64)) {
        self.put(&format!(
            "<line x1=\"{:.1}\" y1=\"{:.1}\" x2=\"{:.1}\" y2=\"{:.1}\"/>",
            from.0, from.1, to.0, to.1
        ));
    }

    fn titles(&mut self, name: &str, readings: &[Reading]) {
        let large = " font-size=\"19\" font-weight=\"bold\"";
        self.text(
            LEFT,
            34.0,
            large,
            &format!("Movement over time: {}", short(name)),
        );
        let pale = format!(" fill=\"{PALE_INK}\"");
        self.text(LEFT, 58.0, &pale, &span_text(readings));
        self.text(LEFT, 79.0, &pale, &summary(readings));
    }

    fn axis_titles(&mut self) {
        let middle = (LEFT + RIGHT) / 2.0;
        let centred = " text-anchor=\"middle\" font-size=\"14\"";
        self.text(middle, BOTTOM + 64.0, centred, "Date and time (UTC)");
        let (x, y) = (26.0, (TOP + BOTTOM) / 2.0);
        let turned = format!("{centred} transform=\"rotate(-90 {x:.1} {y:.1})\"");
        self.text(x, y, &turned, "Movement (\u{b5}m)");
    }

    fn empty_frame(&mut self) {
        self.border();
        let (x, y) = ((LEFT + RIGHT) / 2.0, (TOP + BOTTOM) / 2.0);
        self.text(
            x,
            y,
            " text-anchor=\"middle\" font-size=\"16\"",
            "No readings",
        );
    }

    fn border(&mut self) {
        self.put(&format!(
            "<rect x=\"{LEFT:.1}\" y=\"{TOP:.1}\" width=\"{:.1}\" height=\"{:.1}\" \
             fill=\"none\" stroke=\"{INK}\"/>",
            RIGHT - LEFT,
            BOTTOM - TOP
        ));
    }

    fn grid(&mut self, frame: &Frame) {
        let times = times(frame.first.max(0) as u64, frame.last as u64);
        let movements = movements(frame.low, frame.high, frame.step);
        self.put(&format!("<g id=\"grid\" stroke=\"{GRID}\">"));
        for tick in &times {
            let x = frame.x(tick.at);
            self.line((x, TOP), (x, BOTTOM));
        }
        for tick in &movements {
            let y = frame.y(tick.at);
            self.line((LEFT, y), (RIGHT, y));
        }
        self.put("</g>");
        if frame.low < 0 && frame.high > 0 {
            self.put(&format!("<g id=\"zero\" stroke=\"{PALE_INK}\">"));
            self.line((LEFT, frame.y(0)), (RIGHT, frame.y(0)));
            self.put("</g>");
        }
        self.border();
        self.put(&format!("<g id=\"ticks\" stroke=\"{INK}\">"));
        for tick in &times {
            let x = frame.x(tick.at);
            self.line((x, BOTTOM), (x, BOTTOM + 5.0));
        }
        for tick in &movements {
            let y = frame.y(tick.at);
            self.line((LEFT - 5.0, y), (LEFT, y));
        }
        self.put("</g>");
        self.labels(frame, &times, &movements);
    }

    fn labels(&mut self, frame: &Frame, times: &[Tick<u64>], movements: &[Tick<i64>]) {
        self.put("<g id=\"times\" text-anchor=\"middle\">");
        for tick in times {
            let x = frame.x(tick.at);
            self.text(x, BOTTOM + 21.0, "", &tick.label);
            if !tick.below.is_empty() {
                self.text(x, BOTTOM + 38.0, "", &tick.below);
            }
        }
        self.put("</g>");
        self.put("<g id=\"movements\" text-anchor=\"end\">");
        for tick in movements {
            self.text(LEFT - 9.0, frame.y(tick.at) + 4.5, "", &tick.label);
        }
        self.put("</g>");
    }

    fn shades(&mut self, frame: &Frame, gaps: &[(u64, u64)]) {
        self.put(&format!("<g id=\"gaps\" fill=\"{SHADE}\">"));
        for &(before, after) in gaps {
            let (from, to) = (frame.x(before), frame.x(after));
            self.put(&format!(
                "<rect x=\"{from:.1}\" y=\"{TOP:.1}\" width=\"{:.1}\" height=\"{:.1}\"/>",
                to - from,
                BOTTOM - TOP
            ));
        }
        self.put("</g>");
    }

    /// How long each gap lasts, where it is wide enough to say so.
    fn gap_labels(&mut self, frame: &Frame, gaps: &[(u64, u64)]) {
        self.put(&format!(
            "<g id=\"gap-labels\" text-anchor=\"middle\" fill=\"{PALE_INK}\">"
        ));
        for &(before, after) in gaps {
            let (from, to) = (frame.x(before), frame.x(after));
            let lasts = duration_text(after - before);
            let says = format!("{lasts} without readings");
            if let Some(says) = [says, lasts].iter().find(|says| width(says) < to - from) {
                self.text((from + to) / 2.0, TOP + 20.0, "", says);
            }
        }
        self.put("</g>");
    }

    fn lines(&mut self, frame: &Frame, runs: &[&[Reading]]) {
        self.put(&format!(
            "<g id=\"lines\" fill=\"none\" stroke=\"{LINE}\" stroke-width=\"1.5\">"
        ));
        for run in runs.iter().filter(|run| run.len() > 1) {
            let mut points = String::new();
            for reading in *run {
                let (x, y) = place(frame, reading);
                write!(points, " {x:.2},{y:.2}").expect("a string takes all");
            }
            self.put(&format!("<polyline points=\"{}\"/>", points.trim_start()));
        }
        self.put("</g>");
    }

    fn points(&mut self, frame: &Frame, readings: &[Reading]) {
        let radius = if readings.len() <= 150 { 3.0 } else { 1.8 };
        let unit = unit_of(readings.iter().map(|reading| reading.milliseconds));
        self.put(&format!("<g id=\"readings\" fill=\"{LINE}\">"));
        for reading in readings {
            let (x, y) = place(frame, reading);
            let says = format!(
                "{} UTC: {} \u{b5}m",
                moment(reading.milliseconds, unit),
                number_text(i64::from(reading.micrometres))
            );
            self.put(&format!(
                "<circle cx=\"{x:.2}\" cy=\"{y:.2}\" r=\"{radius}\"><title>{says}</title></circle>"
            ));
        }
        self.put("</g>");
    }

    /// What shaded parts are, where there are any.
    fn note(&mut self, readings: &[Reading], gaps: &[(u64, u64)]) {
        let Some(usual) = usual_step(readings).filter(|_| !gaps.is_empty()) else {
            return;
        };
        let usual = duration_text(usual);
        let says = format!(
            "Shaded, and not connected: gaps, where the step to the next reading is over \
             {GAP} times the usual one ({usual})."
        );
        let pale = format!(" fill=\"{PALE_INK}\" font-size=\"12\"");
        self.text(LEFT, HEIGHT - 12.0, &pale, &says);
    }
}

/// About how wide a text is, in the usual size.
fn width(text: &str) -> f64 {
    8.0 * text.chars().count() as f64
}

/// From where to where readings are missing.
fn gaps(runs: &[&[Reading]]) -> Vec<(u64, u64)> {
    let ends = runs.iter().filter_map(|run| run.last());
    let starts = runs.iter().skip(1).filter_map(|run| run.first());
    let gap = |(end, start): (&Reading, &Reading)| (end.milliseconds, start.milliseconds);
    ends.zip(starts).map(gap).collect()
}

fn place(frame: &Frame, reading: &Reading) -> (f64, f64) {
    let y = frame.y(i64::from(reading.micrometres));
    (frame.x(reading.milliseconds), y)
}

fn moment(milliseconds: u64, unit: u64) -> String {
    let date = Date::of(milliseconds);
    format!("{} {}", date.day_text(), date.time_text(unit))
}

/// From when to when there are readings.
fn span_text(readings: &[Reading]) -> String {
    let (Some(first), Some(last)) = (readings.first(), readings.last()) else {
        return "no readings".to_string();
    };
    let (first, last) = (first.milliseconds, last.milliseconds);
    let unit = unit_of([first, last]);
    let from = moment(first, unit);
    if first == last {
        format!("{from} UTC")
    } else if first / DAY == last / DAY {
        format!("{from} to {} UTC", Date::of(last).time_text(unit))
    } else {
        format!("{from} to {} UTC", moment(last, unit))
    }
}

/// How many readings there are, how often, and between which movements.
fn summary(readings: &[Reading]) -> String {
    let Some((least, most)) = least_and_most(readings) else {
        return String::new();
    };
    let count = count_text(readings);
    let (low, high) = (number_text(least), number_text(most));
    if least == most {
        return format!("{count}; {low} \u{b5}m");
    }
    format!("{count}; from {low} to {high} \u{b5}m")
}

fn least_and_most(readings: &[Reading]) -> Option<(i64, i64)> {
    let moved = readings.iter().map(|reading| reading.micrometres);
    Some((moved.clone().min()?.into(), moved.max()?.into()))
}

/// How many readings there are, and how often.
fn count_text(readings: &[Reading]) -> String {
    let Some(usual) = usual_step(readings) else {
        return "1 reading".to_string();
    };
    let is_usual = |two: &[Reading]| two[1].milliseconds - two[0].milliseconds == usual;
    let often = if readings.windows(2).all(is_usual) {
        "every"
    } else {
        "usually every"
    };
    let gaps = match gaps(&runs(readings))[..] {
        [] => String::new(),
        [(before, after)] => format!(", a gap of {}", duration_text(after - before)),
        ref gaps => format!(", {} gaps", gaps.len()),
    };
    let usual = duration_text(usual);
    format!("{} readings, {often} {usual}{gaps}", readings.len())
}

/// A name that fits the title: of a long one the end.
fn short(name: &str) -> String {
    const MOST: usize = 52;
    let count = name.chars().count();
    if count <= MOST {
        return name.to_string();
    }
    let end: String = name.chars().skip(count - MOST + 1).collect();
    format!("\u{2026}{end}")
}

/// A text inside SVG. Characters that XML does not have come as U+FFFD.
fn escaped(text: &str) -> String {
    let mut escaped = String::new();
    for character in text.chars() {
        match character {
            '&' => escaped.push_str("&amp;"),
            '<' => escaped.push_str("&lt;"),
            '>' => escaped.push_str("&gt;"),
            '"' => escaped.push_str("&quot;"),
            '\t' | '\n' | '\r' => escaped.push(' '),
            '\0'..='\x1f' | '\u{fffe}' | '\u{ffff}' => escaped.push('\u{fffd}'),
            other => escaped.push(other),
        }
    }
    escaped
}
