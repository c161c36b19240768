//! The table of docs/SPEED.md, and the one in short of README.md, made by the times of a run.

use std::fs;
use std::io;
use std::path::Path;

use super::{growth, one_tag, Timed, GROWTH, ONE_TAG};

/// Between one of these lines and the end the table stands, whole or in short.
const BEGIN: &str = "<!-- made by bench --table -->\n";
const BEGIN_SHORT: &str = "<!-- made by bench --table, in short -->\n";
const END: &str = "<!-- the end of what bench made -->\n";

/// What the streams of a row are. Rows that differ in alignment or in size alone are one line.
fn streams(name: &str) -> &str {
    match group(name) {
        "K7" => "10,000 small ones, like K7",
        "K7, many names" => "the same of 1,500 names, a tenth not ASCII",
        "long" => "documents near 16,000 octets with many values",
        "512 values" => "512 values, each looked up, that begin unlike",
        "512 alike" => "512 values, each looked up, that begin alike",
        "100 deep" => "100 elements deep",
        "128 names" => "128 names",
        "120 attributes" => "120 attributes in one start tag",
        "120 elements" => "120 elements with one attribute each",
        "local hits" => "3,000 values that are local hits",
        "long notes" => "notes of 4,072 code points",
        "500 readings" => "a day of 500 readings",
        "2,048 short" => "2,048 short values, and 1,200 hits",
        "growth" => "documents of 2, 4, 8, 16 KB",
        "one bucket" => "2,048 values of one bucket",
        other => other,
    }
}

fn group(name: &str) -> &str {
    let name = name.strip_suffix(", byte-aligned").unwrap_or(name);
    let name = name.strip_suffix(", bit-packed").unwrap_or(name);
    match name.split_once(", ") {
        Some(("growth", _)) => "growth",
        _ => name,
    }
}

/// Values, and the goal of all of them; bold where it is met.
fn cells(values: &[f64], goal: Option<f64>) -> String {
    let met = goal.is_some_and(|goal| values.iter().all(|&value| value <= goal));
    let bold = if met { "**" } else { "" };
    let values: Vec<String> = values.iter().map(|value| format!("{value:.2}")).collect();
    let goal = goal.map_or("none".to_string(), |goal| goal.to_string());
    format!("{bold}{}{bold} | {goal}", values.join(", "))
}

/// A line for rows of one group.
fn lines(rows: &[&Timed]) -> String {
    let goals = rows[0].goals;
    let [read, write] = [0, 1].map(|way| {
        rows.iter()
            .map(|row| row.times[way].ratio())
            .collect::<Vec<_>>()
    });
    let mut lines = format!(
        "| {} | {} | {} |\n",
        streams(rows[0].name),
        cells(&read, goals.read),
        cells(&write, goals.write)
    );
    if goals.read_net.is_some() {
        let net: Vec<f64> = rows.iter().map(|row| row.times[0].net()).collect();
        let net = cells(&net, goals.read_net);
        lines += &format!("| .. net of clearing the lent memory | {net} | | |\n");
    }
    lines
}

/// What one line says of both ways against one goal.
fn both(words: &str, values: [Option<f64>; 2], goal: f64) -> String {
    let [Some(read), Some(write)] = values else {
        return String::new();
    };
    let [read, write] = [read, write].map(|value| cells(&[value], Some(goal)));
    format!("| {words} | {read} | {write} |\n")
}

const HEAD: &str = "| streams | read | goal | write | goal |\n|---|---|---|---|---|\n";

/// Small streams, large ones, and what trackers send.
fn short_table(timed: &[Timed]) -> String {
    let mut table = HEAD.to_string();
    for name in ["K7", "long", "500 readings"] {
        let rows: Vec<&Timed> = timed.iter().filter(|row| group(row.name) == name).collect();
        table += &lines(&rows);
    }
    table
}

fn whole_table(timed: &[Timed]) -> String {
    let mut table = HEAD.to_string();
    for rows in timed.chunk_by(|a, b| group(a.name) == group(b.name)) {
        table += &lines(&rows.iter().collect::<Vec<_>>());
    }
    let eight = "eight times the octets, times the time";
    table += &both(eight, [0, 1].map(|way| growth(timed, way)), GROWTH);
    let words = "120 attributes in one start tag, times 120 elements";
    let tag = |way| one_tag(timed, "byte-aligned", way);
    table += &both(words, [0, 1].map(tag), ONE_TAG);
    table
}

/// Puts the table into a page, in place of the one that it has.
pub fn put(page: &Path, timed: &[Timed]) -> io::Result<()> {
    let text = fs::read_to_string(page)?;
    let replaced = |begin: &str, table: fn(&[Timed]) -> String| {
        let (before, rest) = text.split_once(begin)?;
        let (_, after) = rest.split_once(END)?;
        Some(format!("{before}{begin}{}{END}{after}", table(timed)))
    };
    let made = replaced(BEGIN, whole_table).or_else(|| replaced(BEGIN_SHORT, short_table));
    let made = made.ok_or_else(|| io::Error::other("the page has no table of bench"))?;
    fs::write(page, made)
}
