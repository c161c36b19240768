//! Pictures of the sample days, and of readings that are few, many or far apart. The pictures in
//! `docs/` are these; `./exi plot samples/day-bit-packed.exi docs/day.svg` makes one anew.

use std::fs;
use std::path::{Path, PathBuf};

use plot::{picture, readings, Reading};

fn root() -> PathBuf {
    Path::new(env!("CARGO_MANIFEST_DIR")).join("../..")
}

fn sample(table: &str) -> Vec<Reading> {
    let table = fs::read_to_string(root().join("samples").join(table)).unwrap();
    readings(&table).unwrap()
}

fn reading(milliseconds: u64, micrometres: i32) -> Reading {
    Reading {
        milliseconds,
        micrometres,
    }
}

/// What stands between each `<name ..>` and `</name>`; none of them has elements inside but titles.
fn elements<'a>(svg: &'a str, name: &str) -> Vec<&'a str> {
    let (open, close) = (format!("<{name} "), format!("</{name}>"));
    let parts = svg.split(&open[..]).skip(1);
    parts
        .map(|part| part.split(&close[..]).next().unwrap_or(""))
        .map(|part| part.split_once('>').map_or("", |(_, inside)| inside))
        .collect()
}

/// The values of an attribute of each element of a name, as numbers.
fn numbers(svg: &str, name: &str, attribute: &str) -> Vec<f64> {
    let (open, attribute) = (format!("<{name} "), format!(" {attribute}=\""));
    let value = |part: &str| {
        let part = format!(" {part}");
        let (_, rest) = part.split_once(&attribute)?;
        rest.split('"').next()?.parse().ok()
    };
    svg.split(&open[..]).skip(1).filter_map(value).collect()
}

/// The group with this id.
fn group<'a>(svg: &'a str, id: &str) -> &'a str {
    let open = format!("<g id=\"{id}\"");
    let (_, rest) = svg
        .split_once(&open[..])
        .unwrap_or_else(|| panic!("no group {id}"));
    rest.split("</g>").next().unwrap_or("")
}

#[test]
fn a_day() {
    let day = sample("day.csv");
    let svg = picture("day-bit-packed.exi", &day);
    let texts = elements(&svg, "text");
    for said in [
        "Movement over time: day-bit-packed.exi",
        "2026-03-01 00:00 to 23:30 UTC",
        "48 readings, every 30 min; from −7,600 to 11,800 µm",
        "Date and time (UTC)",
        "Movement (µm)",
    ] {
        assert!(texts.contains(&said), "{said}: {texts:?}");
    }
    assert_eq!(
        elements(group(&svg, "times"), "text"),
        [
            "00:00",
            "2026-03-01",
            "03:00",
            "06:00",
            "09:00",
            "12:00",
            "15:00",
            "18:00",
            "21:00"
        ]
    );
    assert_eq!(
        elements(group(&svg, "movements"), "text"),
        [
            "−10,000",
            "−8,000",
            "−6,000",
            "−4,000",
            "−2,000",
            "0",
            "2,000",
            "4,000",
            "6,000",
            "8,000",
            "10,000",
            "12,000",
            "14,000"
        ]
    );
    // a point a reading, one line through all, no gap
    assert_eq!(svg.matches("<circle ").count(), 48);
    assert_eq!(svg.matches("<polyline ").count(), 1);
    assert_eq!(group(&svg, "gaps").matches("<rect ").count(), 0);
    assert!(svg.contains("<title>2026-03-01 06:30 UTC: 11,800 µm</title>"));
    assert!(!svg.contains("Shaded"));
}

#[test]
fn a_day_with_a_gap() {
    let day = sample("day-with-gap.csv");
    let svg = picture("day-with-gap.exi", &day);
    let texts = elements(&svg, "text");
    for said in [
        "37 readings, usually every 30 min, a gap of 6 h; from −7,600 to 11,800 µm",
        "6 h without readings",
        "Shaded, and not connected: gaps, where the step to the next reading is over 2.5 times \
         the usual one (30 min).",
    ] {
        assert!(texts.contains(&said), "{said}: {texts:?}");
    }
    assert_eq!(svg.matches("<circle ").count(), 37);
    assert_eq!(group(&svg, "gaps").matches("<rect ").count(), 1);
    // two lines, with the readings before the gap and those after it
    let lines: Vec<&str> = svg.split("<polyline points=\"").skip(1).collect();
    let counts = lines.iter().map(|line| {
        let points = line.split('"').next().unwrap_or("");
        points.split(' ').count()
    });
    assert_eq!(counts.collect::<Vec<usize>>(), [19, 18]);
}

/// The pictures of the documents are those that are drawn now.
#[test]
fn pictures_of_the_documents() {
    for (table, name, kept) in [
        ("day.csv", "day-bit-packed.exi", "day.svg"),
        ("day-with-gap.csv", "day-with-gap.exi", "day-with-gap.svg"),
    ] {
        let kept = fs::read_to_string(root().join("docs").join(kept)).unwrap();
        assert!(picture(name, &sample(table)) == kept, "{name}");
    }
}

/// Points lie by time and movement inside the frame, between the ticks that they are between.
#[test]
fn points_lie_where_they_should() {
    let day = sample("day.csv");
    let svg = picture("x", &day);
    let (x, y) = (numbers(&svg, "circle", "cx"), numbers(&svg, "circle", "cy"));
    assert_eq!((x.len(), y.len()), (48, 48));
    let ticks = numbers(group(&svg, "times"), "text", "x");
    let three_hours = (ticks[3] - ticks[2]) / 6.0;
    for (k, x) in x.iter().enumerate() {
        let from_midnight = x - ticks[0];
        assert!(
            (from_midnight - k as f64 * three_hours).abs() < 0.6,
            "{k}: {x}"
        );
    }
    let heights = numbers(group(&svg, "ticks"), "line", "y1");
    let (low, high) = (heights[heights.len() - 13], heights[heights.len() - 1]);
    for (reading, y) in day.iter().zip(&y) {
        let part = f64::from(reading.micrometres + 10_000) / 24_000.0;
        assert!(
            (low + part * (high - low) - y).abs() < 0.6,
            "{reading:?}: {y}"
        );
    }
}

#[test]
fn no_reading_and_one() {
    let svg = picture("a.exi", &[]);
    let texts = elements(&svg, "text");
    for said in [
        "No readings",
        "no readings",
        "Movement (µm)",
        "Date and time (UTC)",
    ] {
        assert!(texts.contains(&said), "{said}");
    }
    assert!(!svg.contains("<circle"));

    for stamp in [0, 825_638_412_345, 3_155_759_999_999] {
        for movement in [-20_000, 0, 20_000] {
            let svg = picture("a.exi", &[reading(stamp, movement)]);
            assert_eq!(svg.matches("<circle ").count(), 1);
            assert_eq!(svg.matches("<polyline ").count(), 0);
            assert!(!svg.contains("NaN") && !svg.contains("inf"));
        }
    }
    let svg = picture("a.exi", &[reading(825_638_412_345, -1)]);
    assert!(elements(&svg, "text").contains(&"2026-03-01 00:00:12.345 UTC"));
    assert!(elements(&svg, "text").contains(&"1 reading; −1 µm"));
}

/// As many as there can be, over the whole century and in one second: all inside the frame.
#[test]
fn many_readings() {
    for step in [1, 1_000, 60_000, 4_654_513_273] {
        for most in [1, 20_000] {
            let moved = |k: u64| if k % 2 == 1 { -most } else { most };
            let all: Vec<Reading> = (0..678).map(|k| reading(k * step, moved(k))).collect();
            let svg = picture("a.exi", &all);
            assert_eq!(svg.matches("<circle ").count(), 678);
            let inside = |all: Vec<f64>, low: f64, high: f64| {
                assert_eq!(all.len(), 678);
                assert!(all.iter().all(|at| (low..=high).contains(at)));
            };
            inside(numbers(&svg, "circle", "cx"), 96.0, 936.0);
            inside(numbers(&svg, "circle", "cy"), 102.0, 460.0);
            let ticks = numbers(group(&svg, "times"), "text", "x").len();
            assert!((2..=12).contains(&ticks), "{step}: {ticks}");
        }
    }
}

/// Names are shown as they are, and long ones by their end; nothing of a name becomes markup.
#[test]
fn names() {
    let day = sample("day.csv");
    let svg = picture("a<b>&\"c\".exi\u{1}\n", &day);
    assert!(elements(&svg, "text")[0].ends_with("a&lt;b&gt;&amp;&quot;c&quot;.exi\u{fffd} "));
    let long = format!("{}.exi", "n".repeat(300));
    let svg = picture(&long, &day);
    let title = elements(&svg, "text")[0];
    assert!(title.ends_with("nnn.exi") && title.contains(": …nn"));
    assert_eq!(title.chars().count(), "Movement over time: ".len() + 52);
}
