//! Prints the events of a stream: `show FILE [SETTING..]`, as `show day.exi byte-aligned cookie`

use std::error::Error;
use std::process::ExitCode;
use std::{env, fs};

use plumethrift::{Event, Reader, Settings};

fn main() -> ExitCode {
    match run() {
        Ok(()) => ExitCode::SUCCESS,
        Err(error) => {
            eprintln!("show: {error}");
            ExitCode::FAILURE
        }
    }
}

fn run() -> Result<(), Box<dyn Error>> {
    let mut words = env::args().skip(1);
    let file = words.next().ok_or("a file is missing")?;
    let settings: Settings = words.collect::<Vec<_>>().join(" ").parse()?;

    let mut reader = Reader::new();
    let mut depth = 0;
    for event in reader.read(&settings, &fs::read(file)?)?.events() {
        depth -= usize::from(matches!(event, Event::EndElement));
        println!("{:width$}{event:?}", "", width = 2 * depth);
        depth += usize::from(matches!(event, Event::StartElement { .. }));
    }
    Ok(())
}
