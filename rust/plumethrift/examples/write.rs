//! Writes the lines of standard input as a stream to standard output, each as an element `line`,
//! all of them in an element `lines`, or in a fragment: `write [SETTING..]`, as `write fragment`

use std::env;
use std::error::Error;
use std::io::{self, Write};
use std::process::ExitCode;

use plumethrift::{EventList, Settings, Writer};

fn main() -> ExitCode {
    match run() {
        Ok(()) => ExitCode::SUCCESS,
        Err(error) => {
            eprintln!("write: {error}");
            ExitCode::FAILURE
        }
    }
}

fn run() -> Result<(), Box<dyn Error>> {
    let words: Vec<String> = env::args().skip(1).collect();
    let settings: Settings = words.join(" ").parse()?;

    let mut list = EventList::new();
    list.start_document();
    if !settings.fragment {
        list.start_element("", "lines");
    }
    for line in io::stdin().lines() {
        list.start_element("", "line")
            .characters(&line?)
            .end_element();
    }
    if !settings.fragment {
        list.end_element();
    }
    list.end_document();

    let mut writer = Writer::new();
    io::stdout().write_all(writer.write(&settings, &list)?)?;
    Ok(())
}
