//! Draws the table of readings on standard input: `plot NAME OUT`.
//!
//! NAME is shown in the title; OUT is the picture's file, or `-` for standard output. Status 2: the
//! table is not understood, or the picture is not written.

#![forbid(unsafe_code)]

use std::io::{self, Read, Write};
use std::process::ExitCode;

fn main() -> ExitCode {
    let words: Vec<String> = std::env::args_os()
        .map(|word| word.to_string_lossy().into_owned())
        .collect();
    let out = std::env::args_os().nth(2);
    let ([_, name, _], Some(out)) = (&words[..], out) else {
        eprintln!("usage: plot NAME OUT");
        return ExitCode::from(2);
    };
    let mut table = String::new();
    if let Err(error) = io::stdin().read_to_string(&mut table) {
        eprintln!("plot: cannot read the table: {error}");
        return ExitCode::from(2);
    }
    let readings = match plot::readings(&table) {
        Ok(readings) => readings,
        Err(error) => {
            eprintln!("plot: the table of readings: {error}");
            return ExitCode::from(2);
        }
    };
    let picture = plot::picture(name, &readings);
    let written = if out == "-" {
        let mut out = io::stdout();
        out.write_all(picture.as_bytes()).and_then(|()| out.flush())
    } else {
        std::fs::write(&out, picture)
    };
    if let Err(error) = written {
        eprintln!("plot: cannot write {}: {error}", out.to_string_lossy());
        return ExitCode::from(2);
    }
    ExitCode::SUCCESS
}
