//! Requests on standard input, one a line; one answer line for each, in order, on standard output.
//!
//! With `--ordinary` the ordinary implementation answers and not the library.

#![forbid(unsafe_code)]

use std::io::{self, BufRead, BufReader, BufWriter, Write};
use std::process::ExitCode;

use compare::lent::Codec;
use compare::protocol::Asker;

fn main() -> ExitCode {
    let mut codec = Codec::Library;
    for argument in std::env::args().skip(1) {
        if argument == "--ordinary" {
            codec = Codec::Ordinary;
        } else {
            eprintln!("usage: batch [--ordinary]");
            return ExitCode::from(2);
        }
    }
    match answer_all(codec) {
        Ok(()) => ExitCode::SUCCESS,
        Err(error) if error.kind() == io::ErrorKind::BrokenPipe => ExitCode::SUCCESS,
        Err(error) => {
            eprintln!("batch: {error}");
            ExitCode::FAILURE
        }
    }
}

fn answer_all(codec: Codec) -> io::Result<()> {
    let mut asker = Asker::new(codec);
    let mut input = BufReader::with_capacity(1 << 16, io::stdin().lock());
    let mut output = BufWriter::with_capacity(1 << 16, io::stdout().lock());
    let mut line = Vec::new();
    loop {
        line.clear();
        if input.read_until(b'\n', &mut line)? == 0 {
            return output.flush();
        }
        if line.last() == Some(&b'\n') {
            line.pop();
        }
        if line.last() == Some(&b'\r') {
            line.pop();
        }
        let answer = match std::str::from_utf8(&line) {
            Ok(request) => asker.answer_line(request),
            Err(_) => "? not text".to_string(),
        };
        output.write_all(answer.as_bytes())?;
        output.write_all(b"\n")?;
        if !input.buffer().contains(&b'\n') {
            output.flush()?;
        }
    }
}
