//! Reads a stream from standard input in packets, and prints each event as soon as it is complete:
//! `packets OCTETS [SETTING..]`, as `packets 24 byte-aligned fragment`

use std::env;
use std::error::Error;
use std::io::{self, Read};
use std::process::ExitCode;

use plumethrift::{Receiver, Settings};

fn main() -> ExitCode {
    match run() {
        Ok(()) => ExitCode::SUCCESS,
        Err(error) => {
            eprintln!("packets: {error}");
            ExitCode::FAILURE
        }
    }
}

fn run() -> Result<(), Box<dyn Error>> {
    let mut words = env::args().skip(1);
    let octets = words
        .next()
        .ok_or("how many octets a packet has is missing")?;
    let settings: Settings = words.collect::<Vec<_>>().join(" ").parse()?;

    let mut receiver = Receiver::new(&settings);
    let mut packet = vec![0; octets.parse()?];
    for number in 1.. {
        let received = io::stdin().read(&mut packet)?;
        if received == 0 {
            break;
        }
        for event in receiver.feed(&packet[..received])?.new_events() {
            println!("packet {number}: {event:?}");
        }
    }
    println!("closed: {} events", receiver.close()?.len());
    Ok(())
}
