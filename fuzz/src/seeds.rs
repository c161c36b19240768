//! Writes the requests of files of the batch protocol as inputs of the fuzzer: `seeds FOLDER
//! FILE..` Lines that wait for a request of document 02 are left out.

#![forbid(unsafe_code)]

use std::fs;
use std::path::PathBuf;

use compare::protocol::Request;

fn main() {
    let mut arguments = std::env::args_os().skip(1);
    let folder = PathBuf::from(arguments.next().expect("a folder"));
    let mut count = 0;
    for file in arguments {
        let text = fs::read_to_string(&file).expect("a file of requests");
        for line in text.lines() {
            let line = line.split(" => ").next().unwrap_or("");
            let Ok(request) = Request::parse(line) else {
                continue;
            };
            if let Some(input) = fuzz::input(&request) {
                let path = folder.join(format!("seed-{count:05}"));
                fs::write(path, input).expect("a seed");
                count += 1;
            }
        }
    }
    println!("{count} seeds");
}
