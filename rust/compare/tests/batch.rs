//! The batch program, run as a filter.

#![forbid(unsafe_code)]

use std::io::{BufRead, BufReader, Write};
use std::process::{Command, Stdio};

use compare::protocol::{Request, BAD, BAD2};

fn answers(arguments: &[&str], requests: &[u8]) -> Vec<String> {
    let mut batch = Command::new(env!("CARGO_BIN_EXE_batch"))
        .args(arguments)
        .stdin(Stdio::piped())
        .stdout(Stdio::piped())
        .spawn()
        .expect("the batch program");
    let mut input = batch.stdin.take().expect("its input");
    let requests = requests.to_vec();
    let feeder = std::thread::spawn(move || input.write_all(&requests));
    let output = batch.wait_with_output().expect("its output");
    feeder.join().expect("a feeder").expect("all written");
    assert!(output.status.success());
    let output = String::from_utf8(output.stdout).expect("text");
    assert!(output.is_empty() || output.ends_with('\n'));
    output.lines().map(str::to_string).collect()
}

const INITIAL: &str = "68,74,74,70,3a,2f,2f,77,77,77,2e,77,33,2e,6f,72,67,2f,58,4d,4c,2f,31,39,\
39,38,2f,6e,61,6d,65,73,70,61,63,65,68,74,74,70,3a,2f,2f,77,77,77,2e,77,33,2e,6f,72,67,2f,32,30,\
30,31,2f,58,4d,4c,53,63,68,65,6d,61,2d,69,6e,73,74,61,6e,63,65,62,61,73,65,69,64,6c,61,6e,67,73,\
70,61,63,65,6e,69,6c,74,79,70,65";

const READINGS: &str = "72,65,61,64,69,6e,67,73";

#[test]
fn answers_in_order() {
    let requests = "r 1 0 0 0 8001026103036200\n\
        r 1 0 0 0 8001026104\n\
        r 0 0 0 0 80409840\n\
        r 1 0 0 0 -\n\
        r 4294967295 0 0 0 -\n\
        w 1 0 0 0 SD,SE:0:0:0:1,EE,ED 61\n\
        w 0 0 0 0 SD,SE:0:0:0:1,CH:1:1,EE,ED 61,62\n\
        w 1 0 0 0 SD,SE:0:0:0:1,BAD,ED 61\n\
        w 1 0 0 0 SD,SE:0:0:0:1,BAD2,ED 61\n\
        w 1 0 0 0 SD,SE:0:0:0:1,CH:18446744073709551615:0,EE,ED 61\n\
        w 1 0 1 1 SD,CM:0:1,PI:0:1:1:0,SE:0:0:0:1,AT:0:0:0:1:0:1,EE,ED 61\n\
        w 1 0 0 0 - -\n\
        r 1 0 0 0 short=text -\n\
        r 2 0 0 0 fragment=1 vmax=0 vcap=0 loose=1 prefixes=1 cap=0 short=work -\n\
        r 1 0 0 0 short=events 8001026100\n\
        w 1 0 0 0 short=octets SD,SE:0:0:0:1,EE,ED 61\n\
        w 1 0 0 0 cap=7 short=work BAD -\n\
        r 1 0 0 0 fragment=0 8001026104\n\
        r 1 0 0 0 800102610101026b03780002\n\
        w 1 0 0 0 SD,SE:0:0:0:1,AT:0:0:0:1:0:1,AT:1:0:0:1:0:0,EE,ED 61\n\
        r 1 0 0 0 8001056261733a\n\
        w 1 0 1 1 SD,CM:0:2,SE:0:0:2:1,EE,ED 2d,2d,61\n\
        w 1 0 1 1 SD,PI:0:3:3:0,SE:0:0:0:1,EE,ED 58,6d,6c\n\
        w 1 0 0 0 SD,SE:0:0,EE,ED 61\n\
        m SD,SE:0:0:0:8,EE,ED 72,65,61,64,69,6e,67,73\n\
        m - -\n\
        m SD,BAD -\n\
        m short=readings - -\n\
        l -\n\
        l 5097600000:-5\n\
        l 0:0,0:0\n\
        l 18446744073709551616:0\n\
        l -1:0\n\
        l 0:2147483648\n\
        l 0:-99999999999\n\
        l short=text -\n\
        l short=events 9223372036854775807:20001";
    let expected = vec![
        format!("0 0 SD,SE:0:0:99:1,CH:100:1,EE,ED {INITIAL},61,62"),
        "6 2 - -".to_string(),
        format!("0 0 SD,SE:0:0:99:1,EE,ED {INITIAL},61"),
        "5 0 - -".to_string(),
        "2 0 - -".to_string(),
        "0 0 8001026100".to_string(),
        "0 0 804098703620".to_string(),
        "14 2 -".to_string(),
        "14 2 -".to_string(),
        "15 2 -".to_string(),
        "0 0 80010001610101016100000102610101000361010000".to_string(),
        "14 0 -".to_string(),
        "1 0 - -".to_string(),
        "1 0 - -".to_string(),
        "1 0 - -".to_string(),
        "1 0 -".to_string(),
        "1 0 -".to_string(),
        "6 2 - -".to_string(),
        "14 3 - -".to_string(),
        "14 3 -".to_string(),
        "11 1 - -".to_string(),
        "8 1 -".to_string(),
        "11 1 -".to_string(),
        "14 1 -".to_string(),
        "0 0 -".to_string(),
        "16 0 -".to_string(),
        "16 0 -".to_string(),
        "1 0 -".to_string(),
        format!("0 0 SD,SE:0:0:99:8,EE,ED {INITIAL},{READINGS}"),
        format!(
            "0 0 SD,SE:0:0:99:8,SE:0:0:107:1,AT:0:0:108:1:109:24,AT:0:0:133:2:135:2,EE,EE,ED \
             {INITIAL},{READINGS},72,74,32,30,30,30,2d,30,32,2d,32,39,54,30,30,3a,30,30,3a,30,30,\
             2e,30,30,30,5a,75,6d,2d,35"
        ),
        "19 1 - -".to_string(),
        "17 0 - -".to_string(),
        "17 0 - -".to_string(),
        "18 0 - -".to_string(),
        "18 0 - -".to_string(),
        "1 0 - -".to_string(),
        "1 0 - -".to_string(),
    ];
    for arguments in [&[][..], &["--ordinary"]] {
        let got = answers(arguments, requests.as_bytes());
        for (k, (got, expected)) in got.iter().zip(&expected).enumerate() {
            assert_eq!(got, expected, "answer {k}");
        }
        assert_eq!(got.len(), expected.len());
    }
}

/// Calls of a receiver, where an implementation has one.
#[test]
fn pieces_in_order() {
    let requests = "f 1 0 0 0 800102,610304,62,62,00,.\n\
        f 1 0 0 0 8001026100,.,!00,w<.\n\
        f 1 0 0 0 -,.\n\
        f 1 0 0 0 800100,-,.,!00\n\
        f 1 0 0 0 80,e<01,02\n\
        f 2 0 0 0 cap=1 -,t<.\n\
        f 0 0 0 0 .";
    let (opening, refused) = (format!("SD {INITIAL}"), "9 1 0 0 - -");
    let expected = [
        format!(
            "0 0 1 99 {opening} | 0 0 2 100 SE:0:0:99:1 61 | 0 0 2 100 - - | \
             0 0 3 102 CH:100:2 62,62 | 0 0 5 102 EE,ED - | 0 0 5 102 - -"
        ),
        format!("0 0 4 100 SD,SE:0:0:99:1,EE,ED {INITIAL},61") + &" | 0 0 4 100 - -".repeat(3),
        format!("0 0 0 99 - {INITIAL} | 5 0 0 0 - -"),
        [refused; 4].join(" | "),
        format!("0 0 1 99 {opening} | 1 0 0 0 - - | 1 0 0 0 - -"),
        "2 0 0 0 - - | 2 0 0 0 - -".to_string(),
        "5 0 0 0 - -".to_string(),
    ];
    for words in [&[][..], &["--ordinary"]] {
        assert_eq!(answers(words, requests.as_bytes()), expected);
    }
}

/// Each setting at the first number without a meaning, and at the largest ones: a bound does not
/// come round to none. One after the other, behind ROOM and before LONG.
#[test]
fn settings_by_words() {
    let long = "00".repeat(16_385);
    let mut requests = Vec::new();
    let words = ["fragment", "vcap", "loose", "prefixes", "cap"];
    let numbers = [
        "4294967294",
        "4294967295",
        "4294967296",
        "18446744073709551615",
    ];
    for word in words {
        let first = match word {
            "fragment" => "2",
            "vcap" => "2049",
            "cap" => "0",
            _ => "1",
        };
        for number in [first, "2049"].into_iter().chain(numbers) {
            for stream in ["8001026100", &long, "-"] {
                requests.push(format!("r 1 0 0 0 {word}={number} {stream}"));
            }
            requests.push(format!("w 1 0 0 0 {word}={number} SD,SE:0:0:0:1,EE,ED 61"));
        }
    }
    for four in ["2 0 0 0", "1 2 0 0", "1 0 2 0", "1 0 0 2"] {
        requests.push(format!("r {four} {long}"));
        requests.push(format!("w {four} SD,SE:0:0:0:1,EE,ED 61"));
    }
    requests.push("r 1 0 0 0 fragment=1 vmax=4 vcap=2 loose=1 prefixes=1 cap=3 -".to_string());
    for arguments in [&[][..], &["--ordinary"]] {
        let got = answers(arguments, requests.join("\n").as_bytes());
        assert_eq!(got.len(), requests.len());
        for (request, got) in requests.iter().zip(&got) {
            let nothing = if request.starts_with('r') { "- -" } else { "-" };
            assert_eq!(
                got,
                &format!("2 0 {nothing}"),
                "{}",
                &request[..40.min(request.len())]
            );
        }
    }
}

/// The words stand for the settings' numbers, bounds as one more.
#[test]
fn words_as_numbers() {
    let settings = |line: &str| match Request::parse(line) {
        Ok(Request::Read { settings, .. }) => settings.numbers(),
        other => panic!("not understood: {other:?}"),
    };
    assert_eq!(settings("r 1 0 1 0 -"), [1, 0, 1, 0, 0, 0, 0, 0, 0, 0]);
    assert_eq!(
        settings("r 5 6 7 8 fragment=1 vmax=0 vcap=9 loose=2 prefixes=3 cap=63 -"),
        [5, 6, 7, 8, 1, 1, 10, 2, 3, 64]
    );
    let most = u32::MAX;
    assert_eq!(
        settings("r 1 0 0 0 fragment=4294967296 vcap=4294967294 cap=4294967295 short=text -"),
        [1, 0, 0, 0, most, 0, most, 0, 0, most]
    );
}

#[test]
fn requests_that_are_not_understood() {
    let requests = [
        "",
        "x 1 0 0 0 -",
        "r",
        "r 1 0 0 0",
        "r 1 0 0 0 ",
        "r 1 0 0 0 - -",
        "r 1 0 0  -",
        "r 1 0 0 0 8",
        "r 1 0 0 0 8g",
        "r 1 0 0 0 +1",
        "r -1 0 0 0 80",
        "r +1 0 0 0 80",
        "r 1 0 0 0 name=1 80",
        "r 1 0 0 0 fragment= 80",
        "r 1 0 0 0 fragment=x 80",
        "r 1 0 0 0 fragment=-1 80",
        "r 1 0 0 0 fragment=1 fragment=1 80",
        "r 1 0 0 0 loose=1 fragment=1 80",
        "r 1 0 0 0 vcap=1 vmax=1 80",
        "r 1 0 0 0 short=text cap=1 80",
        "r 1 0 0 0 fragment=1",
        "r 1 0 0 fragment=1 0 80",
        "r fragment=1 1 0 0 0 80",
        "r 1 0 0 0 80 fragment=1",
        "r 1 0 0 0 short= 80",
        "r 1 0 0 0 short=octets 80",
        "r 1 0 0 0 short=readings 80",
        "r 1 0 0 0 short=text short=text 80",
        "w 1 0 0 0 short=events SD 61",
        "w 1 0 0 0 short=text SD 61",
        "w 1 0 0 0 short=work SD",
        "w 1 0 0 0 prefixes=1 SD,SE:0:0:0:1:0:0,EE,ED 61",
        "f 1 0 0 0",
        "f 1 0 0 0 ",
        "f 1 0 0 0 80 .",
        "f 1 0 0 0 short=text 80,.",
        "f 1 0 0 0 80,,.",
        "f 1 0 0 0 8,.",
        "f 1 0 0 0 80,..",
        "f 1 0 0 0 !80,.",
        "f 1 0 0 0 80,!.",
        "f 1 0 0 0 80,.,!!-",
        "f 1 0 0 0 80,.,e<!-",
        "f 1 0 0 0 h<80,.",
        "f 1 0 0 0 e<t<80,.",
        "f 1 0 0 0 e<,.",
        "x 1 0 0 0 SD,ED -",
        "w 1 0 0 0 SD",
        "w 1 0 0 0 SD ",
        "w 1 0 0 0 SD,SE:0:0:0,EE,ED 61",
        "w 1 0 0 0 SD,SE:0:0:0:1:0,EE,ED 61",
        "w 1 0 0 0 SD,XX,ED 61",
        "w 1 0 0 0 SD,BAD:1,ED 61",
        "w 1 0 0 0 SD,,ED 61",
        "w 1 0 0 0 SD,ED 61,,62",
        "w 1 0 0 0 SD,ED 100000000",
        "w 1 0 0 0 SD,ED xyz",
        "R 1 0 0 0 80",
        "m",
        "m SD",
        "m SD ",
        "m 1 0 0 0 SD 61",
        "m SD 61 61",
        "m short=stamps SD 61",
        "m short=events SD 61",
        "m fragment=1 SD 61",
        "l",
        "l ",
        "l 0",
        "l 0:",
        "l :0",
        "l 0:0,",
        "l 0:0:0",
        "l +1:0",
        "l --1:0",
        "l 0:+1",
        "l 0:--1",
        "l 0:-",
        "l 0:1.0",
        "l 0:0 0:0",
        "l short=readings 0:0",
        "l short=work 0:0",
        "l prefixes=1 0:0",
    ];
    let got = answers(&["--ordinary"], (requests.join("\n") + "\n").as_bytes());
    assert_eq!(got.len(), requests.len());
    for (request, answer) in requests.iter().zip(got) {
        assert!(answer.starts_with('?'), "{request:?}: {answer}");
    }
    assert_eq!(answers(&[], b"\xff\n")[0].chars().next(), Some('?'));
    assert!(answers(&[], b"").is_empty());
}

#[test]
fn each_answer_comes_before_the_next_request() {
    let mut batch = Command::new(env!("CARGO_BIN_EXE_batch"))
        .stdin(Stdio::piped())
        .stdout(Stdio::piped())
        .spawn()
        .expect("the batch program");
    let mut input = batch.stdin.take().expect("its input");
    let mut output = BufReader::new(batch.stdout.take().expect("its output"));
    for _ in 0..3 {
        input.write_all(b"r 1 0 0 0 800000\n").expect("written");
        input.flush().expect("written");
        let mut answer = String::new();
        output.read_line(&mut answer).expect("an answer");
        assert_eq!(answer, "10 1 - -\n");
    }
    drop(input);
    assert!(batch.wait().expect("its end").success());
}

#[test]
fn events_that_are_none() {
    let Ok(Request::Write { list, .. }) = Request::parse("w 0 0 0 0 BAD,BAD2 -") else {
        panic!("not understood");
    };
    assert_eq!(list.cells, [BAD, BAD2].concat());
    let mut cells = vec![5, 0, 0, 0, 0, 0, 0, 0, 9];
    cells.extend([3, 0, 0, 0, 0, 0, 1, 0, 0]); // a prefix
    cells.extend([0; 9]);
    cells.extend([5, 0]);
    let list = compare::event::Stored {
        cells,
        store: vec![],
    };
    let request = Request::write(compare::lent::Settings::BIT_PACKED, &list);
    assert_eq!(request.to_string(), "w 0 0 0 0 BAD2,BAD2,BAD,BAD -");
}
