use super::{
    at, both_ways, ch, cm, document, pi, read_refused, round_trip, se, settings, write_refused, Ed,
    Ee, Sd, E,
};
use crate::{Refusal, Settings};

const fn fragment(s: Settings) -> Settings {
    Settings { fragment: 1, ..s }
}

const BITS: Settings = fragment(super::BITS);
const BYTES: Settings = fragment(super::BYTES);

#[test]
fn no_element_and_one() {
    both_ways(BYTES, "80 01", vec![]);
    both_ways(BITS, "80 80", vec![]);
    both_ways(BYTES, "80 00 01 02 61 00 02", vec![se("a"), Ee]);
    both_ways(BITS, "80 20 4C 24", vec![se("a"), Ee]);
}

#[test]
fn names_that_come_again() {
    let list = vec![se("a"), Ee, se("b"), Ee, se("a"), Ee];
    both_ways(BYTES, "80 00 01 02 61 00 01 01 02 62 00 01 00 03", list);
    // SE(*) for a learned name.
    read_refused(BYTES, "80 00 01 02 61 00 01 01 00", Refusal::Loose, 3);
    // It is learned before the child is read, and the child's own grammar is another.
    let nested = vec![se("a"), se("a"), Ee, Ee, se("a"), Ee];
    both_ways(BYTES, "80 00 01 02 61 02 01 00 01 00 00 00 00 02", nested);
}

/// The parts of a code with comments and instructions kept, or one of them.
#[test]
fn comments_and_instructions() {
    let comments = fragment(settings(1, 0, 1, 0));
    let instructions = fragment(settings(1, 0, 0, 1));
    let all = fragment(settings(1, 0, 1, 1));
    both_ways(comments, "80 02 01 63 01", vec![cm("c")]);
    both_ways(instructions, "80 02 01 74 00 01", vec![pi("t", "")]);
    both_ways(all, "80 02 01 01 74 00 01", vec![pi("t", "")]);
    both_ways(
        all,
        "80 00 01 02 61 00 03 00 01 63 00 00 03 01 01 74 00 02",
        vec![se("a"), Ee, cm("c"), se("a"), Ee, pi("t", "")],
    );
    read_refused(all, "80 03", Refusal::Code, 1);
    read_refused(all, "80 02 02", Refusal::Code, 1);
    read_refused(comments, "80 03", Refusal::Code, 1);
}

#[test]
fn streams_that_are_refused() {
    for (hex, refusal, index) in [
        ("80", Refusal::Ended, 1),
        ("80 02", Refusal::Code, 1),
        ("80 01 00", Refusal::Tail, 2),
        ("80 00 01 02 61 00", Refusal::Ended, 3),
        ("80 00 01 02 61 00 03", Refusal::Code, 3),
        ("80 00 00", Refusal::Ended, 1),
    ] {
        read_refused(BYTES, hex, refusal, index);
    }
    read_refused(BITS, "80 C0", Refusal::Tail, 2);
}

#[test]
fn shapes() {
    let a = || vec![Sd, se("a"), Ee];
    for (list, index) in [
        (vec![Sd, ch("x"), Ed], 1),
        (vec![Sd, at("k", ""), Ed], 1),
        (vec![Sd, Ee, Ed], 1),
        (vec![Sd, Sd], 1),
        (vec![Sd], 1),
        (vec![], 0),
        (vec![Sd, se("a"), Ed], 2),
        (vec![Sd, Ed, Ed], 2),
        (vec![Sd, Ed, se("a")], 2),
        (vec![Sd, cm("c"), Ed], 1),
        ([a(), vec![ch("")]].concat(), 3),
        ([a(), vec![at("k", "")]].concat(), 3),
        ([a(), vec![Ee]].concat(), 3),
        (a(), 3),
    ] {
        write_refused(BYTES, &list, Refusal::Shape, index);
        write_refused(BITS, &list, Refusal::Shape, index);
    }
    let twice = document(vec![se("a"), Ee, se("a"), Ee]);
    round_trip(BYTES, &twice);
    write_refused(super::BYTES, &twice, Refusal::Shape, 3);
    write_refused(super::BYTES, &document(vec![]), Refusal::Shape, 1);
}

#[test]
fn settings_numbers() {
    for fragment in [2, 3, u32::MAX] {
        let s = Settings { fragment, ..BYTES };
        write_refused(s, &[], Refusal::Settings, 0);
        read_refused(s, "", Refusal::Settings, 0);
    }
}

/// Elements beside each other.
fn tops(count: usize, inner: &[E]) -> Vec<E> {
    let mut list = Vec::new();
    for k in 0..count {
        list.push(se(&format!("e{k}")));
        list.extend_from_slice(inner);
        list.push(Ee);
    }
    list
}

/// Fragment content has no element grammar, but its productions are counted.
#[test]
fn sizes() {
    let attributes: Vec<E> = (0..20).map(|k| at(&format!("k{k}"), "")).collect();
    let mut nested = vec![se("a"); 100];
    nested.extend(vec![Ee; 100]);
    for s in [BITS, BYTES] {
        round_trip(s, &document(tops(64, &[])));
        write_refused(s, &document(tops(65, &[])), Refusal::Limit, 129);

        round_trip(s, &document(tops(23, &attributes)));
        write_refused(s, &document(tops(24, &attributes)), Refusal::Limit, 513);
        let mut most = tops(23, &attributes);
        most.push(se("e23"));
        most.extend_from_slice(&attributes[..4]);
        most.push(Ee);
        round_trip(s, &document(most));

        let twice = [nested.clone(), nested.clone()].concat();
        round_trip(s, &document(twice.clone()));
        let mut deeper = twice.clone();
        deeper.insert(300, se("a"));
        write_refused(s, &document(deeper), Refusal::Limit, 301);
    }
}
