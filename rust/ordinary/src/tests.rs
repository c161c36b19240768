use crate::sizes::{
    CELLS_PER_EVENT as CELLS, MAX_EVENTS, MAX_STORE, MAX_STREAM, MAX_STRING, MAX_VALUES,
};
use crate::{read, write, ReadReply, Refusal, Settings, WriteReply};

mod fragments;
mod names;
mod packets;
mod readings;
mod values;

/// Work memory that is asked for.
const WORK: usize = 100;

const XSI: &str = "http://www.w3.org/2001/XMLSchema-instance";
const XML: &str = "http://www.w3.org/XML/1998/namespace";

/// An event with its texts.
#[derive(Clone, Debug, PartialEq)]
enum E {
    Sd,
    Ed,
    Se(String, String),
    At(String, String, String),
    Ee,
    Ch(String),
    Cm(String),
    Pi(String, String),
}

use E::{Ed, Ee, Sd};

fn se(name: &str) -> E {
    se_in("", name)
}

fn se_in(uri: &str, name: &str) -> E {
    E::Se(uri.into(), name.into())
}

fn at(name: &str, value: &str) -> E {
    at_in("", name, value)
}

fn at_in(uri: &str, name: &str, value: &str) -> E {
    E::At(uri.into(), name.into(), value.into())
}

fn ch(text: &str) -> E {
    E::Ch(text.into())
}

fn cm(text: &str) -> E {
    E::Cm(text.into())
}

fn pi(target: &str, text: &str) -> E {
    E::Pi(target.into(), text.into())
}

const fn settings(alignment: u32, cookie: u32, comments: u32, instructions: u32) -> Settings {
    Settings {
        alignment,
        cookie,
        comments,
        instructions,
        fragment: 0,
        value_length: 0,
        value_capacity: 0,
        loose: 0,
        prefixes: 0,
        grammar_cap: 0,
    }
}

const BITS: Settings = settings(0, 0, 0, 0);
const BYTES: Settings = settings(1, 0, 0, 0);

fn octets(hex: &str) -> Vec<u8> {
    hex.split_whitespace()
        .map(|octet| u8::from_str_radix(octet, 16).unwrap())
        .collect()
}

/// Lays a list in cells, one text behind the other.
fn lay(list: &[E]) -> (Vec<u32>, Vec<u32>) {
    let (mut cells, mut store) = (Vec::new(), Vec::new());
    for event in list {
        // The kind, and each text with the first of its two cells.
        let (kind, texts): (u32, Vec<(usize, &String)>) = match event {
            Sd => (1, vec![]),
            Ed => (2, vec![]),
            E::Se(uri, name) => (3, vec![(1, uri), (3, name)]),
            E::At(uri, name, value) => (4, vec![(1, uri), (3, name), (7, value)]),
            Ee => (5, vec![]),
            E::Ch(text) => (6, vec![(1, text)]),
            E::Cm(text) => (7, vec![(1, text)]),
            E::Pi(target, text) => (8, vec![(1, target), (3, text)]),
        };
        let mut event = [0; CELLS];
        event[0] = kind;
        for (cell, text) in texts {
            let place = store.len();
            store.extend(text.chars().map(u32::from));
            event[cell] = place as u32;
            event[cell + 1] = (store.len() - place) as u32;
        }
        cells.extend(event);
    }
    (cells, store)
}

fn recover(cells: &[u32], store: &[u32]) -> Vec<E> {
    cells
        .chunks(CELLS)
        .map(|cells| {
            let text = |cell: usize| -> String {
                let place = cells[cell] as usize;
                store[place..place + cells[cell + 1] as usize]
                    .iter()
                    .map(|&code_point| char::from_u32(code_point).unwrap())
                    .collect()
            };
            match cells[0] {
                1 => Sd,
                2 => Ed,
                3 => E::Se(text(1), text(3)),
                4 => E::At(text(1), text(3), text(7)),
                5 => Ee,
                6 => E::Ch(text(1)),
                7 => E::Cm(text(1)),
                8 => E::Pi(text(1), text(3)),
                kind => panic!("kind {kind}"),
            }
        })
        .collect()
}

struct Read {
    reply: ReadReply,
    cells: Vec<u32>,
    store: Vec<u32>,
}

/// Reads with more memory than asked for, none of it zero, and checks what is left in it.
fn do_read(s: Settings, stream: &[u8]) -> Read {
    let mut cells = vec![7; CELLS * MAX_EVENTS + 3];
    let mut store = vec![7; MAX_STORE + 3];
    let mut work = vec![7; WORK + 3];
    let reply = read(s, stream, &mut cells, &mut store, &mut work, WORK);
    if reply.number == 0 {
        assert_eq!(reply.index, 0);
    } else {
        assert_eq!((reply.events, reply.code_points), (0, 0));
    }
    let rest = cells.split_off(CELLS * reply.events as usize);
    assert!(rest.iter().all(|&cell| cell == 0));
    let rest = store.split_off(reply.code_points as usize);
    assert!(rest.iter().all(|&cell| cell == 0));
    assert!(work.iter().all(|&cell| cell == 0));
    Read {
        reply,
        cells,
        store,
    }
}

fn do_write_cells(s: Settings, cells: &[u32], store: &[u32]) -> (WriteReply, Vec<u8>) {
    let mut octets = vec![7; MAX_STREAM + 3];
    let mut work = vec![7; WORK + 3];
    let reply = write(s, &mut octets, cells, store, &mut work, WORK);
    if reply.number == 0 {
        assert_eq!(reply.index, 0);
    } else {
        assert_eq!(reply.octets, 0);
    }
    let rest = octets.split_off(reply.octets as usize);
    assert!(rest.iter().all(|&octet| octet == 0));
    assert!(work.iter().all(|&cell| cell == 0));
    (reply, octets)
}

fn do_write(s: Settings, list: &[E]) -> (WriteReply, Vec<u8>) {
    let (cells, store) = lay(list);
    do_write_cells(s, &cells, &store)
}

/// A whole document around the events of its content.
fn document(inner: Vec<E>) -> Vec<E> {
    let mut list = vec![Sd];
    list.extend(inner);
    list.push(Ed);
    list
}

#[track_caller]
fn both_ways(s: Settings, hex: &str, inner: Vec<E>) {
    let list = document(inner);
    let stream = octets(hex);
    let (reply, written) = do_write(s, &list);
    assert_eq!(reply.number, 0);
    assert_eq!(written, stream);
    let read = do_read(s, &stream);
    assert_eq!(read.reply.number, 0);
    assert_eq!(recover(&read.cells, &read.store), list);
}

#[track_caller]
fn read_refused(s: Settings, hex: &str, refusal: Refusal, index: u32) {
    let reply = do_read(s, &octets(hex)).reply;
    assert_eq!((reply.number, reply.index), (refusal.number(), index));
}

#[track_caller]
fn write_refused(s: Settings, list: &[E], refusal: Refusal, index: u32) {
    let reply = do_write(s, list).0;
    assert_eq!((reply.number, reply.index), (refusal.number(), index));
}

/// Writes and reads back; gives the stream.
#[track_caller]
fn round_trip(s: Settings, list: &[E]) -> Vec<u8> {
    let (reply, stream) = do_write(s, list);
    assert_eq!(reply.number, 0);
    let read = do_read(s, &stream);
    assert_eq!(read.reply.number, 0);
    assert_eq!(recover(&read.cells, &read.store), list);
    stream
}

#[test]
fn k1_to_k7() {
    let k1 = || vec![se("a"), Ee];
    both_ways(BYTES, "80 01 02 61 00", k1());
    both_ways(BITS, "80 40 98 40", k1());

    let k3 = || vec![se("a"), ch("b"), Ee];
    both_ways(BYTES, "80 01 02 61 03 03 62 00", k3());
    both_ways(BITS, "80 40 98 70 36 20", k3());

    both_ways(
        BYTES,
        "80 01 02 61 01 01 02 6B 03 78 01 00",
        vec![se("a"), at("k", "x"), Ee],
    );
    both_ways(
        BYTES,
        "80 01 02 61 02 01 00 01 00 00",
        vec![se("a"), se("a"), Ee, Ee],
    );
    both_ways(
        BYTES,
        "80 01 02 72 02 01 02 70 01 01 02 74 03 31 01 00 01 00 01 00 01 01 00 00 01",
        vec![
            se("r"),
            se("p"),
            at("t", "1"),
            Ee,
            se("p"),
            at("t", "1"),
            Ee,
            Ee,
        ],
    );
}

#[test]
fn k8_to_k12_and_the_other_refusals() {
    read_refused(BYTES, "80 01 02 61 04", Refusal::Code, 2);
    read_refused(BYTES, "80 01 82 00 61 00", Refusal::Number, 1);
    read_refused(BYTES, "80 00 00", Refusal::Loose, 1);
    read_refused(BYTES, "80 01 00", Refusal::Reference, 1);
    read_refused(BYTES, "80 01 02 61 00 00", Refusal::Tail, 4);

    read_refused(BYTES, "", Refusal::Ended, 0);
    read_refused(BYTES, "80", Refusal::Ended, 1);
    read_refused(BYTES, "A0", Refusal::Header, 0);
    read_refused(BYTES, "80 01 01", Refusal::Name, 1);
    read_refused(BITS, "80 40 98 41", Refusal::Tail, 4);
    read_refused(BYTES, "80 01 02 61 01 03 00 01", Refusal::Name, 2);
}

#[test]
fn streams_that_show_a_mistake() {
    // A global hit joins no local table.
    both_ways(
        BYTES,
        "80 01 02 72 02 01 02 61 03 03 78 00 01 00 01 02 62 03 01 00 00 00 03 79 00 00 00 00 00 01",
        vec![
            se("r"),
            se("a"),
            ch("x"),
            Ee,
            se("b"),
            ch("x"),
            Ee,
            se("b"),
            ch("y"),
            Ee,
            se("b"),
            ch("y"),
            Ee,
            Ee,
        ],
    );
    // The empty value joins no table.
    both_ways(
        BYTES,
        "80 01 02 61 01 01 02 6B 02 01 01 01 02 6A 03 78 02 02 01 00 00 02 01 03 00 00",
        vec![
            se("a"),
            at("k", ""),
            at("j", "x"),
            se("a"),
            at("k", "x"),
            Ee,
            Ee,
        ],
    );
    // The width of a URI comes from the number of URIs and the miss.
    both_ways(
        BITS,
        "80 00 5D 40 98 68 04 C4 00",
        vec![se_in("u", "a"), se_in("u", "b"), Ee, Ee],
    );
}

#[test]
fn a_value_number_of_two_octets() {
    let value = |i: usize| format!("v{i}");
    let mut list = vec![Sd, se("r")];
    list.extend((0..300).map(|i| ch(&value(i))));
    list.extend([ch(&value(258)), Ee, Ed]);
    let stream = round_trip(BYTES, &list);
    assert_eq!(stream[stream.len() - 5..], [0, 0, 0x02, 0x01, 1]);
    round_trip(BITS, &list);
}

#[test]
fn refusals_in_their_order() {
    // A hit under AT(*) where a learned production fits is loose after the whole content.
    let child = "80 01 02 61 01 01 02 6B 03 78 01 02 01 00 00";
    let again = format!("{child} 02 01 01 00 01");
    read_refused(BYTES, &again, Refusal::Ended, 4);
    read_refused(BYTES, &format!("{again} 00"), Refusal::Loose, 4);
    read_refused(BYTES, &format!("{again} 03"), Refusal::Ended, 4);
    read_refused(BYTES, &format!("{again} 03 79"), Refusal::Loose, 4);
    // A literal name there is loose at once.
    let literal_again = format!("{child} 02 01 01 02 6B");
    read_refused(BYTES, &literal_again, Refusal::Loose, 4);
    // A local hit where the name has no value.
    let other = "80 01 02 61 01 01 02 6B 03 78 01 01 01 00 00 00";
    read_refused(BYTES, other, Refusal::Reference, 3);

    read_refused(BYTES, "80 01 03 08", Refusal::Character, 1);
    read_refused(BYTES, "80 01 FF FF FF FF 07", Refusal::Limit, 1);
    read_refused(BYTES, "80 01 FF FF FF FF 08", Refusal::Number, 1);
    read_refused(BYTES, "80 01 FF FF FF FF 80", Refusal::Number, 1);
    read_refused(BYTES, "80 01 FF FF FF FF", Refusal::Ended, 1);
    read_refused(BYTES, "80 01 02 FF FF FF FF 07", Refusal::Character, 1);
    read_refused(BYTES, "80 05 02 61", Refusal::Reference, 1);
    read_refused(BYTES, "80 01 02 61 05", Refusal::Code, 2);

    // Literal nil as attribute name of the XMLSchema-instance URI is known, hence loose.
    let literal_nil = "80 01 02 61 01 03 04 6E 69 6C";
    read_refused(BYTES, literal_nil, Refusal::Loose, 2);
    // As element names nil and type are fine.
    both_ways(BYTES, "80 03 00 00 00", vec![se_in(XSI, "nil"), Ee]);
    both_ways(BYTES, "80 03 00 01 00", vec![se_in(XSI, "type"), Ee]);
    both_ways(BYTES, "80 02 00 03 00", vec![se_in(XML, "space"), Ee]);

    // A global hit where a local one exists.
    let global = "80 01 02 61 03 03 78 01 01 01 00 00";
    read_refused(BYTES, global, Refusal::Loose, 3);
    // A literal value that is known.
    let literal = "80 01 02 61 03 03 78 01 01 03 78";
    read_refused(BYTES, literal, Refusal::Loose, 3);
    // CH and EE by their old codes.
    let characters = "80 01 02 61 03 02 01 01 02 02 01 02";
    read_refused(BYTES, characters, Refusal::Loose, 4);
    let end = "80 01 02 72 02 01 02 61 00 01 00 01 00 01 01 00";
    read_refused(BYTES, end, Refusal::Loose, 5);

    read_refused(settings(1, 1, 0, 0), "24 45 58", Refusal::Ended, 0);
    read_refused(settings(1, 1, 0, 0), "24 45 59", Refusal::Header, 0);
    both_ways(
        settings(1, 1, 0, 0),
        "24 45 58 49 80 01 02 61 00",
        vec![se("a"), Ee],
    );
}

#[test]
fn where_the_texts_of_a_reader_lie() {
    let k1 = do_read(BYTES, &octets("80 01 02 61 00"));
    assert_eq!((k1.reply.events, k1.reply.code_points), (4, 100));
    assert_eq!(k1.cells[CELLS..2 * CELLS], [3, 0, 0, 99, 1, 0, 0, 0, 0]);

    // An empty value lies at the end of the store.
    let empty = do_read(BYTES, &octets("80 01 02 61 03 02 00"));
    let third = 2 * CELLS..3 * CELLS;
    assert_eq!(empty.cells[third.clone()], [6, 100, 0, 0, 0, 0, 0, 0, 0]);

    // A hit lies where its entry lies.
    let hit = do_read(BYTES, &octets("80 01 02 61 03 03 78 01 01 00 01"));
    assert_eq!(hit.cells[third.clone()], [6, 100, 1, 0, 0, 0, 0, 0, 0]);
    let fourth = &hit.cells[3 * CELLS..4 * CELLS];
    assert_eq!(fourth, &hit.cells[third.clone()]);
    assert_eq!(hit.reply.code_points, 101);

    // An attribute's value lies behind the place of a prefix, an instruction's text does not.
    let k5 = do_read(BYTES, &octets("80 01 02 61 01 01 02 6B 03 78 01 00"));
    assert_eq!(k5.cells[third.clone()], [4, 0, 0, 100, 1, 0, 0, 101, 1]);
    let kept = settings(1, 0, 0, 1);
    let pi = do_read(kept, &octets("80 00 01 02 61 04 01 74 01 75 00 00"));
    assert_eq!(pi.cells[third], [8, 100, 1, 101, 1, 0, 0, 0, 0]);
}

#[test]
fn comments_and_instructions() {
    both_ways(
        settings(1, 0, 1, 1),
        "80 01 00 01 63 00 01 02 61 04 01 01 74 00 01 02 00 00 00 01 01 01 74 01 64 00",
        vec![cm("c"), se("a"), pi("t", ""), cm(""), Ee, pi("t", "d")],
    );
    // With one of the two kept, the last part has no bits.
    both_ways(
        settings(1, 0, 1, 0),
        "80 01 01 63 00 01 02 61 04 00 01 02 00 00 00",
        vec![cm("c"), se("a"), cm(""), cm(""), Ee],
    );
    both_ways(
        settings(1, 0, 0, 1),
        "80 00 01 02 61 04 01 74 01 75 00 01 01 74 00 00",
        vec![se("a"), pi("t", "u"), Ee, pi("t", "")],
    );

    read_refused(settings(1, 0, 0, 1), "80 01 00", Refusal::Name, 1);
    // A zero pad bit can be the end document.
    let comments = settings(0, 0, 1, 0);
    round_trip(comments, &document(vec![se("a"), Ee]));
    round_trip(comments, &document(vec![se("a"), cm("x"), Ee, cm("y")]));
}

#[test]
fn shapes_that_a_writer_refuses() {
    let kept = settings(1, 0, 1, 1);
    let shape = |list: &[E], index| write_refused(kept, list, Refusal::Shape, index);
    shape(&[], 0);
    shape(&[se("a")], 0);
    shape(&[Sd], 1);
    shape(&[Sd, Sd], 1);
    shape(&[Sd, Ed], 1);
    shape(&[Sd, Ee], 1);
    shape(&[Sd, ch("x")], 1);
    shape(&[Sd, at("k", "x")], 1);
    shape(&[Sd, cm("x"), se("a"), Ee], 4);
    shape(&[Sd, se("a"), Ed], 2);
    shape(&[Sd, se("a"), ch(""), at("k", "x")], 3);
    shape(&[Sd, se("a"), cm(""), at("k", "x")], 3);
    shape(&[Sd, se("a"), se("a"), Ee, at("k", "x")], 4);
    shape(&[Sd, se("a"), Ee, se("a")], 3);
    shape(&[Sd, se("a"), Ee, ch("x")], 3);
    shape(&[Sd, se("a"), Ee, Ed, Ed], 4);
    shape(&[Sd, se("a"), Ee, Ed, cm("")], 4);
    write_refused(settings(1, 0, 0, 1), &[Sd, cm("x")], Refusal::Shape, 1);
    write_refused(settings(1, 0, 1, 0), &[Sd, pi("x", "")], Refusal::Shape, 1);

    let refused = |cells: &[u32], refusal: Refusal, index| {
        let reply = do_write_cells(kept, cells, &[0x61]).0;
        assert_eq!((reply.number, reply.index), (refusal.number(), index));
    };
    let start = [1, 0, 0, 0, 0, 0, 0, 0, 0, 3, 0, 0, 0, 1, 0, 0, 0, 0];
    let with = |tail: &[u32]| [&start[..], tail].concat();
    refused(&with(&[0, 0, 0, 0, 0, 0, 0, 0, 0]), Refusal::Shape, 2);
    refused(&with(&[9, 0, 0, 0, 0, 0, 0, 0, 0]), Refusal::Shape, 2);
    refused(&with(&[5, 0, 0, 0, 0, 0, 0, 0, 1]), Refusal::Shape, 2);
    refused(&with(&[6, 0, 0, 1, 0, 0, 0, 0, 0]), Refusal::Shape, 2);
    refused(&with(&[5, 0, 0, 0, 0, 0, 0, 0]), Refusal::Shape, 2);
    // No prefix is kept, and a start element has no value.
    for cells in [
        [4, 0, 0, 0, 1, 1, 0, 0, 1],
        [4, 0, 0, 0, 1, 0, 1, 0, 1],
        [3, 0, 0, 0, 1, 1, 0, 0, 0],
        [3, 0, 0, 0, 1, 0, 1, 0, 0],
        [3, 0, 0, 0, 1, 0, 0, 1, 0],
        [3, 0, 0, 0, 1, 0, 0, 0, 1],
    ] {
        refused(&with(&cells), Refusal::Shape, 2);
    }
    // A rest after a complete list.
    let end = [5, 0, 0, 0, 0, 0, 0, 0, 0, 2, 0, 0, 0, 0, 0, 0, 0, 0];
    refused(&[&with(&end)[..], &[0]].concat(), Refusal::Shape, 4);

    refused(&with(&[6, 1, 1, 0, 0, 0, 0, 0, 0]), Refusal::Place, 2);
    refused(&with(&[6, 2, 0, 0, 0, 0, 0, 0, 0]), Refusal::Place, 2);
    refused(
        &with(&[6, u32::MAX, 2, 0, 0, 0, 0, 0, 0]),
        Refusal::Place,
        2,
    );
    // PLACE for all strings comes before NAME for the first.
    refused(&with(&[8, 0, 0, 0, 2, 0, 0, 0, 0]), Refusal::Place, 2);
    refused(&with(&[8, 0, 0, 0, 1, 0, 0, 0, 0]), Refusal::Name, 2);
    refused(&with(&[6, 1, 0, 0, 0, 0, 0, 0, 0]), Refusal::Shape, 3);
}

#[test]
fn names_that_a_writer_refuses() {
    write_refused(BYTES, &[Sd, se("")], Refusal::Name, 1);
    write_refused(BYTES, &[Sd, se("a"), at("", "x")], Refusal::Name, 2);
    write_refused(
        BYTES,
        &[Sd, se("a"), at_in(XSI, "nil", "")],
        Refusal::Name,
        2,
    );
    write_refused(
        BYTES,
        &[Sd, se("a"), at_in(XSI, "type", "")],
        Refusal::Name,
        2,
    );
    round_trip(
        BYTES,
        &document(vec![
            se("a"),
            at_in(XSI, "schemaLocation", ""),
            at("nil", ""),
            Ee,
        ]),
    );
}

/// The second attribute of one URI and local name in a start tag is SHAPE at its index.
#[test]
fn equal_attributes() {
    let shape = |list: &[E], index| {
        for s in [BITS, BYTES, settings(1, 0, 1, 1)] {
            write_refused(s, list, Refusal::Shape, index);
        }
    };
    let (k, j) = (|value| at("k", value), |value| at("j", value));
    shape(&[Sd, se("a"), k("x"), k("x"), Ee, Ed], 3);
    shape(&[Sd, se("a"), k("x"), k("y"), Ee, Ed], 3);
    shape(&[Sd, se("a"), k(""), k(""), Ee, Ed], 3);
    shape(&[Sd, se("a"), k("x"), j("x"), k(""), Ee, Ed], 4);
    shape(&[Sd, se("a"), at("a", ""), at("a", ""), Ee, Ed], 3);
    let base = at_in(XML, "base", "x");
    shape(&[Sd, se("a"), base.clone(), base, Ee, Ed], 3);
    // In a child, and in an element that comes again.
    shape(&[Sd, se("a"), k(""), se("b"), j(""), k(""), k("")], 6);
    let again = [Sd, se("a"), se("b"), k(""), Ee, se("b"), k(""), k("")];
    shape(&again, 7);

    // By the learned code, and by AT(*): before its LOOSE.
    let first = "80 01 02 61 01 01 02 6B 03 78";
    read_refused(BYTES, &format!("{first} 00 02"), Refusal::Shape, 3);
    read_refused(BYTES, &format!("{first} 00 00"), Refusal::Shape, 3);
    let any = format!("{first} 01 01 01 00 01");
    read_refused(BYTES, &format!("{any} 02"), Refusal::Shape, 3);
    read_refused(BYTES, &format!("{any} 00"), Refusal::Shape, 3);
    let mistake = "80 01 02 61 01 01 02 6B 02 01 01 01 02 6A 03 78 01 01";
    read_refused(BYTES, mistake, Refusal::Shape, 4);
    // Another URI is another name.
    let other = "80 01 02 61 01 01 02 6B 03 78 01 01 00 01 75 02 6B 02";
    both_ways(
        BYTES,
        &format!("{other} 02 00"),
        vec![se("a"), k("x"), at_in("u", "k", ""), Ee],
    );
    read_refused(BYTES, &format!("{other} 00 02"), Refusal::Shape, 4);
    read_refused(BYTES, &format!("{other} 01 02"), Refusal::Shape, 4);
    // The next element starts anew.
    both_ways(
        BYTES,
        "80 01 02 61 01 01 02 6B 03 78 01 02 01 00 00 01 00 02 00 00",
        vec![se("a"), k("x"), se("a"), k("x"), Ee, Ee],
    );
}

/// SHAPE of an equal attribute comes behind all that its content is refused for.
#[test]
fn equal_attributes_behind_their_content() {
    let refused = |value: &str, refusal| {
        let list = [Sd, se("a"), at("k", "x"), at("k", value), Ee, Ed];
        write_refused(BYTES, &list, refusal, 3);
    };
    refused("\0", Refusal::Character);
    refused(&"y".repeat(MAX_STRING), Refusal::Shape);
    refused(&"y".repeat(MAX_STRING + 1), Refusal::Limit);
    let (mut cells, store) = lay(&[Sd, se("a"), at("k", "x"), at("k", "x"), Ee, Ed]);
    cells[3 * CELLS + 7] = store.len() as u32;
    let reply = do_write_cells(BYTES, &cells, &store).0;
    assert_eq!((reply.number, reply.index), (15, 3));

    // A value too many, and one too long for the store.
    let mut list = vec![Sd, se("r")];
    list.extend((0..MAX_VALUES).map(|i| ch(&format!("v{i}"))));
    list.extend([se("a"), at("k", "v7"), at("k", "v7")]);
    write_refused(BYTES, &list, Refusal::Shape, MAX_VALUES as u32 + 4);
    *list.last_mut().unwrap() = at("k", "w");
    write_refused(BYTES, &list, Refusal::Limit, MAX_VALUES as u32 + 4);
    let long = |first: &str| first.to_string() + &"y".repeat(MAX_STRING - 1);
    let mut list = vec![Sd, se("r"), ch(&long("1")), ch(&long("2")), ch(&long("3"))];
    list.extend([se("a"), at("k", ""), at("k", &long("1"))]);
    write_refused(BYTES, &list, Refusal::Shape, 7);
    *list.last_mut().unwrap() = at("k", &long("4"));
    write_refused(BYTES, &list, Refusal::Limit, 7);

    let first = "80 01 02 61 01 01 02 6B 03 78";
    for (second, refusal) in [
        ("00", Refusal::Ended),
        ("00 03", Refusal::Ended),
        ("00 03 78", Refusal::Loose),
        ("00 01", Refusal::Loose),
        ("00 03 00", Refusal::Character),
        ("00 82 00", Refusal::Number),
        ("00 83 20", Refusal::Limit),
        ("01 01 01 00 01", Refusal::Ended),
        ("01 01 01 00 01 01", Refusal::Loose),
        ("01 01 01 00 02", Refusal::Reference),
        ("01 01 05", Refusal::Reference),
        ("01 01 01 02 6B", Refusal::Loose),
        ("01 01 00 00", Refusal::Loose),
        ("01 04", Refusal::Code),
        ("02", Refusal::Code),
    ] {
        read_refused(BYTES, &format!("{first} {second}"), refusal, 3);
    }
}

/// As many attributes as there are names to have, and then each of them again.
#[test]
fn many_attributes_in_one_tag() {
    let name = |i: usize| format!("k{i}");
    let mut list = vec![Sd, se("a")];
    list.extend((0..121).map(|i| at(&name(i), "")));
    for s in [BITS, BYTES] {
        let mut whole = list.clone();
        whole.extend([Ee, Ed]);
        round_trip(s, &whole);
        for i in 0..121 {
            let mut again = list.clone();
            again.push(at(&name(i), "x"));
            write_refused(s, &again, Refusal::Shape, 123);
        }
        // And all of them in each of many elements.
        let mut many = list.clone();
        for _ in 0..20 {
            many.push(se("a"));
            many.extend((0..121).rev().map(|i| at(&name(i), "")));
        }
        many.extend(vec![Ee; 21]);
        many.push(Ed);
        round_trip(s, &many);
    }
}

#[test]
fn room_settings_and_length_in_this_order() {
    let long = vec![0x80; MAX_STREAM + 1];
    let bad = settings(2, 0, 0, 0);
    for (cells, store, work) in [(1, 0, 0), (0, 1, 0), (0, 0, 1)] {
        let mut cells = vec![7; CELLS * MAX_EVENTS - cells];
        let mut store = vec![7; MAX_STORE - store];
        let mut work = vec![7; WORK - work];
        let reply = read(bad, &long, &mut cells, &mut store, &mut work, WORK);
        assert_eq!((reply.number, reply.index), (1, 0));
        for memory in [cells, store, work] {
            assert!(memory.iter().all(|&cell| cell == 0));
        }
    }
    for (octets, work) in [(1, 0), (0, 1)] {
        let mut octets = vec![7; MAX_STREAM - octets];
        let mut work = vec![7; WORK - work];
        let reply = write(bad, &mut octets, &[], &[], &mut work, WORK);
        assert_eq!((reply.number, reply.index), (1, 0));
        assert!(octets.iter().all(|&octet| octet == 0));
        assert!(work.iter().all(|&cell| cell == 0));
    }
    let mut all = vec![
        bad,
        settings(0, 2, 0, 0),
        settings(0, 0, u32::MAX, 0),
        settings(0, 0, 0, 3),
    ];
    for number in [1, 2, 2_049, u32::MAX] {
        for place in 0..3 {
            let mut s = BYTES;
            *[&mut s.loose, &mut s.prefixes, &mut s.grammar_cap][place] = number;
            all.push(s);
        }
    }
    for bad in all {
        assert_eq!(do_read(bad, &long).reply.number, 2);
        assert_eq!(do_write(bad, &[]).0.number, 2);
    }
    assert_eq!(do_read(BYTES, &long).reply.number, 3);
    assert_eq!(do_read(BYTES, &long[1..]).reply.number, 9);
}

#[test]
fn open_elements() {
    let nested = |depth: usize| {
        let mut list = vec![Sd];
        list.extend(vec![se("a"); depth]);
        list.extend(vec![Ee; depth]);
        list.push(Ed);
        list
    };
    for s in [BITS, BYTES] {
        round_trip(s, &nested(100));
        write_refused(s, &nested(101), Refusal::Limit, 101);
    }
    // SE(*) once in the start tag, then the learned SE(a).
    let mut stream = octets("80 01 02 61 02 01 00");
    stream.extend([0; 98]);
    assert_eq!(do_read(BYTES, &stream).reply.number, 5);
    stream.push(0);
    let reply = do_read(BYTES, &stream).reply;
    assert_eq!((reply.number, reply.index), (12, 101));
}

#[test]
fn lengths_of_strings() {
    for s in [BITS, settings(1, 0, 1, 1)] {
        let x = |length| "x".repeat(length);
        let longest = x(MAX_STRING);
        round_trip(
            s,
            &document(vec![se_in(&longest, &longest), ch(&longest), Ee]),
        );
        round_trip(s, &document(vec![se("a"), at(&longest, &longest), Ee]));
        write_refused(s, &[Sd, se(&x(MAX_STRING + 1))], Refusal::Limit, 1);
        write_refused(s, &[Sd, se_in(&x(MAX_STRING + 1), "a")], Refusal::Limit, 1);
        write_refused(s, &[Sd, se("a"), ch(&x(MAX_STRING + 1))], Refusal::Limit, 2);
        write_refused(
            s,
            &[Sd, se("a"), at("k", &x(MAX_STRING + 1))],
            Refusal::Limit,
            2,
        );
    }
    read_refused(BYTES, "80 01 81 20", Refusal::Ended, 1);
    read_refused(BYTES, "80 01 82 20", Refusal::Limit, 1);
    read_refused(BYTES, "80 01 02 61 03 82 20", Refusal::Ended, 2);
    read_refused(BYTES, "80 01 02 61 03 83 20", Refusal::Limit, 2);
}

#[test]
fn code_points() {
    let good = [
        0x9, 0xA, 0xD, 0x20, 0xD7FF, 0xE000, 0xFFFD, 0x1_0000, 0x10_FFFF,
    ];
    let bad = [
        0,
        0x8,
        0xB,
        0xC,
        0xE,
        0x1F,
        0xD800,
        0xDFFF,
        0xFFFE,
        0xFFFF,
        0x11_0000,
        0x7FFF_FFFF,
        u32::MAX,
    ];
    let cells = [
        [1, 0, 0, 0, 0, 0, 0, 0, 0],
        [3, 0, 0, 0, 1, 0, 0, 0, 0],
        [6, 1, 1, 0, 0, 0, 0, 0, 0],
        [5, 0, 0, 0, 0, 0, 0, 0, 0],
        [2, 0, 0, 0, 0, 0, 0, 0, 0],
    ]
    .concat();
    for s in [BITS, BYTES] {
        for code_point in good {
            let (reply, stream) = do_write_cells(s, &cells, &[0x61, code_point]);
            assert_eq!(reply.number, 0);
            let read = do_read(s, &stream);
            assert_eq!(read.store[99..], [0x61, code_point]);
        }
        for code_point in bad {
            let reply = do_write_cells(s, &cells, &[0x61, code_point]).0;
            assert_eq!((reply.number, reply.index), (8, 2));
        }
    }
    read_refused(BYTES, "80 01 02 FF AF 03", Refusal::Ended, 2);
    read_refused(BYTES, "80 01 02 80 B0 03", Refusal::Character, 1);
}

#[test]
fn entries_of_the_string_tables() {
    let uris = |count: usize| {
        let mut list = vec![Sd, se("a")];
        list.extend((0..count).map(|i| at_in(&format!("u{i}"), "k", "")));
        list.extend([Ee, Ed]);
        list
    };
    let names = |count: usize| {
        let mut list = vec![Sd, se("a")];
        list.extend((0..count).map(|i| at(&format!("k{i}"), "")));
        list.extend([Ee, Ed]);
        list
    };
    let values = |count: usize| {
        let mut list = vec![Sd, se("a")];
        list.extend((0..count).map(|i| ch(&format!("v{i}"))));
        list.extend([ch("v0"), Ee, Ed]);
        list
    };
    for s in [BITS, BYTES] {
        round_trip(s, &uris(13));
        write_refused(s, &uris(14), Refusal::Limit, 15);
        round_trip(s, &names(121));
        write_refused(s, &names(122), Refusal::Limit, 123);
        round_trip(s, &values(MAX_VALUES));
        write_refused(s, &values(MAX_VALUES + 1), Refusal::Limit, 2050);
    }

    // The reader's seventeenth URI: LIMIT before the local name.
    let list = uris(13);
    let stream = round_trip(BYTES, &list);
    let mut stream = stream[..stream.len() - 2].to_vec();
    stream.extend([13, 1, 0, 1, 0x76]);
    let reply = do_read(BYTES, &stream).reply;
    assert_eq!((reply.number, reply.index), (12, 15));
}

#[test]
fn grammars_and_learned_productions() {
    let grammars = |count: usize| {
        let mut list = vec![Sd, se("r")];
        for i in 1..count {
            list.extend([se(&format!("e{i}")), Ee]);
        }
        list.extend([Ee, Ed]);
        list
    };
    // Eight children learn 64 productions each: the child itself, 62 attributes and its end.
    let learned = |last: &[E]| {
        let mut list = vec![Sd, se("r")];
        for i in 0..8 {
            list.push(se(&format!("e{i}")));
            list.extend((0..62).map(|i| at(&format!("k{i}"), "")));
            list.push(Ee);
        }
        list.extend_from_slice(last);
        list
    };
    for s in [BITS, BYTES] {
        round_trip(s, &grammars(64));
        write_refused(s, &grammars(65), Refusal::Limit, 128);
        round_trip(s, &learned(&[Ee, Ed]));
        write_refused(s, &learned(&[ch("")]), Refusal::Limit, 514);
    }
}

#[test]
fn number_of_events() {
    let list = |characters: usize| {
        let mut list = vec![Sd, se("a")];
        list.extend(vec![ch(""); characters]);
        list.extend([Ee, Ed]);
        list
    };
    for s in [BITS, BYTES] {
        round_trip(s, &list(MAX_EVENTS - 4));
        write_refused(s, &list(MAX_EVENTS - 3), Refusal::Limit, 4096);
        // The list ends early, and there is no event that passes the limit.
        let early = &list(MAX_EVENTS)[..MAX_EVENTS];
        write_refused(s, early, Refusal::Shape, 4096);
        // The limit comes before SHAPE.
        let mut more = list(MAX_EVENTS - 4);
        more.push(Sd);
        write_refused(s, &more, Refusal::Limit, 4096);
    }

    let mut stream = octets("80 01 02 61 03 02 01 01 02");
    for _ in 0..MAX_EVENTS - 6 {
        stream.extend([0, 2]);
    }
    stream.push(1);
    let read = do_read(BYTES, &stream);
    assert_eq!((read.reply.number, read.reply.events), (0, 4096));
    stream.push(0);
    let reply = do_read(BYTES, &stream).reply;
    assert_eq!((reply.number, reply.index), (13, 4096));
    // One more: no room for the end document, which takes no bits.
    stream.truncate(stream.len() - 2);
    stream.extend([0, 2, 1]);
    let reply = do_read(BYTES, &stream).reply;
    assert_eq!((reply.number, reply.index), (12, 4096));
}

#[test]
fn the_text_store_and_the_length_of_a_stream() {
    let s = settings(1, 0, 1, 0);
    // 99 initial code points, the name, and comments up to the rest.
    let list = |rest: &str| {
        let mut list = vec![Sd, se("a")];
        list.extend(vec![cm(&"x".repeat(MAX_STRING)); 3]);
        list.extend([cm(rest), Ee, Ed]);
        list
    };
    let rest = MAX_STORE - 100 - 3 * MAX_STRING;
    let stream = round_trip(s, &list(&"x".repeat(rest)));
    assert_eq!(do_read(s, &stream).reply.code_points, 16_384);
    write_refused(s, &list(&"x".repeat(rest + 1)), Refusal::Limit, 5);

    // Code points from 128 on take one octet more.
    let spare = MAX_STREAM - stream.len();
    let wide = |count: usize| "é".repeat(count) + &"x".repeat(rest - count);
    assert_eq!(round_trip(s, &list(&wide(spare))).len(), MAX_STREAM);
    write_refused(s, &list(&wide(spare + 1)), Refusal::Long, 0);
}

/// A small xorshift generator.
struct Random(u64);

impl Random {
    fn below(&mut self, n: u64) -> usize {
        self.0 ^= self.0 << 13;
        self.0 ^= self.0 >> 7;
        self.0 ^= self.0 << 17;
        ((self.0 >> 11) % n) as usize
    }

    fn pick<'a>(&mut self, from: &[&'a str]) -> &'a str {
        from[self.below(from.len() as u64)]
    }

    /// A well-formed list.
    fn list(&mut self, s: Settings) -> Vec<E> {
        let uris = ["", "", "u", "v", XML, XSI];
        let names = ["a", "b", "c", "id", "lang", "schemaLocation"];
        let values = VALUES;
        let mut list = vec![Sd];
        let mut depth = 0;
        let mut in_tag = false;
        let mut more = 3 + self.below(40);
        loop {
            let kind = if list.len() >= more && depth > 0 {
                4
            } else {
                self.below(7)
            };
            match kind {
                0 if s.comments == 1 => list.push(cm(self.pick(&values))),
                1 if s.instructions == 1 => list.push(pi(self.pick(&names), self.pick(&values))),
                2 if more > 0 => {
                    list.push(se_in(self.pick(&uris), self.pick(&names)));
                    depth += 1;
                    in_tag = true;
                    continue;
                }
                3 if in_tag => {
                    let (uri, name) = (self.pick(&uris), self.pick(&names));
                    if !tag_has(&list, uri, name) {
                        list.push(at_in(uri, name, self.pick(&values)));
                    }
                    continue;
                }
                4 if depth > 0 => {
                    list.push(Ee);
                    depth -= 1;
                    if depth == 0 {
                        more = 0;
                    }
                }
                5 if depth > 0 => list.push(ch(self.pick(&values))),
                6 if more == 0 => {
                    list.push(Ed);
                    return list;
                }
                _ => continue,
            }
            in_tag = false;
        }
    }
}

const VALUES: [&str; 6] = ["", "a", "b", "xyz", "é\u{1F600}", "id"];

/// Whether the start tag at the end of a list has an attribute of this name.
fn tag_has(list: &[E], uri: &str, name: &str) -> bool {
    let mut tag = list.iter().rev().take_while(|e| !matches!(e, E::Se(..)));
    tag.any(|e| matches!(e, E::At(u, n, _) if u == uri && n == name))
}

#[test]
fn random_lists_and_damaged_streams() {
    let mut random = Random(0x9E37_79B9_7F4A_7C15);
    let mut equal = 0;
    for round in 0..500 {
        let s = settings(round & 1, round >> 1 & 1, round >> 2 & 1, round >> 3 & 1);
        let list = random.list(s);
        let mut stream = round_trip(s, &list);

        // An attribute once more, somewhere behind it in its tag.
        let is_attribute = |&i: &usize| matches!(list[i], E::At(..));
        let attributes: Vec<usize> = (0..list.len()).filter(is_attribute).collect();
        if !attributes.is_empty() {
            let first = attributes[random.below(attributes.len() as u64)];
            let mut second = first + 1;
            while is_attribute(&second) && random.below(3) > 0 {
                second += 1;
            }
            let mut twice = list.clone();
            twice.insert(second, list[first].clone());
            if let E::At(_, _, value) = &mut twice[second] {
                *value = random.pick(&VALUES).into();
            }
            write_refused(s, &twice, Refusal::Shape, second as u32);
            equal += 1;
        }

        // Damage that is accepted must be the strict form of another list.
        let at = random.below(stream.len() as u64);
        stream[at] ^= 1 << random.below(8);
        let read = do_read(s, &stream);
        if read.reply.number == 0 {
            assert_ne!(recover(&read.cells, &read.store), list);
            let (reply, written) = do_write_cells(s, &read.cells, &read.store);
            assert_eq!(reply.number, 0);
            assert_eq!(written, stream);
        }
        // No stream is the beginning of another.
        stream.truncate(at);
        assert_ne!(do_read(s, &stream).reply.number, 0);
    }
    assert!(equal > 100, "{equal}");
}
