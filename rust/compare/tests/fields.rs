//! n-bit fields in streams: those that end with what is lent, those that are cut, and the bits that
//! the writer leaves behind them.

#![forbid(unsafe_code)]

use compare::check::{is_strict_form, read_is_refused};
use compare::encode::{encode, width, Encoded, Shape};
use compare::event::{characters, document, element, Event};
use compare::lent::{ReaderMemory, Settings, BOTH, ENDED};

const SETTINGS: [Settings; 2] = [Settings::BIT_PACKED, Settings::BYTE_ALIGNED];

/// An element with `count` values, each of which comes again: choices of 0 to 11 bits.
fn values(count: usize) -> Vec<Event> {
    let mut inner = vec![element("", "a")];
    for k in 0..count {
        inner.push(characters(&format!("{k:03}")));
        inner.push(characters(&format!("{:03}", k / 2)));
    }
    inner.push(Event::EndElement);
    document(inner)
}

/// The choices of a stream that take bits: the event's index, the first bit, and the bit behind.
fn choices(strict: &Encoded) -> Vec<(usize, usize, usize)> {
    let mut part = strict.clone();
    part.fields.clear();
    let mut found = Vec::new();
    for field in &strict.fields {
        let (_, from) = part.octets_and_bits();
        part.fields.push(field.clone());
        let (_, to) = part.octets_and_bits();
        match field.shape {
            Shape::Choice { among, .. } if width(among) > 0 => found.push((field.event, from, to)),
            _ => {}
        }
    }
    found
}

/// The first octets are lent, and others behind them are not: whatever those are, the answer and
/// the memory that is left are the same.
#[test]
fn a_field_that_ends_with_what_is_lent() {
    for settings in SETTINGS {
        let strict = encode(settings, &values(1_100));
        let whole = strict.octets();
        let ends = choices(&strict).into_iter().map(|(_, _, to)| to);
        let ends: Vec<usize> = ends
            .filter(|to| to % 8 == 0 && to / 8 < whole.len())
            .collect();
        assert!(ends.len() > 40);
        for octets in ends.into_iter().map(|to| to / 8).rev().take(40) {
            let mut behind = [whole.clone(), whole.clone(), whole.clone()];
            behind[1][octets..].fill(0x00);
            behind[2][octets..].fill(0xFF);
            for codec in BOTH {
                let answers = behind.each_ref().map(|stream| {
                    let mut memory = ReaderMemory::new();
                    let reply = memory.read(codec, settings, &stream[..octets]);
                    assert_eq!(
                        (reply.number, reply.index as usize),
                        (ENDED, strict.event_at(octets))
                    );
                    assert_eq!(memory.fault(&reply), None);
                    reply
                });
                assert!(answers[0] == answers[1] && answers[0] == answers[2]);
            }
        }
    }
}

/// A choice of which some bits are there and some are not is ENDED, whatever the bits are.
#[test]
fn a_field_that_is_cut() {
    for settings in SETTINGS {
        let strict = encode(settings, &values(1_100));
        let whole = strict.octets();
        let mut bits_there = [0; 16];
        for (event, from, to) in choices(&strict).into_iter().rev() {
            for octets in from / 8 + 1..to.div_ceil(8) {
                let there = 8 * octets - from;
                bits_there[there] += 1;
                if bits_there[there] > 3 {
                    continue;
                }
                for number in [0, 1, 0x5555, 0xAAAA, 0xFFFF] {
                    let mut stream = whole[..octets].to_vec();
                    for k in 0..there {
                        let bit = from + k;
                        stream[bit / 8] &= !(0x80 >> (bit % 8));
                        stream[bit / 8] |= ((number >> k & 1) as u8) << (7 - bit % 8);
                    }
                    read_is_refused(settings, &stream, ENDED, event as u32);
                }
            }
        }
        // Bit-packed, each count of bits up to 8 of 9; byte-aligned, one of two octets.
        let least = if settings.byte_aligned() { 8..9 } else { 1..9 };
        assert!(
            least.into_iter().all(|there| bits_there[there] > 0),
            "{bits_there:?}"
        );
    }
}

/// Behind the last field the bits of its octet and all other octets are zero, wherever it ends.
#[test]
fn bits_behind_a_written_field() {
    for settings in SETTINGS {
        let mut ends = [false; 8];
        for count in 0..40 {
            let list = values(count);
            let (octets, bits) = encode(settings, &list).octets_and_bits();
            ends[bits % 8] = true;
            is_strict_form(settings, &octets, &list);
        }
        let expected = if settings.byte_aligned() { 1 } else { 8 };
        assert_eq!(ends.iter().filter(|&&end| end).count(), expected);
    }
}
