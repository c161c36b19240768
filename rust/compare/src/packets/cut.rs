//! Streams cut into pieces, and calls after them.

use super::Call;
use crate::lent::ReaderPart;
use crate::prng::Prng;
use crate::sizes::MAX_STREAM;

/// The longest packet of the radio.
pub const MAX_PACKET: usize = 240;

/// The stream in pieces of 0 to 240 octets, short ones or long ones by chance, and the close.
pub fn at_random(rng: &mut Prng, stream: &[u8]) -> Vec<Call> {
    let longest = *rng.pick(&[2, 5, 20, MAX_PACKET, MAX_PACKET]);
    let mut calls = Vec::new();
    let mut rest = stream;
    while !rest.is_empty() || rng.one_in(4) {
        let (piece, behind) = rest.split_at(rng.between(0, longest).min(rest.len()));
        calls.push(Call::feed(piece));
        rest = behind;
    }
    calls.push(Call::close());
    calls
}

/// The stream octet by octet, and the close.
pub fn by_octets(stream: &[u8]) -> Vec<Call> {
    let pieces = stream.chunks(1).map(Call::feed);
    pieces.chain([Call::close()]).collect()
}

/// Calls after the close: pieces, empty ones too, and closes, with the same memory or with other.
pub fn after_the_close(rng: &mut Prng, calls: &mut Vec<Call>) {
    for _ in 0..rng.between(1, 4) {
        let piece = match rng.below(4) {
            0 => None,
            1 => Some(Vec::new()),
            2 => Some(vec![rng.octet(); rng.between(1, MAX_PACKET)]),
            _ => Some(vec![0; MAX_STREAM + rng.below(2)]),
        };
        calls.push(Call {
            fresh: rng.one_in(2),
            short: rng.one_in(3).then(|| part(rng)),
            piece,
        });
    }
}

/// One call is lent too little, before the close or in it.
pub fn short_once(rng: &mut Prng, calls: &mut [Call]) {
    let close = calls.iter().position(|call| call.piece.is_none());
    let at = rng.between(0, close.unwrap_or(calls.len() - 1));
    calls[at].short = Some(part(rng));
}

/// More pieces before the close, so that it passes 16,384 octets or just does not.
pub fn filled_up(rng: &mut Prng, calls: &mut Vec<Call>) {
    let octets = |call: &Call| call.piece.as_ref().map_or(0, Vec::len);
    let so_far: usize = calls.iter().map(octets).sum();
    let wanted = MAX_STREAM + rng.below(3);
    let close = calls.pop();
    let mut left = wanted.saturating_sub(so_far);
    while left > 0 {
        let size = rng.between(1, 6_000).min(left);
        calls.push(Call::feed(&vec![0; size]));
        left -= size;
    }
    calls.push(Call::feed(&[]));
    calls.extend((0..rng.below(3)).map(|_| Call::feed(&[0])));
    calls.extend(close);
}

fn part(rng: &mut Prng) -> ReaderPart {
    *rng.pick(&[ReaderPart::Events, ReaderPart::Text, ReaderPart::Work])
}
