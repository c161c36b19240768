//! Times n-bit fields at widths 1 to 16 and all eight positions, read and written, bit-packed and
//! byte-aligned.
//!
//! The library exports no function of a field, so its code stands here once more in Rust,
//! statement by statement: `now` is that of `crates/read_field` and `crates/write_field`, `before`
//! the one that they had before P4, and `ordinary` shifts and masks as one would write them. All
//! three first have to agree. Rust tests each index, which the library's compiled code does not.
//!
//! A time is that of the fastest of many runs, in nanoseconds a field. A choice is a number whose
//! width is found from the count.

#![forbid(unsafe_code)]

use std::hint::black_box;
use std::time::Instant;

/// What stands at a position: the number and the position after it; none where the stream ends.
type Found = Option<(u32, usize)>;

/// A body is called and not taken into the loop that times it.
struct Code {
    read: fn(bool, &[u8], usize, u32) -> Found,
    write: fn(bool, &mut [u8], usize, u32, u32) -> usize,
    width: fn(u32) -> u32,
}

mod now {
    use super::Found;

    fn octet_at(s: &[u8], i: usize) -> u32 {
        u32::from(s[i])
    }

    fn bits(s: &[u8], at: usize, n: u32) -> Found {
        let next = at + n as usize;
        if 8 * s.len() < next {
            return None;
        }
        if next <= at {
            return Some((0, next));
        }
        let first = at / 8;
        let last = (next - 1) / 8;
        let high = octet_at(s, first);
        let middle = octet_at(s, (first + last) / 2);
        let low = octet_at(s, last);
        let window = high * 65536 + middle * 256 + low;
        let power: u32 = 1 << n;
        Some(((window >> (7 - (next - 1) % 8)) & (power - 1), next))
    }

    fn exchanged(x: u32) -> u32 {
        (x & 255) * 256 + (x >> 8)
    }

    #[inline(never)]
    pub fn read(aligned: bool, s: &[u8], at: usize, n: u32) -> Found {
        if aligned {
            let size = n.div_ceil(8) * 8;
            return bits(s, at, size).map(|(value, next)| (exchanged(value << (16 - size)), next));
        }
        bits(s, at, n)
    }

    fn put_part(buf: &mut [u8], place: usize, o: u32) -> usize {
        let i = place / 8;
        let after = place - place % 8 + 8;
        if buf.len() <= i {
            return after;
        }
        buf[i] = (u32::from(buf[i]) + o) as u8;
        after
    }

    fn put_bits(buf: &mut [u8], at: usize, n: u32, v: u32) -> usize {
        let next = at + n as usize;
        let window = v << (24 - (at % 8) as u32 - n);
        if next <= at {
            return next;
        }
        let second = put_part(buf, at, window >> 16);
        if next <= second {
            return next;
        }
        let third = put_part(buf, second, (window >> 8) & 255);
        if next <= third {
            return next;
        }
        put_part(buf, third, window & 255);
        next
    }

    #[inline(never)]
    pub fn write(aligned: bool, buf: &mut [u8], at: usize, n: u32, v: u32) -> usize {
        if aligned {
            let size = n.div_ceil(8) * 8;
            return put_bits(buf, at, size, exchanged(v) >> (16 - size));
        }
        put_bits(buf, at, n, v)
    }

    #[inline(never)]
    pub fn width(m: u32) -> u32 {
        if m == 0 {
            return 0;
        }
        32 - u32::leading_zeros(m - 1)
    }
}

mod before {
    use super::Found;

    fn octet_or_zero(s: &[u8], i: usize) -> u32 {
        if i < s.len() {
            return u32::from(s[i]);
        }
        0
    }

    fn peek(s: &[u8], at: usize) -> u32 {
        let high = octet_or_zero(s, at / 8);
        let low = octet_or_zero(s, at / 8 + 1);
        ((high * 256 + low) >> (8 - at % 8)) % 256
    }

    fn bits(s: &[u8], at: usize, n: u32) -> Found {
        let next = at + n as usize;
        if 8 * s.len() < next {
            return None;
        }
        if n <= 8 {
            return Some((peek(s, at) >> (8 - n), next));
        }
        let high = peek(s, at);
        let low = peek(s, at + 8);
        Some(((high * 256 + low) >> (16 - n), next))
    }

    fn octets(s: &[u8], at: usize, n: u32) -> Found {
        let after = at + (n.div_ceil(8) * 8) as usize;
        if 8 * s.len() < after {
            return None;
        }
        if n == 0 {
            return Some((0, after));
        }
        if n <= 8 {
            return Some((peek(s, at), after));
        }
        let first = peek(s, at);
        let second = peek(s, at + 8);
        Some((first + second * 256, after))
    }

    #[inline(never)]
    pub fn read(aligned: bool, s: &[u8], at: usize, n: u32) -> Found {
        if aligned {
            return octets(s, at, n);
        }
        bits(s, at, n)
    }

    fn put_octet(buf: &mut [u8], at: usize, v: u32) -> usize {
        let i = at / 8;
        let k = at % 8;
        if buf.len() <= i {
            return at + 8;
        }
        buf[i] = (u32::from(buf[i]) + (v >> k)) as u8;
        if buf.len() <= i + 1 {
            return at + 8;
        }
        buf[i + 1] = (((v * 256) >> k) % 256) as u8;
        at + 8
    }

    fn put_short(buf: &mut [u8], at: usize, n: u32, v: u32) -> usize {
        put_octet(buf, at, (v * 256) >> n);
        at + n as usize
    }

    fn put_bits(buf: &mut [u8], at: usize, n: u32, v: u32) -> usize {
        if n <= 8 {
            return put_short(buf, at, n, v);
        }
        let next = put_short(buf, at, n - 8, v / 256);
        put_octet(buf, next, v % 256)
    }

    fn put_octets(buf: &mut [u8], at: usize, n: u32, v: u32) -> usize {
        if n == 0 {
            return at;
        }
        if n <= 8 {
            return put_octet(buf, at, v);
        }
        let next = put_octet(buf, at, v % 256);
        put_octet(buf, next, v / 256)
    }

    #[inline(never)]
    pub fn write(aligned: bool, buf: &mut [u8], at: usize, n: u32, v: u32) -> usize {
        if aligned {
            return put_octets(buf, at, n, v);
        }
        put_bits(buf, at, n, v)
    }

    #[inline(never)]
    pub fn width(m: u32) -> u32 {
        let mut n = 0;
        let mut reach = 1;
        while reach < m {
            reach *= 2;
            n += 1;
        }
        n
    }
}

mod ordinary {
    use super::Found;

    fn bits(s: &[u8], at: usize, n: u32) -> Found {
        let next = at + n as usize;
        let octets = s.get(at / 8..next.div_ceil(8))?;
        let window = octets.iter().fold(0, |w, &o| w << 8 | u32::from(o));
        Some((
            window >> (next.div_ceil(8) * 8 - next) & ((1 << n) - 1),
            next,
        ))
    }

    #[inline(never)]
    pub fn read(aligned: bool, s: &[u8], at: usize, n: u32) -> Found {
        if !aligned {
            return bits(s, at, n);
        }
        let (value, next) = bits(s, at, n.div_ceil(8) * 8)?;
        Some((
            if n > 8 {
                u32::from((value as u16).swap_bytes())
            } else {
                value
            },
            next,
        ))
    }

    fn put_bits(buf: &mut [u8], at: usize, n: u32, v: u32) -> usize {
        let next = at + n as usize;
        let mut window = v << (next.div_ceil(8) * 8 - next);
        for i in (at / 8..next.div_ceil(8)).rev() {
            if let Some(octet) = buf.get_mut(i) {
                *octet |= window as u8;
            }
            window >>= 8;
        }
        next
    }

    #[inline(never)]
    pub fn write(aligned: bool, buf: &mut [u8], at: usize, n: u32, v: u32) -> usize {
        if !aligned {
            return put_bits(buf, at, n, v);
        }
        let v = if n > 8 {
            u32::from((v as u16).swap_bytes())
        } else {
            v
        };
        put_bits(buf, at, n.div_ceil(8) * 8, v)
    }

    #[inline(never)]
    pub fn width(m: u32) -> u32 {
        m.next_power_of_two().trailing_zeros()
    }
}

const CODES: [Code; 3] = [
    Code {
        read: now::read,
        write: now::write,
        width: now::width,
    },
    Code {
        read: before::read,
        write: before::write,
        width: before::width,
    },
    Code {
        read: ordinary::read,
        write: ordinary::write,
        width: ordinary::width,
    },
];

/// Fields of one run, each three octets behind the one before.
const FIELDS: usize = 1_000;

const OCTETS: usize = 3 * FIELDS + 3;

const RUNS: usize = 60;

fn all_ones(n: u32) -> u32 {
    (1 << n) - 1
}

/// All three find the same and leave the same, up to the end of what is lent.
fn agree(stream: &[u8]) {
    for m in 0..=65_536 {
        let widths = CODES.map(|code| (code.width)(m));
        assert!(widths[0] == widths[1] && widths[0] == widths[2], "{m}");
    }
    for aligned in [false, true] {
        for n in 0..=16 {
            for at in 0..=48 {
                let found = CODES.map(|code| (code.read)(aligned, &stream[..6], at, n));
                assert!(
                    found[0] == found[1] && found[0] == found[2],
                    "{aligned} {at} {n}"
                );
                for v in [0, 1, 0x5AA5, 0xFFFF] {
                    let written = CODES.map(|code| {
                        let mut octets = [0; 6];
                        let next = (code.write)(aligned, &mut octets, at, n, v & all_ones(n));
                        (octets, next)
                    });
                    assert!(
                        written[0] == written[1] && written[0] == written[2],
                        "{aligned} {at} {n} {v}"
                    );
                }
            }
        }
    }
}

/// Nanoseconds a field, of the fastest run.
fn fastest(mut run: impl FnMut() -> f64) -> f64 {
    let nanoseconds = (0..RUNS).map(|_| run()).fold(f64::INFINITY, f64::min);
    nanoseconds / FIELDS as f64
}

fn read_time(code: &Code, choice: bool, aligned: bool, stream: &[u8], at: usize, n: u32) -> f64 {
    fastest(|| {
        let begin = Instant::now();
        let mut sum = 0;
        for i in 0..FIELDS {
            let n = if choice { (code.width)(1 << n) } else { n };
            let (value, next) = (code.read)(aligned, stream, 24 * i + at, n).unwrap_or_default();
            sum += value as usize + next;
        }
        black_box(sum);
        begin.elapsed().as_nanos() as f64
    })
}

fn write_time(code: &Code, choice: bool, aligned: bool, at: usize, n: u32) -> f64 {
    let mut octets = vec![0; OCTETS];
    fastest(|| {
        octets.fill(0);
        let begin = Instant::now();
        let mut sum = 0;
        for i in 0..FIELDS {
            let n = if choice { (code.width)(1 << n) } else { n };
            sum += (code.write)(aligned, &mut octets, 24 * i + at, n, all_ones(n));
        }
        black_box(sum);
        begin.elapsed().as_nanos() as f64
    })
}

fn print(head: &str, times: &[f64; 12]) {
    let cells: Vec<String> = times
        .chunks(3)
        .map(|t| format!("{:>5.2} {:>5.2} {:>5.2}", t[0], t[1], t[2]))
        .collect();
    println!("{head:<24} {}", cells.join("   "));
}

fn main() {
    let stream: Vec<u8> = (0..OCTETS).map(|i| (i * 167 + 91) as u8).collect();
    agree(&stream);
    println!("Nanoseconds a field: now, before, ordinary.");
    println!(
        "{:<24} {:<20}{:<20}{:<20}write choice",
        "", "read number", "read choice", "write number"
    );
    for aligned in [false, true] {
        let alignment = if aligned {
            "byte-aligned"
        } else {
            "bit-packed"
        };
        let mut all = [0.0; 12];
        for n in 1..=16 {
            for at in 0..8 {
                let mut times = [0.0; 12];
                for (k, code) in CODES.iter().enumerate() {
                    times[k] = read_time(code, false, aligned, &stream, at, n);
                    times[3 + k] = read_time(code, true, aligned, &stream, at, n);
                    times[6 + k] = write_time(code, false, aligned, at, n);
                    times[9 + k] = write_time(code, true, aligned, at, n);
                }
                print(&format!("{alignment} {n:>2} bits at {at}"), &times);
                all.iter_mut()
                    .zip(times)
                    .for_each(|(sum, time)| *sum += time / 128.0);
            }
        }
        print(&format!("{alignment}, mean"), &all);
    }
}
