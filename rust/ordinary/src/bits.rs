//! Fields of a stream, bit-packed or byte-aligned: n-bit numbers and Unsigned Integers (EXI 7.1.9,
//! 7.1.6).

use crate::refusal::Refusal;
use crate::settings::Alignment;

/// The number of bits in a choice among `m`.
fn width(m: usize) -> u32 {
    m.next_power_of_two().trailing_zeros()
}

pub struct BitReader<'a> {
    octets: &'a [u8],
    /// In bits.
    position: usize,
    alignment: Alignment,
}

impl<'a> BitReader<'a> {
    pub fn new(octets: &'a [u8], alignment: Alignment) -> Self {
        BitReader {
            octets,
            position: 0,
            alignment,
        }
    }

    pub fn octet(&mut self) -> Result<u8, Refusal> {
        let at = self.position / 8;
        let shift = self.position % 8;
        let first = *self.octets.get(at).ok_or(Refusal::Ended)?;
        let octet = if shift == 0 {
            first
        } else {
            let second = *self.octets.get(at + 1).ok_or(Refusal::Ended)?;
            first << shift | second >> (8 - shift)
        };
        self.position += 8;
        Ok(octet)
    }

    /// A choice among `m`. The result can be `m` or above.
    pub fn choice(&mut self, m: usize) -> Result<usize, Refusal> {
        let width = width(m) as usize;
        match self.alignment {
            Alignment::BitPacked => {
                let start = self.position;
                let end = start + width;
                let octets = self
                    .octets
                    .get(start / 8..end.div_ceil(8))
                    .ok_or(Refusal::Ended)?;
                self.position = end;
                let window = octets
                    .iter()
                    .fold(0, |window, &octet| window << 8 | usize::from(octet));
                let spare = end.next_multiple_of(8) - end;
                Ok(window >> spare & ((1 << width) - 1))
            }
            Alignment::ByteAligned => {
                let start = self.position / 8;
                let end = start + width.div_ceil(8);
                let octets = self.octets.get(start..end).ok_or(Refusal::Ended)?;
                self.position = end * 8;
                Ok(octets
                    .iter()
                    .rev()
                    .fold(0, |number, &octet| number << 8 | usize::from(octet)))
            }
        }
    }

    /// An Unsigned Integer in fewest octets, at most 2,147,483,647.
    pub fn unsigned(&mut self) -> Result<u32, Refusal> {
        let first = self.octet()?;
        let mut value = u32::from(first & 0x7F);
        if first < 0x80 {
            return Ok(value);
        }
        for shift in [7, 14, 21, 28] {
            let octet = self.octet()?;
            if octet == 0 || (shift == 28 && octet > 7) {
                return Err(Refusal::Number);
            }
            value |= u32::from(octet & 0x7F) << shift;
            if octet < 0x80 {
                break;
            }
        }
        Ok(value)
    }

    /// Checks that only zero pad bits are left.
    pub fn finish(&self) -> Result<(), Refusal> {
        let rest = &self.octets[self.position / 8..];
        match (self.position % 8, rest) {
            (0, []) => Ok(()),
            (used, [last]) if used > 0 && last << used == 0 => Ok(()),
            _ => Err(Refusal::Tail),
        }
    }
}

/// Octets that find no room are counted and dropped.
pub struct BitWriter<'a> {
    octets: &'a mut [u8],
    length: usize,
    /// Bits that do not fill an octet yet.
    pending: u32,
    pending_bits: u32,
    alignment: Alignment,
}

impl<'a> BitWriter<'a> {
    pub fn new(octets: &'a mut [u8], alignment: Alignment) -> Self {
        BitWriter {
            octets,
            length: 0,
            pending: 0,
            pending_bits: 0,
            alignment,
        }
    }

    fn put(&mut self, octet: u8) {
        if let Some(cell) = self.octets.get_mut(self.length) {
            *cell = octet;
        }
        self.length += 1;
    }

    fn bits(&mut self, value: u32, width: u32) {
        self.pending = self.pending << width | value;
        self.pending_bits += width;
        while self.pending_bits >= 8 {
            self.pending_bits -= 8;
            self.put((self.pending >> self.pending_bits) as u8);
        }
        self.pending &= (1 << self.pending_bits) - 1;
    }

    #[inline]
    pub fn octet(&mut self, octet: u8) {
        if self.pending_bits == 0 {
            self.put(octet);
        } else {
            let all = self.pending << 8 | u32::from(octet);
            self.put((all >> self.pending_bits) as u8);
            self.pending = all & ((1 << self.pending_bits) - 1);
        }
    }

    pub fn choice(&mut self, value: usize, m: usize) {
        let width = width(m);
        match self.alignment {
            Alignment::BitPacked => self.bits(value as u32, width),
            Alignment::ByteAligned => {
                for i in 0..width.div_ceil(8) {
                    self.put((value >> (8 * i)) as u8);
                }
            }
        }
    }

    #[inline]
    pub fn unsigned(&mut self, mut value: u32) {
        while value >= 0x80 {
            self.octet(value as u8 | 0x80);
            value >>= 7;
        }
        self.octet(value as u8);
    }

    /// Pads to a whole octet and gives the length in octets.
    pub fn finish(mut self) -> usize {
        if self.pending_bits > 0 {
            self.bits(0, 8 - self.pending_bits);
        }
        self.length
    }
}
