//! Numbers on a sheet: groups of seven bits, lowest group first.

use crate::refusal::{Refusal, Refused, ENDS, FORM, TRAILING};

/// What one more byte makes of a number.
pub enum Step {
    More,
    Done(u32),
    Bad,
}

/// A number of which some groups are read.
#[derive(Default)]
pub struct Groups {
    value: u32,
    count: u32,
}

impl Groups {
    /// Takes the next byte; a fifth byte is at most 15, and a later byte is not 0.
    pub fn push(&mut self, byte: u8) -> Step {
        if (self.count == 4 && byte > 15) || (self.count > 0 && byte == 0) {
            return Step::Bad;
        }
        self.value |= u32::from(byte & 127) << (7 * self.count);
        self.count += 1;
        if byte >= 128 {
            Step::More
        } else {
            Step::Done(self.value)
        }
    }
}

/// Bytes read from left to right, and where the number last read begins.
pub struct Reader<'a> {
    bytes: &'a [u8],
    at: usize,
    begins: usize,
}

impl<'a> Reader<'a> {
    pub fn new(bytes: &'a [u8]) -> Self {
        Reader {
            bytes,
            at: 0,
            begins: 0,
        }
    }

    /// The next number, or 1 at the end of the bytes, or 2.
    pub fn number(&mut self) -> Result<u32, Refused> {
        self.begins = self.at;
        let mut groups = Groups::default();
        while let Some(&byte) = self.bytes.get(self.at) {
            self.at += 1;
            match groups.push(byte) {
                Step::More => {}
                Step::Done(value) => return Ok(value),
                Step::Bad => return Err(self.refuse(FORM)),
            }
        }
        Err(ENDS.at(self.bytes.len()))
    }

    /// A refusal of the number last read, at its first byte.
    pub fn refuse(&self, refusal: Refusal) -> Refused {
        refusal.at(self.begins)
    }

    /// A refusal at the byte that comes next, be there one or not.
    pub fn refuse_next(&self, refusal: Refusal) -> Refused {
        refusal.at(self.at)
    }

    /// The next number, which has to be one of low to high.
    pub fn within(&mut self, low: u32, high: u32, otherwise: Refusal) -> Result<u32, Refused> {
        let value = self.number()?;
        if value < low || value > high {
            return Err(self.refuse(otherwise));
        }
        Ok(value)
    }

    /// The next bytes as they stand, or 1.
    pub fn take(&mut self, length: usize) -> Result<&'a [u8], Refused> {
        if length > self.bytes.len() - self.at {
            return Err(ENDS.at(self.bytes.len()));
        }
        let taken = &self.bytes[self.at..self.at + length];
        self.at += length;
        Ok(taken)
    }

    /// Nothing may be left, or 9 at the first extra byte.
    pub fn finish(&self) -> Result<(), Refused> {
        if self.at == self.bytes.len() {
            Ok(())
        } else {
            Err(self.refuse_next(TRAILING))
        }
    }
}

/// Appends a number in its shortest form.
pub fn write(out: &mut Vec<u8>, value: u32) {
    let mut left = value;
    while left >= 128 {
        out.push((left % 128) as u8 + 128);
        left /= 128;
    }
    out.push(left as u8);
}

/// The shortest form of a number.
pub fn shortest(value: u32) -> Vec<u8> {
    let mut out = Vec::new();
    write(&mut out, value);
    out
}

#[cfg(test)]
mod tests {
    use super::*;

    fn read(bytes: &[u8]) -> Result<u32, Refusal> {
        Reader::new(bytes).number().map_err(|found| found.refusal)
    }

    #[test]
    fn the_numbers_of_the_document() {
        assert_eq!(shortest(127), [0x7F]);
        assert_eq!(shortest(128), [0x80, 0x01]);
        assert_eq!(shortest(300), [0xAC, 0x02]);
        assert_eq!(shortest(u32::MAX), [0xFF, 0xFF, 0xFF, 0xFF, 0x0F]);
        assert_eq!(read(&[0x80, 0x00]), Err(FORM));
        assert_eq!(read(&[0xFF, 0xFF, 0xFF, 0xFF, 0x10]), Err(FORM));
        assert_eq!(read(&[0x80]), Err(ENDS));
    }

    #[test]
    fn a_fifth_byte_is_judged_at_once() {
        assert_eq!(read(&[0xFF, 0xFF, 0xFF, 0xFF, 0x80]), Err(FORM));
        assert_eq!(read(&[0xFF, 0xFF, 0xFF, 0xFF]), Err(ENDS));
        assert_eq!(read(&[0x80, 0x80, 0x80, 0x80, 0x00]), Err(FORM));
        assert_eq!(read(&[0x80, 0x80, 0x80, 0x80, 0x01]), Ok(1 << 28));
        assert_eq!(read(&[]), Err(ENDS));
    }

    #[test]
    fn places_of_1_2_and_9() {
        let mut reader = Reader::new(&[5, 0xAC, 2, 0x80, 0x80, 0, 7]);
        assert_eq!(reader.number(), Ok(5));
        assert_eq!(reader.number(), Ok(300));
        assert_eq!(reader.finish(), Err(TRAILING.at(3)));
        assert_eq!(reader.number(), Err(FORM.at(3)));
        let mut reader = Reader::new(&[5, 0xAC, 0x82]);
        assert_eq!(reader.number(), Ok(5));
        assert_eq!(reader.number(), Err(ENDS.at(3)));
        assert_eq!(Reader::new(&[]).number(), Err(ENDS.at(0)));
    }

    #[test]
    fn what_is_written_is_read() {
        for bit in 0..32 {
            for value in [(1u32 << bit) - 1, 1 << bit, (1 << bit) + 1] {
                assert_eq!(read(&shortest(value)), Ok(value));
            }
        }
        assert_eq!(read(&shortest(u32::MAX)), Ok(u32::MAX));
    }

    #[test]
    fn what_is_read_is_what_would_be_written() {
        for first in 0..=255u8 {
            for second in 0..=255u8 {
                let bytes = [first, second, 1];
                let mut reader = Reader::new(&bytes);
                if let Ok(value) = reader.number() {
                    assert_eq!(shortest(value), bytes[..reader.at]);
                }
            }
        }
    }
}
