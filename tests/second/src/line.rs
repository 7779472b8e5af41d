//! The two lines, written from docs/PROTOCOL.md alone.

use crate::bits;
use std::fmt;

#[derive(Clone, Copy)]
pub enum Line {
    Radio,
    Cable,
}

/// Eight values in a row share the upper half of their symbol; the lower halves repeat.
const UPPER: [u8; 8] = [0xB, 0xC, 0x3, 0xA, 0x5, 0x9, 0x6, 0xD];
const LOWER: [u8; 8] = [0x4, 0xC, 0x3, 0xA, 0x5, 0x9, 0x6, 0x2];

/// The register of eight bits over whole bytes.
pub fn register(bytes: &[u8]) -> u8 {
    bytes.iter().fold(0xFF, |register, byte| {
        (0..8).fold(register ^ byte, |r: u8, _| {
            if r & 0x80 != 0 {
                (r << 1) ^ 0xA6
            } else {
                r << 1
            }
        })
    })
}

/// What is left of the values' bits, six zero bits behind them, after division by x^6 + x + 1.
fn cable_remainder(values: &[u8]) -> u8 {
    let row: Vec<bool> = values
        .iter()
        .flat_map(|value| bits::of(u64::from(*value), 6))
        .collect();
    bits::remainder(&row, &bits::of(0x43, 7)) as u8
}

impl Line {
    pub fn symbol(self, value: u8) -> u8 {
        assert!(value < 64);
        match self {
            Line::Radio => UPPER[usize::from(value / 8)] * 16 + LOWER[usize::from(value % 8)],
            Line::Cable => 0x30 + value,
        }
    }

    pub fn value(self, byte: u8) -> Option<u8> {
        (0..64).find(|value| self.symbol(*value) == byte)
    }

    pub fn check(self, values: &[u8]) -> u8 {
        match self {
            Line::Radio => {
                let symbols: Vec<u8> = values.iter().map(|v| self.symbol(*v)).collect();
                register(&symbols) / 4
            }
            Line::Cable => cable_remainder(values),
        }
    }
}

/// A refusal as a host sees it; the layer goes with the number.
#[derive(Debug, Clone, Copy, PartialEq, Eq)]
pub struct Refusal {
    pub number: u8,
    pub place: usize,
}

impl fmt::Display for Refusal {
    fn fmt(&self, f: &mut fmt::Formatter) -> fmt::Result {
        write!(f, "!{:02} {:03}", self.number, self.place)
    }
}

/// The values of a frame's bytes on a line.
pub fn read(line: Line, bytes: &[u8]) -> Result<Vec<u8>, Refusal> {
    if ![26, 37, 48].contains(&bytes.len()) {
        return Err(Refusal {
            number: 2,
            place: 0,
        });
    }
    let mut values = Vec::new();
    for (place, byte) in bytes.iter().enumerate() {
        values.push(line.value(*byte).ok_or(Refusal { number: 3, place })?);
    }
    if values[2] != line.check(&values[3..]) {
        return Err(Refusal {
            number: 4,
            place: 0,
        });
    }
    Ok(values)
}

/// The bytes of a frame's values on a line, with that line's check.
pub fn write(line: Line, values: &[u8]) -> Vec<u8> {
    let mut values = values.to_vec();
    values[2] = line.check(&values[3..]);
    values.iter().map(|v| line.symbol(*v)).collect()
}

#[cfg(test)]
mod tests {
    use super::*;

    #[test]
    fn symbols_differ_and_read_back() {
        for line in [Line::Radio, Line::Cable] {
            for value in 0..64 {
                assert_eq!(line.value(line.symbol(value)), Some(value));
            }
        }
        assert_eq!(Line::Radio.symbol(0x00), 0xB4);
        assert_eq!(Line::Radio.symbol(0x03), 0xBA);
        assert_eq!(Line::Radio.symbol(0x2C), 0x95);
        assert_eq!(Line::Radio.symbol(0x3F), 0xD2);
        assert_eq!(Line::Radio.value(0x00), None);
        assert_eq!(Line::Cable.value(0x2F), None);
        assert_eq!(Line::Cable.value(0x70), None);
    }

    #[test]
    fn register_figures() {
        assert_eq!(register(b"123456789"), 0x6C);
        assert_eq!(register(&[0x22, 0x33, 0x44, 0x55, 0x66, 0x77, 0x88]), 0x1E);
        let worked = [
            0xB4, 0xB5, 0xC5, 0x6A, 0x3C, 0xB5, 0x39, 0x39, 0xB4, 0xBA, 0xB5, 0xBC, 0xB2, 0x53,
            0xC4, 0x6A, 0x3C, 0xB9, 0x39, 0x56, 0xA9, 0xD4, 0x5C,
        ];
        assert_eq!(register(&worked), 0xB0);
        let values: Vec<u8> = worked
            .iter()
            .map(|b| Line::Radio.value(*b).unwrap())
            .collect();
        assert_eq!(Line::Radio.check(&values), 0x2C);
        // The specification prints this packet with one byte B4 of its network ID left out.
        let restored = [
            0xB4, 0xB3, 0xB4, 0xB4, 0xB4, 0xB4, 0xB4, 0xBC, 0xB4, 0xBC, 0xB5, 0xB3, 0xCA, 0xCA,
            0xA3, 0x56, 0xB5, 0x9C, 0x9A, 0xD5, 0xD9, 0x6A, 0xC9,
        ];
        assert_eq!(register(&restored), 0xFC);
    }

    #[test]
    fn refusals_as_text() {
        let refusal = Refusal {
            number: 3,
            place: 17,
        };
        assert_eq!(refusal.to_string(), "!03 017");
    }

    #[test]
    fn checks_of_nothing() {
        assert_eq!(Line::Radio.check(&[]), 0x3F);
        assert_eq!(Line::Cable.check(&[]), 0);
    }
}
