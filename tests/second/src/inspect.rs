//! What the program `inspect` is fed, and what it must print.

use crate::cases::{any, no_symbol};
use crate::frame::{build, open, payload_check, Header, ACK, DATA, NACK};
use crate::line::{read, write, Line, Refusal};
use crate::random::Random;
use crate::seal::Seal;

const NETWORK: u64 = 0x000000001;
const DID: u64 = 0x002;

/// The two above as the program's arguments, one a line.
pub const ARGUMENTS: &[u8] = b"000000001\n002\n";

const SIZES: [u64; 3] = [1, 2, 3];
const TYPES: [u64; 3] = [DATA, ACK, NACK];
const PRINTED: &[u8] = b"01>020000010111Y00E0@80<00";

/// Any DID, the first and the last of them often.
fn any_did(random: &mut Random) -> u64 {
    match random.below(6) {
        0 => 0x000,
        1 => 0xFFF,
        _ => random.below(0x1000) as u64,
    }
}

fn any_header(random: &mut Random, size: u64) -> Header {
    Header {
        repeater: any_did(random),
        destination: DID,
        network: NETWORK,
        source: any_did(random),
        frame_type: TYPES[random.below(3)],
        size,
    }
}

fn any_size(random: &mut Random) -> u64 {
    SIZES[random.below(3)]
}

/// The frame of a header with any contents.
fn filled(random: &mut Random, line: Line, seal: Seal, header: Header) -> Vec<u8> {
    let contents: Vec<u8> = (1..8 * header.size).map(|_| random.byte()).collect();
    build(line, seal, &header, &contents).unwrap()
}

fn cable(random: &mut Random, header: Header) -> Vec<u8> {
    filled(random, Line::Cable, Seal::Plain, header)
}

/// A frame of this size that opens.
fn good(random: &mut Random, size: u64) -> Vec<u8> {
    let header = any_header(random, size);
    cable(random, header)
}

/// The frame with bits of one of its values turned over, and its check worked out anew.
fn turned(frame: &[u8], place: usize, turn: u8) -> Vec<u8> {
    let mut values = read(Line::Cable, frame).unwrap();
    values[place] ^= turn;
    write(Line::Cable, &values)
}

/// The frame with one of its values set, and its check worked out anew.
fn with_value(frame: &[u8], place: usize, value: u8) -> Vec<u8> {
    let mut values = read(Line::Cable, frame).unwrap();
    values[place] = value;
    write(Line::Cable, &values)
}

fn unknown_types() -> Vec<u8> {
    (0..64)
        .filter(|value| !TYPES.contains(&u64::from(*value)))
        .collect()
}

fn any_unknown_type(random: &mut Random) -> u8 {
    let unknown = unknown_types();
    unknown[random.below(unknown.len())]
}

/// Bits to turn over so that a value becomes another.
fn some_turn(random: &mut Random) -> u8 {
    1 + random.below(63) as u8
}

/// The frame with another symbol at a place; its check stays what it was.
fn with_other_symbol(random: &mut Random, frame: &[u8], place: usize) -> Vec<u8> {
    let mut damaged = frame.to_vec();
    let value = Line::Cable.value(frame[place]).unwrap();
    damaged[place] = Line::Cable.symbol(value ^ some_turn(random));
    damaged
}

fn with_no_symbol(random: &mut Random, frame: &[u8], place: usize) -> Vec<u8> {
    let mut damaged = frame.to_vec();
    damaged[place] = no_symbol(random);
    damaged
}

/// How many filling bits a frame has. They are the lowest of its last value, and the technique is right above them.
fn filling_bits(frame: &[u8]) -> usize {
    match frame.len() {
        26 => 0,
        37 => 2,
        _ => 4,
    }
}

fn with_technique(frame: &[u8], technique: u8) -> Vec<u8> {
    turned(frame, frame.len() - 1, technique << filling_bits(frame))
}

fn with_filling_bit(frame: &[u8], bit: usize) -> Vec<u8> {
    turned(frame, frame.len() - 1, 1 << bit)
}

/// The first byte of the payload has the six bits of value 15 and the upper two of value 16.
fn with_wrong_byte_0(random: &mut Random, frame: &[u8]) -> Vec<u8> {
    match random.below(3) {
        0 => turned(frame, 15, some_turn(random)),
        1 => turned(frame, 16, (1 + random.below(3) as u8) << 4),
        _ => turned(&turned(frame, 15, some_turn(random)), 16, 0x30),
    }
}

/// What can be wrong with a frame. In this order they can be put in one after the other: whatever needs a check that
/// is right comes before whatever spoils it.
#[derive(Clone, Copy, Debug, PartialEq)]
enum Fault {
    Filling,
    Technique,
    Size,
    Type,
    Destination,
    Network,
    Check,
    NoSymbol,
    Length,
}

const FAULTS: [Fault; 9] = [
    Fault::Filling,
    Fault::Technique,
    Fault::Size,
    Fault::Type,
    Fault::Destination,
    Fault::Network,
    Fault::Check,
    Fault::NoSymbol,
    Fault::Length,
];

impl Fault {
    /// A frame of size 1 has no filling bits.
    fn can_be_in(self, size: u64) -> bool {
        self != Fault::Filling || size > 1
    }

    fn put_into(self, frame: &[u8], random: &mut Random) -> Vec<u8> {
        match self {
            Fault::Filling => with_filling_bit(frame, random.below(filling_bits(frame))),
            Fault::Technique => with_technique(frame, 1 + random.below(3) as u8),
            Fault::Size => turned(frame, 14, some_turn(random)),
            Fault::Type => with_value(frame, 13, any_unknown_type(random)),
            Fault::Destination => turned(frame, 3 + random.below(2), some_turn(random)),
            Fault::Network => turned(frame, 5 + random.below(6), some_turn(random)),
            Fault::Check => with_other_symbol(random, frame, 2),
            Fault::NoSymbol => {
                // In the repeater, the source or the body's blocks, where no other fault is.
                let place = [0, 1, 11, 12, 15, 20, 24][random.below(7)];
                with_no_symbol(random, frame, place)
            }
            Fault::Length => [frame, b"0"].concat(),
        }
    }
}

/// A frame with faults, which are in the order of `FAULTS`.
fn faulty(random: &mut Random, size: u64, faults: &[Fault]) -> Vec<u8> {
    let frame = good(random, size);
    faults
        .iter()
        .fold(frame, |frame, fault| fault.put_into(&frame, random))
}

type Cases = Vec<Vec<u8>>;

fn singular_ones(random: &mut Random) -> Cases {
    let mut cases = vec![
        PRINTED.to_vec(),
        b"".to_vec(),
        b"0".to_vec(),
        b"\r".to_vec(),
        // With a carriage return: one byte too many, and in the place of a symbol.
        [PRINTED, b"\r"].concat(),
        [&PRINTED[..25], b"\r"].concat(),
        [b"\r", &PRINTED[1..]].concat(),
        // A byte left out, one too many, and two frames in one line.
        PRINTED[..25].to_vec(),
        PRINTED[1..].to_vec(),
        [PRINTED, b"0"].concat(),
        [PRINTED, PRINTED].concat(),
        // Values of zero have a check of zero.
        vec![b'0'; 26],
        vec![b'0'; 37],
        vec![b'0'; 48],
        vec![0xFF; 26],
    ];
    cases.push((0..1000).map(|_| any(random)).collect());
    cases
}

fn frames_that_open(random: &mut Random) -> Cases {
    let mut cases = Vec::new();
    for size in SIZES {
        for frame_type in TYPES {
            for _ in 0..4 {
                let header = Header {
                    frame_type,
                    ..any_header(random, size)
                };
                cases.push(cable(random, header));
                let frame = cable(random, header);
                cases.push(with_wrong_byte_0(random, &frame));
            }
        }
        for (repeater, source) in [
            (0x000, 0x000),
            (0x000, 0xFFF),
            (0xFFF, 0x000),
            (0xFFF, 0xFFF),
        ] {
            let header = Header {
                repeater,
                source,
                ..any_header(random, size)
            };
            cases.push(cable(random, header));
        }
        for byte in [0x00, 0xFF] {
            let contents = vec![byte; 8 * size as usize - 1];
            let header = any_header(random, size);
            cases.push(build(Line::Cable, Seal::Plain, &header, &contents).unwrap());
        }
    }
    cases
}

fn every_byte_damaged(random: &mut Random) -> Cases {
    let mut cases = Vec::new();
    for size in SIZES {
        let frame = good(random, size);
        for place in 0..frame.len() {
            cases.push(with_other_symbol(random, &frame, place));
            cases.push(with_no_symbol(random, &frame, place));
        }
    }
    cases
}

fn for_other_nodes(random: &mut Random) -> Cases {
    let mut cases = Vec::new();
    for size in SIZES {
        for place in 5..=10 {
            let frame = good(random, size);
            cases.push(turned(&frame, place, some_turn(random)));
        }
        for network in [0x000000000, 0x040000000, 0xFFFFFFFFF] {
            let header = Header {
                network,
                ..any_header(random, size)
            };
            cases.push(cable(random, header));
        }
        for destination in [0x000, 0x001, 0x003, 0x042, 0x080, 0x802, 0xFFF] {
            let header = Header {
                destination,
                ..any_header(random, size)
            };
            cases.push(cable(random, header));
        }
    }
    cases
}

fn of_other_types_and_sizes(random: &mut Random) -> Cases {
    let mut cases = Vec::new();
    for frame_type in unknown_types() {
        let size = any_size(random);
        cases.push(with_value(&good(random, size), 13, frame_type));
    }
    for size in SIZES {
        for value in [0, 1, 2, 3, 4, 63] {
            if u64::from(value) != size {
                cases.push(with_value(&good(random, size), 14, value));
            }
        }
    }
    cases
}

fn with_other_bodies(random: &mut Random) -> Cases {
    let mut cases = Vec::new();
    for size in SIZES {
        let frame = good(random, size);
        for technique in 1..=3 {
            cases.push(with_technique(&frame, technique));
        }
        for bit in 0..filling_bits(&frame) {
            cases.push(with_filling_bit(&frame, bit));
        }
        let header = any_header(random, size);
        let key = std::array::from_fn(|_| random.byte());
        cases.push(filled(random, Line::Cable, Seal::Xtea(key), header));
        cases.push(filled(random, Line::Radio, Seal::Plain, header));
    }
    cases
}

fn with_several_faults(random: &mut Random) -> Cases {
    let mut cases = Vec::new();
    for size in SIZES {
        let possible: Vec<Fault> = FAULTS.into_iter().filter(|f| f.can_be_in(size)).collect();
        for (at, first) in possible.iter().enumerate() {
            for second in &possible[at + 1..] {
                cases.push(faulty(random, size, &[*first, *second]));
            }
        }
        for _ in 0..25 {
            let mut some = possible.clone();
            some.retain(|_| random.below(2) == 0);
            cases.push(faulty(random, size, &some));
        }
    }
    cases
}

fn every_length(random: &mut Random) -> Cases {
    let mut cases = Vec::new();
    for length in 0..=60 {
        cases.push(
            (0..length)
                .map(|_| Line::Cable.symbol(random.below(64) as u8))
                .collect(),
        );
        cases.push((0..length).map(|_| any(random)).collect());
    }
    cases
}

/// Each case is one line of input.
fn lines(random: &mut Random) -> Cases {
    [
        singular_ones(random),
        frames_that_open(random),
        every_byte_damaged(random),
        for_other_nodes(random),
        of_other_types_and_sizes(random),
        with_other_bodies(random),
        with_several_faults(random),
        every_length(random),
        // The last line has no end.
        vec![good(random, 2)],
    ]
    .concat()
}

fn explained(header: &Header, payload: &[u8]) -> String {
    let name = match header.frame_type {
        DATA => "data",
        ACK => "ACK",
        _ => "NACK",
    };
    let id_and_kind = u16::from_be_bytes([payload[1], payload[2]]);
    let content: String = payload[3..].iter().map(|b| format!(" {b:02X}")).collect();
    let right = payload_check(&payload[1..]);
    let verdict = if payload[0] == right {
        "as it should be".to_string()
    } else {
        format!("but should be 0x{right:02X}")
    };
    let Header {
        repeater,
        destination,
        network,
        source,
        size,
        ..
    } = header;
    format!(
        "{name} frame of size {size} from 0x{source:03X} to 0x{destination:03X}, \
         network 0x{network:09X}, repeater 0x{repeater:03X}\n  \
         message ID 0x{:03X}, kind 0x{:X}, content{content}\n  \
         byte 0 is 0x{:02X}, {verdict}\n",
        id_and_kind / 16,
        id_and_kind % 16,
        payload[0],
    )
}

fn in_words(refusal: Refusal) -> String {
    let what = match refusal.number {
        2 => "Line: the frame does not have 26, 37 or 48 bytes",
        3 => "Line: a byte is no symbol",
        4 => "Line: the check differs",
        5 => "Frame: the network ID is another",
        6 => "Frame: the destination is another",
        7 => "Frame: the type is unknown, or the size is not that of the length",
        8 => "Frame: the technique is another, or a filling bit is set",
        _ => unreachable!("opening has no other refusals"),
    };
    format!("{refusal}, {what}\n")
}

fn answer(frame: &[u8]) -> String {
    match open(Line::Cable, Seal::Plain, NETWORK, DID, frame) {
        Ok((header, payload)) => explained(&header, &payload),
        Err(refusal) => in_words(refusal),
    }
}

/// The bytes of the files `stdin` and `stdout`.
pub fn vectors(seed: u64) -> (Vec<u8>, Vec<u8>) {
    let cases = lines(&mut Random::new(seed));
    let output: String = cases.iter().map(|case| answer(case)).collect();
    (cases.join(&b'\n'), output.into_bytes())
}

#[cfg(test)]
mod tests {
    use super::*;

    fn number(fault: Fault) -> u8 {
        match fault {
            Fault::Length => 2,
            Fault::NoSymbol => 3,
            Fault::Check => 4,
            Fault::Network => 5,
            Fault::Destination => 6,
            Fault::Size | Fault::Type => 7,
            Fault::Technique | Fault::Filling => 8,
        }
    }

    #[test]
    fn the_printed_frame_is_explained() {
        assert_eq!(
            answer(PRINTED),
            "data frame of size 1 from 0x001 to 0x002, network 0x000000001, repeater 0x001\n"
                .to_string()
                + "  message ID 0x001, kind 0x5, content 01 02 00 30 00\n"
                + "  byte 0 is 0xA4, as it should be\n"
        );
        let wrong = turned(PRINTED, 16, 0x10);
        assert!(answer(&wrong).ends_with("\n  byte 0 is 0xA5, but should be 0xA4\n"));
    }

    #[test]
    fn a_refused_frame_is_told_in_words() {
        let mut damaged = PRINTED.to_vec();
        damaged[17] = b'p';
        assert_eq!(answer(&damaged), "!03 017, Line: a byte is no symbol\n");
    }

    #[test]
    fn of_any_faults_together_the_lowest_number_is_given() {
        let mut random = Random::new(3);
        for chosen in 1..1 << FAULTS.len() {
            for size in SIZES {
                let mut faults = FAULTS.to_vec();
                let mut bits = (0..).map(|k| chosen >> k & 1 == 1);
                faults.retain(|fault| bits.next() == Some(true) && fault.can_be_in(size));
                let frame = faulty(&mut random, size, &faults);
                let given = open(Line::Cable, Seal::Plain, NETWORK, DID, &frame)
                    .err()
                    .map(|refusal| refusal.number);
                let lowest = faults.iter().map(|fault| number(*fault)).min();
                assert_eq!(given, lowest, "{faults:?}");
            }
        }
    }

    #[test]
    fn a_wrong_byte_0_is_told() {
        let mut random = Random::new(4);
        for _ in 0..100 {
            let size = any_size(&mut random);
            let frame = good(&mut random, size);
            assert!(answer(&frame).ends_with("as it should be\n"));
            let wrong = with_wrong_byte_0(&mut random, &frame);
            assert!(answer(&wrong).contains(", but should be 0x"));
        }
    }

    #[test]
    fn no_case_ends_its_line_early() {
        for case in lines(&mut Random::new(5)) {
            assert!(!case.contains(&b'\n'));
        }
    }
}
