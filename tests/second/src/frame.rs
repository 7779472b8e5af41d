//! Opening and building frames.

use crate::bits;
use crate::line::{read, write, Line, Refusal};
use crate::seal::Seal;

pub const DATA: u64 = 1;
pub const ACK: u64 = 2;
pub const NACK: u64 = 3;

#[derive(Debug, Clone, Copy, PartialEq, Eq)]
pub struct Header {
    pub repeater: u64,
    pub destination: u64,
    pub network: u64,
    pub source: u64,
    pub frame_type: u64,
    pub size: u64,
}

fn refusal(number: u8) -> Refusal {
    Refusal { number, place: 0 }
}

fn is_known(frame_type: u64) -> bool {
    [DATA, ACK, NACK].contains(&frame_type)
}

/// What byte 0 of a clear payload must be, given the bytes behind it.
pub fn payload_check(bytes: &[u8]) -> u8 {
    let row: Vec<bool> = bytes
        .iter()
        .flat_map(|byte| bits::of(u64::from(*byte), 8))
        .collect();
    bits::remainder(&row, &bits::of(0x107, 9)) as u8
}

fn row_of(values: &[u8]) -> Vec<bool> {
    values
        .iter()
        .flat_map(|value| bits::of(u64::from(*value), 6))
        .collect()
}

fn header_of(values: &[u8]) -> Header {
    let field = |start: usize, end: usize| bits::number(&row_of(&values[start..end]));
    Header {
        repeater: field(0, 2),
        destination: field(3, 5),
        network: field(5, 11),
        source: field(11, 13),
        frame_type: field(13, 14),
        size: field(14, 15),
    }
}

/// The header and the clear payload of a frame, for whoever has this network ID, this DID and this seal.
pub fn open(
    line: Line,
    seal: Seal,
    network: u64,
    did: u64,
    bytes: &[u8],
) -> Result<(Header, Vec<u8>), Refusal> {
    let values = read(line, bytes)?;
    let header = header_of(&values);
    if header.network != network {
        return Err(refusal(5));
    }
    if header.destination != did {
        return Err(refusal(6));
    }
    if !is_known(header.frame_type) || values.len() as u64 != 15 + 11 * header.size {
        return Err(refusal(7));
    }
    let body = row_of(&values[15..]);
    let (blocks, behind) = body.split_at(64 * header.size as usize);
    let (technique, filling) = behind.split_at(2);
    if bits::number(technique) != u64::from(seal.technique()) || filling.contains(&true) {
        return Err(refusal(8));
    }
    let payload = blocks
        .chunks(64)
        .flat_map(|block| seal.open(bits::number(block)).to_be_bytes())
        .collect();
    Ok((header, payload))
}

fn body_of(seal: Seal, payload: &[u8]) -> Vec<bool> {
    let mut body = Vec::new();
    for block in payload.chunks(8) {
        let clear = u64::from_be_bytes(block.try_into().unwrap());
        body.extend(bits::of(seal.close(clear), 64));
    }
    body.extend(bits::of(u64::from(seal.technique()), 2));
    body.resize(66 * payload.len() / 8, false);
    body
}

/// The bytes of a frame with this header, whose fields fit, and this whole payload.
fn assemble(line: Line, seal: Seal, header: &Header, payload: &[u8]) -> Vec<u8> {
    let row = [
        bits::of(header.repeater, 12),
        // The check is worked out when the values are written.
        bits::of(0, 6),
        bits::of(header.destination, 12),
        bits::of(header.network, 36),
        bits::of(header.source, 12),
        bits::of(header.frame_type, 6),
        bits::of(header.size, 6),
        body_of(seal, payload),
    ]
    .concat();
    let values: Vec<u8> = row.chunks(6).map(|six| bits::number(six) as u8).collect();
    write(line, &values)
}

/// The bytes of a frame with this header; the contents are the clear payload without its byte 0.
pub fn build(line: Line, seal: Seal, header: &Header, contents: &[u8]) -> Result<Vec<u8>, Refusal> {
    let size_fits = (1..=3).contains(&header.size) && contents.len() as u64 + 1 == 8 * header.size;
    if !is_known(header.frame_type) || !size_fits {
        return Err(refusal(7));
    }
    let dids = [header.repeater, header.destination, header.source];
    if dids.iter().any(|did| *did >= 1 << 12) || header.network >= 1 << 36 {
        return Err(refusal(11));
    }
    let payload = [&[payload_check(contents)], contents].concat();
    Ok(assemble(line, seal, header, &payload))
}

#[cfg(test)]
mod tests {
    use super::*;
    use crate::random::Random;

    const KEY: [u8; 16] = *b"sixteen bytes ..";
    const PRINTED: &[u8] = b"01>020000010111Y00E0@80<00";
    const PRINTED_HEADER: Header = Header {
        repeater: 1,
        destination: 2,
        network: 1,
        source: 1,
        frame_type: DATA,
        size: 1,
    };
    const PRINTED_PAYLOAD: [u8; 8] = [0xA4, 0x00, 0x15, 0x01, 0x02, 0x00, 0x30, 0x00];

    fn random_header(random: &mut Random, size: u64) -> Header {
        Header {
            repeater: random.next() % (1 << 12),
            destination: random.next() % (1 << 12),
            network: random.next() % (1 << 36),
            source: random.next() % (1 << 12),
            frame_type: 1 + random.next() % 3,
            size,
        }
    }

    /// Every line with every seal, a random header of each size, and random bytes for its contents.
    fn for_all_kinds(mut test: impl FnMut(Line, Seal, Header, Vec<u8>)) {
        let mut random = Random::new(2);
        for line in [Line::Radio, Line::Cable] {
            for seal in [Seal::Plain, Seal::Xtea(KEY)] {
                for size in [1, 2, 3] {
                    for _ in 0..20 {
                        let header = random_header(&mut random, size);
                        let contents = (1..8 * size).map(|_| random.byte()).collect();
                        test(line, seal, header, contents);
                    }
                }
            }
        }
    }

    /// The number of the refusal that opening answers for network 1 and DID 2 on the cable, plain.
    fn refused(bytes: &[u8]) -> u8 {
        let refusal = open(Line::Cable, Seal::Plain, 1, 2, bytes).unwrap_err();
        if refusal.number != 3 {
            assert_eq!(refusal.place, 0);
        }
        refusal.number
    }

    /// The printed frame with some values set, and its check worked out anew.
    fn printed_with(changes: &[(usize, u8)]) -> Vec<u8> {
        changed(PRINTED, changes)
    }

    fn changed(frame: &[u8], changes: &[(usize, u8)]) -> Vec<u8> {
        let mut values = read(Line::Cable, frame).unwrap();
        for (place, value) in changes {
            values[*place] = *value;
        }
        write(Line::Cable, &values)
    }

    fn built(size: u64) -> Vec<u8> {
        let header = Header {
            size,
            ..PRINTED_HEADER
        };
        let contents = vec![0; 8 * size as usize - 1];
        build(Line::Cable, Seal::Plain, &header, &contents).unwrap()
    }

    #[test]
    fn payload_checks() {
        assert_eq!(payload_check(b"123456789"), 0xF4);
        assert_eq!(payload_check(&PRINTED_PAYLOAD[1..]), PRINTED_PAYLOAD[0]);
        assert_eq!(payload_check(&[]), 0);
    }

    #[test]
    fn the_printed_frame_opens_and_is_built() {
        let opened = open(Line::Cable, Seal::Plain, 1, 2, PRINTED);
        assert_eq!(opened, Ok((PRINTED_HEADER, PRINTED_PAYLOAD.to_vec())));
        let built = build(
            Line::Cable,
            Seal::Plain,
            &PRINTED_HEADER,
            &PRINTED_PAYLOAD[1..],
        );
        assert_eq!(built, Ok(PRINTED.to_vec()));
    }

    #[test]
    fn built_frames_open_to_what_they_were_built_from() {
        for_all_kinds(|line, seal, header, contents| {
            let bytes = build(line, seal, &header, &contents).unwrap();
            assert_eq!(bytes.len() as u64, 15 + 11 * header.size);
            let (opened, payload) =
                open(line, seal, header.network, header.destination, &bytes).unwrap();
            assert_eq!(opened, header);
            assert_eq!(payload[0], payload_check(&contents));
            assert_eq!(payload[1..], contents);
            assert_eq!(build(line, seal, &opened, &payload[1..]), Ok(bytes));
        });
    }

    #[test]
    fn a_wrong_byte_0_opens_too() {
        for_all_kinds(|line, seal, header, contents| {
            let payload = [&[payload_check(&contents) ^ 0x81], &contents[..]].concat();
            let bytes = assemble(line, seal, &header, &payload);
            let opened = open(line, seal, header.network, header.destination, &bytes);
            assert_eq!(opened, Ok((header, payload)));
        });
    }

    #[test]
    fn another_network_is_refused() {
        for place in 5..=10 {
            assert_eq!(refused(&printed_with(&[(place, 0x20)])), 5);
        }
        for network in [0, 2, 1 << 36 | 1, u64::MAX] {
            let opened = open(Line::Cable, Seal::Plain, network, 2, PRINTED);
            assert_eq!(opened, Err(refusal(5)));
        }
    }

    #[test]
    fn another_destination_is_refused() {
        assert_eq!(refused(&printed_with(&[(3, 1)])), 6);
        assert_eq!(refused(&printed_with(&[(4, 3)])), 6);
        assert_eq!(refused(&printed_with(&[(4, 0)])), 6);
        for did in [0, 1, 1 << 12 | 2, u64::MAX] {
            let opened = open(Line::Cable, Seal::Plain, 1, did, PRINTED);
            assert_eq!(opened, Err(refusal(6)));
        }
    }

    #[test]
    fn unknown_types_and_other_sizes_are_refused() {
        for value in (0..64).filter(|value| ![1, 2, 3].contains(value)) {
            assert_eq!(refused(&printed_with(&[(13, value)])), 7);
        }
        for size in [1, 2, 3] {
            for value in (0..64).filter(|value| u64::from(*value) != size) {
                assert_eq!(refused(&changed(&built(size), &[(14, value)])), 7);
            }
        }
    }

    #[test]
    fn other_techniques_and_set_filling_bits_are_refused() {
        for size in [1, 2, 3] {
            // With contents of zeros the last value has nothing but the technique and the filling bits.
            let frame = built(size);
            for value in (1..64).filter(|value| value % (1 << (2 * size)) != 0) {
                assert_eq!(refused(&changed(&frame, &[(frame.len() - 1, value)])), 8);
            }
        }
        let sealed = build(
            Line::Cable,
            Seal::Xtea(KEY),
            &PRINTED_HEADER,
            &PRINTED_PAYLOAD[1..],
        )
        .unwrap();
        assert_eq!(refused(&sealed), 8);
        let opened = open(Line::Cable, Seal::Xtea(KEY), 1, 2, PRINTED);
        assert_eq!(opened, Err(refusal(8)));
    }

    #[test]
    fn the_lowest_number_is_given() {
        let (network, destination, frame_type, technique) = ((5, 9), (3, 9), (13, 9), (25, 1));
        let all = printed_with(&[network, destination, frame_type, technique]);
        assert_eq!(refused(&all), 5);
        assert_eq!(
            refused(&printed_with(&[destination, frame_type, technique])),
            6
        );
        assert_eq!(refused(&printed_with(&[frame_type, technique])), 7);
        assert_eq!(refused(&printed_with(&[technique])), 8);
        let mut damaged = all.clone();
        damaged[2] ^= 1;
        assert_eq!(refused(&damaged), 4);
        damaged[25] = 0x70;
        assert_eq!(refused(&damaged), 3);
        damaged.push(b'0');
        assert_eq!(refused(&damaged), 2);
    }

    #[test]
    fn building_refuses_what_no_frame_has() {
        let contents = &PRINTED_PAYLOAD[1..];
        let refused = |header: Header, contents: &[u8]| {
            build(Line::Radio, Seal::Plain, &header, contents)
                .unwrap_err()
                .number
        };
        for frame_type in [0, 4, 63, 65, u64::MAX] {
            let header = Header {
                frame_type,
                ..PRINTED_HEADER
            };
            assert_eq!(refused(header, contents), 7);
        }
        for size in [0, 2, 3, 4, 65, u64::MAX] {
            let header = Header {
                size,
                ..PRINTED_HEADER
            };
            assert_eq!(refused(header, contents), 7);
        }
        for length in [0, 6, 8, 15] {
            assert_eq!(refused(PRINTED_HEADER, &vec![0; length]), 7);
        }
        // A size of 4 is refused with the contents that would be its own, too.
        let header = Header {
            size: 4,
            ..PRINTED_HEADER
        };
        assert_eq!(refused(header, &[0; 31]), 7);
        let too_large = [
            Header {
                repeater: 1 << 12,
                ..PRINTED_HEADER
            },
            Header {
                destination: 1 << 12,
                ..PRINTED_HEADER
            },
            Header {
                source: 1 << 12,
                ..PRINTED_HEADER
            },
            Header {
                network: 1 << 36,
                ..PRINTED_HEADER
            },
        ];
        for header in too_large {
            assert_eq!(refused(header, contents), 11);
            let header = Header {
                frame_type: 0,
                ..header
            };
            assert_eq!(refused(header, contents), 7);
        }
    }
}
