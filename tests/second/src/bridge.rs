//! What the program `bridge` is fed, and what it must print.

use crate::cases::{any, no_symbol};
use crate::line::{read, write, Line};
use crate::random::Random;

const LENGTHS: [usize; 3] = [26, 37, 48];

/// A cable frame of any values, with its check.
fn good(random: &mut Random, length: usize) -> Vec<u8> {
    let values: Vec<u8> = (0..length).map(|_| random.below(64) as u8).collect();
    write(Line::Cable, &values)
}

/// Each case is one line of input.
fn lines(random: &mut Random) -> Vec<Vec<u8>> {
    let mut cases = vec![
        b"01>020000010111Y00E0@80<00".to_vec(),
        b"0".to_vec(),
        b"".to_vec(),
        b"01>020000010111Y00E0@80<00\r".to_vec(),
        vec![0x00; 26],
        vec![0xFF; 37],
        (0x80..0xB0).collect(),
    ];
    for length in LENGTHS {
        for _ in 0..8 {
            cases.push(good(random, length));
        }
        // Every byte damaged, by another symbol and by a byte that is none.
        let frame = good(random, length);
        for place in 0..length {
            let mut damaged = frame.clone();
            damaged[place] ^= 1;
            cases.push(damaged);
            let mut damaged = frame.clone();
            damaged[place] = no_symbol(random);
            cases.push(damaged);
        }
        // Each wrong check.
        for check in 0..64 {
            let mut damaged = frame.clone();
            damaged[2] = Line::Cable.symbol(check);
            cases.push(damaged);
        }
        // Several bytes that are no symbols: the first one's place is told, whatever the check.
        for _ in 0..8 {
            let mut damaged = frame.clone();
            for _ in 0..3 {
                damaged[random.below(length)] = no_symbol(random);
            }
            cases.push(damaged);
        }
    }
    // Every length, of symbols and of any bytes.
    for length in 0..=60 {
        cases.push((0..length).map(|_| 0x30 + random.below(64) as u8).collect());
        cases.push((0..length).map(|_| any(random)).collect());
    }
    cases.push((0..1000).map(|_| any(random)).collect());
    // The last line has no end.
    cases.push(good(random, 26));
    cases
}

fn answer(frame: &[u8], carried: &mut usize) -> String {
    match read(Line::Cable, frame) {
        Ok(values) => {
            *carried += 1;
            write(Line::Radio, &values)
                .iter()
                .map(|byte| format!("{byte:02X}"))
                .collect()
        }
        Err(refusal) => refusal.to_string(),
    }
}

/// The bytes of the files `stdin` and `stdout`.
pub fn vectors(seed: u64) -> (Vec<u8>, Vec<u8>) {
    let cases = lines(&mut Random::new(seed));
    let mut carried = 0;
    let mut output = String::new();
    for case in &cases {
        output.push_str(&answer(case, &mut carried));
        output.push('\n');
    }
    let refused = cases.len() - carried;
    output.push_str(&format!("{carried} carried, {refused} refused\n"));
    (cases.join(&b'\n'), output.into_bytes())
}
