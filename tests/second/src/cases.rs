//! Bytes that the cases of both programs are made of.

use crate::line::Line;
use crate::random::Random;

/// Any byte but the one that ends a line.
pub fn any(random: &mut Random) -> u8 {
    loop {
        match random.byte() {
            b'\n' => {}
            byte => return byte,
        }
    }
}

/// A byte that is no symbol of the cable and does not end a line.
pub fn no_symbol(random: &mut Random) -> u8 {
    loop {
        let byte = any(random);
        if Line::Cable.value(byte).is_none() {
            return byte;
        }
    }
}
