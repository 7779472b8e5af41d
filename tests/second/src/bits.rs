//! Rows of bits, high bit first.

/// A number in so many bits.
pub fn of(number: u64, count: usize) -> Vec<bool> {
    (0..count).rev().map(|k| number >> k & 1 == 1).collect()
}

/// The number that a row of at most 64 bits writes.
pub fn number(row: &[bool]) -> u64 {
    row.iter()
        .fold(0, |number, bit| number * 2 + u64::from(*bit))
}

/// What is left of the message after division, with as many zero bits behind it as the divisor's degree.
pub fn remainder(message: &[bool], divisor: &[bool]) -> u64 {
    let mut row = message.to_vec();
    row.resize(message.len() + divisor.len() - 1, false);
    for at in 0..message.len() {
        if row[at] {
            for (bit, d) in row[at..].iter_mut().zip(divisor) {
                *bit ^= d;
            }
        }
    }
    number(&row[message.len()..])
}

#[cfg(test)]
mod tests {
    use super::*;

    #[test]
    fn numbers_read_back() {
        assert_eq!(of(0b1011, 6), [false, false, true, false, true, true]);
        assert_eq!(number(&of(u64::MAX - 1, 64)), u64::MAX - 1);
        assert_eq!(number(&[]), 0);
    }

    #[test]
    fn remainders() {
        // x^2 · x^2 = (x^2 + x + 1)(x^2 + x) + x
        assert_eq!(remainder(&of(0b100, 3), &of(0b111, 3)), 0b10);
        // A multiple of the divisor leaves nothing.
        assert_eq!(remainder(&of(0b1110, 4), &of(0b111, 3)), 0);
        assert_eq!(remainder(&[], &of(0x107, 9)), 0);
    }
}
