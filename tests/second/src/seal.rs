//! The two seals.

#[derive(Clone, Copy)]
pub enum Seal {
    Plain,
    Xtea([u8; 16]),
}

const CYCLES: u32 = 32;
const SUM_STEP: u32 = 0x9E37_79B9;

/// The word of the key with this number, counted modulo 4.
fn key_word(key: &[u8; 16], number: u32) -> u32 {
    let start = 4 * (number % 4) as usize;
    key[start..start + 4]
        .iter()
        .fold(0, |word, byte| word << 8 | u32::from(*byte))
}

/// What one word of the block grows by, given the other.
fn growth(other: u32, sum: u32, key_word: u32) -> u32 {
    ((other << 4) ^ (other >> 5)).wrapping_add(other) ^ sum.wrapping_add(key_word)
}

fn first_growth(w: u32, sum: u32, key: &[u8; 16]) -> u32 {
    growth(w, sum, key_word(key, sum))
}

fn second_growth(v: u32, sum: u32, key: &[u8; 16]) -> u32 {
    growth(v, sum, key_word(key, sum >> 11))
}

fn words(block: u64) -> (u32, u32) {
    ((block >> 32) as u32, block as u32)
}

fn block(v: u32, w: u32) -> u64 {
    u64::from(v) << 32 | u64::from(w)
}

fn xtea_close(key: &[u8; 16], clear: u64) -> u64 {
    let (mut v, mut w) = words(clear);
    let mut sum: u32 = 0;
    for _ in 0..CYCLES {
        v = v.wrapping_add(first_growth(w, sum, key));
        sum = sum.wrapping_add(SUM_STEP);
        w = w.wrapping_add(second_growth(v, sum, key));
    }
    block(v, w)
}

fn xtea_open(key: &[u8; 16], closed: u64) -> u64 {
    let (mut v, mut w) = words(closed);
    let mut sum = SUM_STEP.wrapping_mul(CYCLES);
    for _ in 0..CYCLES {
        w = w.wrapping_sub(second_growth(v, sum, key));
        sum = sum.wrapping_sub(SUM_STEP);
        v = v.wrapping_sub(first_growth(w, sum, key));
    }
    block(v, w)
}

impl Seal {
    pub fn close(self, block: u64) -> u64 {
        match self {
            Seal::Plain => block,
            Seal::Xtea(key) => xtea_close(&key, block),
        }
    }

    pub fn open(self, block: u64) -> u64 {
        match self {
            Seal::Plain => block,
            Seal::Xtea(key) => xtea_open(&key, block),
        }
    }

    pub fn technique(self) -> u8 {
        match self {
            Seal::Plain => 0,
            Seal::Xtea(_) => 1,
        }
    }
}

#[cfg(test)]
mod tests {
    use super::*;
    use crate::random::Random;

    #[test]
    fn xtea_figures() {
        let counting: [u8; 16] = std::array::from_fn(|k| k as u8);
        let figures = [
            (counting, 0x4142_4344_4546_4748, 0x497D_F3D0_7261_2CB5),
            (counting, 0x4141_4141_4141_4141, 0xE78F_2D13_7443_41D8),
            ([0x00; 16], 0x4142_4344_4546_4748, 0xA039_0589_F8B8_EFA5),
            ([0x33; 16], 0x1E22_3344_5566_7788, 0x3F56_E8F5_142D_7278),
        ];
        for (key, clear, closed) in figures {
            assert_eq!(Seal::Xtea(key).close(clear), closed);
            assert_eq!(Seal::Xtea(key).open(closed), clear);
        }
    }

    #[test]
    fn opening_and_closing_take_each_other_back() {
        let mut random = Random::new(1);
        for _ in 0..300 {
            let key = std::array::from_fn(|_| random.byte());
            let block = random.next();
            for seal in [Seal::Plain, Seal::Xtea(key)] {
                assert_eq!(seal.open(seal.close(block)), block);
                assert_eq!(seal.close(seal.open(block)), block);
            }
        }
    }

    #[test]
    fn plain_changes_nothing() {
        assert_eq!(
            Seal::Plain.close(0x0123_4567_89AB_CDEF),
            0x0123_4567_89AB_CDEF
        );
    }

    #[test]
    fn techniques() {
        assert_eq!(Seal::Plain.technique(), 0);
        assert_eq!(Seal::Xtea([0; 16]).technique(), 1);
    }
}
