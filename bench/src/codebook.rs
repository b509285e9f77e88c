//! The baseline of the codebook: a code as a number, looked up in a table, and written as a code again.

use crate::coins::{ByteBits, shuffled};
use crate::interface::Direction;

const MOST_CODES: usize = 4_096;

/// A permutation of the codes of a radix and a length, as a permutation of their numbers.
pub struct Codebook {
    radix: u16,
    forward: [u16; MOST_CODES],
    inverse: [u16; MOST_CODES],
}

impl Codebook {
    pub fn new(coins: &[u8], radix: usize, len: usize) -> Self {
        let count = radix.pow(len as u32);
        let forward: [u16; MOST_CODES] = shuffled(&mut ByteBits::new(coins), count);
        let mut inverse = [0; MOST_CODES];
        for (number, &image) in forward[..count].iter().enumerate() {
            inverse[usize::from(image)] = number as u16;
        }
        Codebook {
            radix: radix as u16,
            forward,
            inverse,
        }
    }

    #[inline(never)]
    pub fn swap(&self, direction: Direction, code: &mut [u8]) {
        let table = match direction {
            Direction::Mask => &self.forward,
            Direction::Unmask => &self.inverse,
        };
        let mut number = 0;
        for &symbol in &*code {
            number = number * self.radix + u16::from(symbol);
        }
        // SAFETY: a code of the radix and the length has a number below their count.
        let mut rest = unsafe { *table.get_unchecked(usize::from(number)) };
        for symbol in code.iter_mut().rev() {
            *symbol = (rest % self.radix) as u8;
            rest /= self.radix;
        }
    }

    /// The same until the code does not begin with 0.
    pub fn walk(&self, direction: Direction, code: &mut [u8]) {
        loop {
            self.swap(direction, code);
            if code[0] != 0 {
                return;
            }
        }
    }
}
