//! The baseline's coins: bits, the highest of each byte first, and boxes that they shuffle.

use crate::interface::BlockCipher;
use crate::reference::Block;
use crate::tables::{Aes128, Lookup};

/// A source of coins, 64 at a time.
pub trait Bits {
    fn next(&mut self) -> u64;
}

/// Coins that are taken a few at a time.
pub struct Coins<B> {
    bits: B,
    /// The coins that wait, the next one highest.
    waiting: u128,
    count: u32,
}

impl<B: Bits> Coins<B> {
    fn of(bits: B) -> Self {
        Coins {
            bits,
            waiting: 0,
            count: 0,
        }
    }

    #[inline(always)]
    fn take(&mut self, count: u32) -> u32 {
        if self.count < count {
            self.waiting |= u128::from(self.bits.next()) << (64 - self.count);
            self.count += 64;
        }
        let number = (self.waiting >> (128 - count)) as u32;
        self.waiting <<= count;
        self.count -= count;
        number
    }

    /// An even draw: four bits more than needed, and a try that would favour a number is rejected.
    #[inline(always)]
    fn draw_below(&mut self, bound: u32) -> usize {
        let count = (bound - 1).ilog2() + 1 + 4;
        let size = 1 << count;
        let least = size % bound;
        loop {
            let product = self.take(count) * bound;
            if product & (size - 1) >= least {
                return (product >> count) as usize;
            }
        }
    }
}

/// The numbers below a bound, shuffled.
#[inline(always)]
pub fn shuffled<B: Bits, T: Copy + Default + TryFrom<usize>, const N: usize>(
    coins: &mut Coins<B>,
    bound: usize,
) -> [T; N] {
    let mut images = [T::default(); N];
    for (number, image) in images[..bound].iter_mut().enumerate() {
        *image = T::try_from(number).unwrap_or_default();
    }
    for i in (1..bound).rev() {
        images.swap(i, coins.draw_below(i as u32 + 1));
    }
    images
}

/// The bits of counter blocks.
pub struct CounterBits<L> {
    cipher: Aes128<L>,
    iv: Block,
    made: u64,
    second: Option<u64>,
}

impl<L: Lookup> CounterBits<L> {
    pub fn new(key: &Block, iv: &Block) -> Coins<Self> {
        Coins::of(CounterBits {
            cipher: Aes128::new(key),
            iv: *iv,
            made: 0,
            second: None,
        })
    }
}

impl<L: Lookup> Bits for CounterBits<L> {
    #[inline(always)]
    fn next(&mut self) -> u64 {
        if let Some(half) = self.second.take() {
            return half;
        }
        let mut block = [0; 16];
        self.cipher.counter(&self.iv, self.made, &mut block);
        self.made += 1;
        let number = u128::from_be_bytes(block);
        self.second = Some(number as u64);
        (number >> 64) as u64
    }
}

/// The bits of bytes, and zeros after them.
pub struct ByteBits<'a>(&'a [u8]);

impl<'a> ByteBits<'a> {
    pub fn new(bytes: &'a [u8]) -> Coins<Self> {
        Coins::of(ByteBits(bytes))
    }
}

impl Bits for ByteBits<'_> {
    fn next(&mut self) -> u64 {
        let mut eight = [0; 8];
        let (head, rest) = self.0.split_at(self.0.len().min(8));
        eight[..head.len()].copy_from_slice(head);
        self.0 = rest;
        u64::from_be_bytes(eight)
    }
}
