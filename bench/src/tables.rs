//! The baseline: AES-128 by table lookups on 32-bit words, as fast as portable safe Rust makes it.
//!
//! A word is a column of the state, its first row in the lowest byte. SubBytes, ShiftRows and
//! MixColumns of a column are then four lookups and three exclusive ors. The lookups come in two
//! variants, and the faster one of the run is the baseline. Indices are bytes, so no lookup has a
//! bounds check. What is measured is `#[inline(never)]`: it is called as the library is.

use crate::interface::{BlockCipher, Mac};
use crate::reference::{Block, double, sub_byte};
use std::marker::PhantomData;

type Words = [u32; 4];

/// How a column of the next state comes from its round key and the four bytes that ShiftRows moves
/// into it.
pub trait Lookup {
    const NAME: &'static str;

    fn column(key: u32, a: u8, b: u8, c: u8, d: u8) -> u32;
}

/// A table of 1 KiB for each row.
pub struct FourTables;

impl Lookup for FourTables {
    const NAME: &'static str = "four tables";

    #[inline(always)]
    fn column(key: u32, a: u8, b: u8, c: u8, d: u8) -> u32 {
        ((key ^ ROWS[0].at(a)) ^ ROWS[1].at(b)) ^ (ROWS[2].at(c) ^ ROWS[3].at(d))
    }
}

/// The first row's table alone: the others are its words rotated.
pub struct OneTable;

impl Lookup for OneTable {
    const NAME: &'static str = "one table with rotations";

    #[inline(always)]
    fn column(key: u32, a: u8, b: u8, c: u8, d: u8) -> u32 {
        let [a, b, c, d] = [a, b, c, d].map(|byte| ROWS[0].at(byte));
        key ^ a ^ b.rotate_left(8) ^ c.rotate_left(16) ^ d.rotate_left(24)
    }
}

pub struct Aes128<L> {
    round_keys: [Words; 11],
    lookup: PhantomData<L>,
}

impl<L: Lookup> BlockCipher for Aes128<L> {
    #[inline(never)]
    fn new(key: &Block) -> Self {
        let mut round_keys = [words(key); 11];
        let [mut a, mut b, mut c, mut d] = round_keys[0];
        for (round_key, constant) in round_keys[1..].iter_mut().zip(ROUND_CONSTANTS) {
            a ^= sub_word(d.rotate_right(8)) ^ u32::from(constant);
            b ^= a;
            c ^= b;
            d ^= c;
            *round_key = [a, b, c, d];
        }
        Aes128 {
            round_keys,
            lookup: PhantomData,
        }
    }

    #[inline(never)]
    fn encrypt(&self, block: &mut Block) {
        *block = bytes(self.cipher(words(block)));
    }

    #[inline(never)]
    fn counter(&self, iv: &Block, i: u64, block: &mut Block) {
        let sum = u128::from_be_bytes(*iv).wrapping_add(u128::from(i));
        *block = bytes(self.cipher(words(&sum.to_be_bytes())));
    }

    fn last_round_key(&self) -> Block {
        bytes(self.round_keys[10])
    }
}

impl<L: Lookup> Aes128<L> {
    #[inline(always)]
    fn cipher(&self, state: Words) -> Words {
        let [k0, k1, k2, k3, k4, k5, k6, k7, k8, k9, k10] = &self.round_keys;
        let state = xor(state, *k0);
        let state = round::<L>(state, k1);
        let state = round::<L>(state, k2);
        let state = round::<L>(state, k3);
        let state = round::<L>(state, k4);
        let state = round::<L>(state, k5);
        let state = round::<L>(state, k6);
        let state = round::<L>(state, k7);
        let state = round::<L>(state, k8);
        let state = round::<L>(state, k9);
        last_round(state, k10)
    }
}

/// A CMAC key: the cipher and the subkeys for a last block that is whole and one that is padded.
pub struct Cmac<L> {
    cipher: Aes128<L>,
    whole: Words,
    padded: Words,
}

impl<L: Lookup> Mac for Cmac<L> {
    #[inline(never)]
    fn new(key: &Block) -> Self {
        let cipher = Aes128::new(key);
        let zero = u128::from_be_bytes(bytes(cipher.cipher([0; 4])));
        let whole = doubled(zero);
        let padded = doubled(whole);
        Cmac {
            cipher,
            whole: words(&whole.to_be_bytes()),
            padded: words(&padded.to_be_bytes()),
        }
    }

    #[inline(never)]
    fn tag(&self, message: &[u8], tag: &mut Block) {
        let before_last = message.len().saturating_sub(1) / 16 * 16;
        let (head, last) = message.split_at(before_last);
        let mut chain = [0; 4];
        for block in head.as_chunks().0 {
            chain = self.cipher.cipher(xor(chain, words(block)));
        }
        *tag = bytes(self.cipher.cipher(xor(chain, self.last_block(last))));
    }
}

impl<L: Lookup> Cmac<L> {
    #[inline(always)]
    fn last_block(&self, last: &[u8]) -> Words {
        match last.first_chunk() {
            Some(block) => xor(words(block), self.whole),
            None => {
                let mut block = [0; 16];
                block[..last.len()].copy_from_slice(last);
                block[last.len()] = 0x80;
                xor(words(&block), self.padded)
            }
        }
    }
}

/// SubBytes, ShiftRows, MixColumns and AddRoundKey.
#[inline(always)]
fn round<L: Lookup>(state: Words, key: &Words) -> Words {
    let [a, b, c, d] = state.map(u32::to_le_bytes);
    [
        L::column(key[0], a[0], b[1], c[2], d[3]),
        L::column(key[1], b[0], c[1], d[2], a[3]),
        L::column(key[2], c[0], d[1], a[2], b[3]),
        L::column(key[3], d[0], a[1], b[2], c[3]),
    ]
}

/// SubBytes, ShiftRows and AddRoundKey.
#[inline(always)]
fn last_round(state: Words, key: &Words) -> Words {
    let [a, b, c, d] = state.map(u32::to_le_bytes);
    [
        substituted(a[0], b[1], c[2], d[3]) ^ key[0],
        substituted(b[0], c[1], d[2], a[3]) ^ key[1],
        substituted(c[0], d[1], a[2], b[3]) ^ key[2],
        substituted(d[0], a[1], b[2], c[3]) ^ key[3],
    ]
}

#[inline(always)]
fn sub_word(word: u32) -> u32 {
    let [a, b, c, d] = word.to_le_bytes();
    substituted(a, b, c, d)
}

#[inline(always)]
fn substituted(a: u8, b: u8, c: u8, d: u8) -> u32 {
    u32::from_le_bytes([SBOX.at(a), SBOX.at(b), SBOX.at(c), SBOX.at(d)])
}

#[inline(always)]
fn xor(a: Words, b: Words) -> Words {
    [a[0] ^ b[0], a[1] ^ b[1], a[2] ^ b[2], a[3] ^ b[3]]
}

#[inline(always)]
fn words(block: &Block) -> Words {
    let (columns, _) = block.as_chunks();
    std::array::from_fn(|i| u32::from_le_bytes(columns[i]))
}

/// Joined as one number, since the compiler makes slower code of four words stored side by side.
#[inline(always)]
fn bytes(words: Words) -> Block {
    let [a, b, c, d] = words.map(u64::from);
    let (low, high) = (a | b << 32, c | d << 32);
    (u128::from(low) | u128::from(high) << 64).to_le_bytes()
}

/// Twice a block in GF(2^128), modulo x^128 + x^7 + x^2 + x + 1.
fn doubled(block: u128) -> u128 {
    (block << 1) ^ ((block >> 127) * 0x87)
}

/// A table by bytes, at the start of a cache line.
#[repr(align(64))]
struct Table<T>([T; 256]);

impl<T: Copy> Table<T> {
    #[inline(always)]
    fn at(&self, i: u8) -> T {
        self.0[usize::from(i)]
    }
}

static SBOX: Table<u8> = {
    let mut table = [0; 256];
    let mut i = 0;
    while i < 256 {
        table[i] = sub_byte(i as u8);
        i += 1;
    }
    Table(table)
};

static ROWS: [Table<u32>; 4] = [row(0), row(1), row(2), row(3)];

/// What a byte in row `r`, once substituted, adds to its column in MixColumns.
const fn row(r: u32) -> Table<u32> {
    let mut table = [0; 256];
    let mut i = 0;
    while i < 256 {
        let s = SBOX.0[i];
        let first = u32::from_le_bytes([double(s), s, s, double(s) ^ s]);
        table[i] = first.rotate_left(8 * r);
        i += 1;
    }
    Table(table)
}

const ROUND_CONSTANTS: [u8; 10] = [0x01, 0x02, 0x04, 0x08, 0x10, 0x20, 0x40, 0x80, 0x1b, 0x36];
