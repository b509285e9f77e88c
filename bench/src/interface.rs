//! What the library and the table code both offer, so that they are compared and timed alike.

use crate::reference::Block;

pub trait BlockCipher {
    fn new(key: &Block) -> Self;

    fn encrypt(&self, block: &mut Block);

    /// `block` becomes the encryption of `iv + i` modulo 2^128.
    fn counter(&self, iv: &Block, i: u64, block: &mut Block);

    /// The last round key, from which the next key of a chain of key set-ups is taken.
    fn last_round_key(&self) -> Block;
}

pub trait Mac {
    fn new(key: &Block) -> Self;

    fn tag(&self, message: &[u8], tag: &mut Block);
}

/// Which way a network swaps a code.
#[derive(Clone, Copy)]
pub enum Direction {
    Mask,
    Unmask,
}
