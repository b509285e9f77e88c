//! The proved library, through its C interface.

use crate::interface::{BlockCipher, Direction, Mac};
use crate::reference::Block;

/// A run name of eight bytes.
pub type Run = [u8; 8];

/// A key's schedule, as the library keeps it.
#[derive(Clone, Copy)]
#[repr(C, align(4))]
pub struct Aes128([u8; 176]);

/// A CMAC key, as the library keeps it.
#[derive(Clone, Copy)]
#[repr(C, align(4))]
pub struct Cmac([u8; 208]);

// A block crosses as a struct of sixteen bytes, behind a pointer.
unsafe extern "C" {
    fn block_cipher_aes128(key: &Block) -> Aes128;
    fn block_cipher_encrypt(aes: &Aes128, block: &mut Block);
    fn block_cipher_counter(aes: &Aes128, iv: &Block, i: u64, block: &mut Block);
    fn block_cipher_cmac(key: &Block) -> Cmac;
    fn block_cipher_tag(mac: &Cmac, message: *const u8, length: usize, tag: &mut Block);
    fn network_mask(
        key: &Block,
        shape: *const u8,
        shape_length: usize,
        runs: *const Run,
        run_count: usize,
        code: *mut u8,
        code_length: usize,
    ) -> u8;
    fn network_unmask(
        key: &Block,
        shape: *const u8,
        shape_length: usize,
        runs: *const Run,
        run_count: usize,
        code: *mut u8,
        code_length: usize,
    ) -> u8;
    fn network_walk(
        key: &Block,
        shape: *const u8,
        shape_length: usize,
        back: bool,
        runs: *const Run,
        run_count: usize,
        code: *mut u8,
        code_length: usize,
    ) -> u8;
    fn codebook_swap(
        coins: *const u8,
        coin_bytes: usize,
        shape: *const u8,
        shape_length: usize,
        back: bool,
        runs: *const Run,
        run_count: usize,
        code: *mut u8,
        code_length: usize,
    ) -> u8;
    fn codebook_walk(
        coins: *const u8,
        coin_bytes: usize,
        shape: *const u8,
        shape_length: usize,
        back: bool,
        runs: *const Run,
        run_count: usize,
        code: *mut u8,
        code_length: usize,
    ) -> u8;
    fn network_indices(
        mac: &Cmac,
        radix: u8,
        length: u8,
        run: &Run,
        indices: *mut u8,
        index_count: usize,
    ) -> u8;
}

/// The number of the cause of a refusal.
#[derive(Debug)]
pub struct Refused(#[expect(dead_code, reason = "it is printed")] u8);

/// What a call swaps by. It is made anew in each call.
#[derive(Clone, Copy)]
pub enum Cipher<'a> {
    /// The network over the pool from a key.
    Network(&'a Block),
    /// The walk over it to codes that do not begin with 0.
    NetworkWalk(&'a Block),
    /// The codebook from coins.
    Codebook(&'a [u8]),
    /// The same walk over that.
    CodebookWalk(&'a [u8]),
}

/// Masks or unmasks a code of symbols under one run after the other.
pub fn swap(
    cipher: Cipher,
    direction: Direction,
    shape: &str,
    runs: &[Run],
    code: &mut [u8],
) -> Result<(), Refused> {
    let back = matches!(direction, Direction::Unmask);
    let (text, text_length) = (shape.as_ptr(), shape.len());
    let (names, count) = (runs.as_ptr(), runs.len());
    let (symbols, length) = (code.as_mut_ptr(), code.len());
    // SAFETY: each slice crosses as a pointer and a length, and a run name is a struct of its bytes.
    let number = unsafe {
        match cipher {
            Cipher::Network(key) => {
                let call = if back { network_unmask } else { network_mask };
                call(key, text, text_length, names, count, symbols, length)
            }
            Cipher::NetworkWalk(key) => {
                network_walk(key, text, text_length, back, names, count, symbols, length)
            }
            Cipher::Codebook(coins) | Cipher::CodebookWalk(coins) => {
                let call = match cipher {
                    Cipher::CodebookWalk(_) => codebook_walk,
                    _ => codebook_swap,
                };
                let (bytes, size) = (coins.as_ptr(), coins.len());
                call(
                    bytes,
                    size,
                    text,
                    text_length,
                    back,
                    names,
                    count,
                    symbols,
                    length,
                )
            }
        }
    };
    accepted(number)
}

fn accepted(number: u8) -> Result<(), Refused> {
    match number {
        0 => Ok(()),
        cause => Err(Refused(cause)),
    }
}

impl BlockCipher for Aes128 {
    fn new(key: &Block) -> Self {
        // SAFETY: the key is sixteen bytes, and the schedule is of the library's size.
        unsafe { block_cipher_aes128(key) }
    }

    fn encrypt(&self, block: &mut Block) {
        // SAFETY: the schedule is the library's own.
        unsafe { block_cipher_encrypt(self, block) }
    }

    fn counter(&self, iv: &Block, i: u64, block: &mut Block) {
        // SAFETY: the schedule is the library's own.
        unsafe { block_cipher_counter(self, iv, i, block) }
    }

    fn last_round_key(&self) -> Block {
        let mut key = [0; 16];
        key.copy_from_slice(&self.0[160..]);
        key
    }
}

impl Mac for Cmac {
    fn new(key: &Block) -> Self {
        // SAFETY: the key is sixteen bytes, and the value is of the library's size.
        unsafe { block_cipher_cmac(key) }
    }

    fn tag(&self, message: &[u8], tag: &mut Block) {
        // SAFETY: the message is read as a slice, and the value is the library's own.
        unsafe { block_cipher_tag(self, message.as_ptr(), message.len(), tag) }
    }
}

impl Cmac {
    /// Fills `indices` with the index sequence of a run, over the pool from the key.
    pub fn indices(
        &self,
        radix: u8,
        length: u8,
        run: &Run,
        indices: &mut [u8],
    ) -> Result<(), Refused> {
        // SAFETY: the slice crosses as a pointer and a length, and the value is the library's own.
        let number = unsafe {
            network_indices(
                self,
                radix,
                length,
                run,
                indices.as_mut_ptr(),
                indices.len(),
            )
        };
        accepted(number)
    }
}
