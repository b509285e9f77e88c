//! AES-128, CMAC and counter blocks by bytes, written straight from FIPS 197 and SP 800-38B.
//!
//! This is what the library and the table code are compared with. It is slow and plain on purpose:
//! the functions have the standards' names and stand in their order.

pub type Block = [u8; 16];

/// The state: four columns of four bytes, so that a block's bytes stand in their own order.
type State = [[u8; 4]; 4];

/// A key's eleven round keys.
pub struct Aes128 {
    round_keys: [State; 11],
}

impl Aes128 {
    /// KeyExpansion.
    pub fn new(key: &Block) -> Self {
        let mut words = [[0; 4]; 44];
        words[..4].copy_from_slice(&columns(key));
        let mut round_constant = 1;
        for i in 4..44 {
            let mut word = words[i - 1];
            if i % 4 == 0 {
                word.rotate_left(1);
                word = word.map(|byte| SBOX[usize::from(byte)]);
                word[0] ^= round_constant;
                round_constant = double(round_constant);
            }
            for (byte, before) in word.iter_mut().zip(words[i - 4]) {
                *byte ^= before;
            }
            words[i] = word;
        }
        let mut round_keys = [[[0; 4]; 4]; 11];
        for (round_key, four) in round_keys.iter_mut().zip(words.chunks_exact(4)) {
            round_key.copy_from_slice(four);
        }
        Aes128 { round_keys }
    }

    /// Cipher.
    pub fn encrypt(&self, block: &Block) -> Block {
        let mut state = columns(block);
        add_round_key(&mut state, &self.round_keys[0]);
        for round_key in &self.round_keys[1..10] {
            sub_bytes(&mut state);
            shift_rows(&mut state);
            mix_columns(&mut state);
            add_round_key(&mut state, round_key);
        }
        sub_bytes(&mut state);
        shift_rows(&mut state);
        add_round_key(&mut state, &self.round_keys[10]);
        bytes(&state)
    }

    /// The encryption of `iv + i`, as numbers of 16 bytes, the highest byte first, modulo 2^128.
    pub fn counter(&self, iv: &Block, i: u64) -> Block {
        let mut sum = *iv;
        let mut carry = 0;
        for (place, byte) in sum.iter_mut().rev().enumerate() {
            let digit = if place < 8 {
                (i >> (8 * place)) as u8
            } else {
                0
            };
            let total = u16::from(*byte) + u16::from(digit) + carry;
            *byte = total as u8;
            carry = total >> 8;
        }
        self.encrypt(&sum)
    }

    /// CMAC with the whole block as tag.
    pub fn cmac(&self, message: &[u8]) -> Block {
        let (k1, k2) = self.subkeys();
        let count = message.len().div_ceil(16).max(1);
        let mut chain = [0; 16];
        for m in 1..=count {
            let part = &message[16 * (m - 1)..message.len().min(16 * m)];
            let mut block = [0; 16];
            block[..part.len()].copy_from_slice(part);
            if m == count && part.len() == 16 {
                block = xor(&block, &k1);
            } else if m == count {
                block[part.len()] = 0x80;
                block = xor(&block, &k2);
            }
            chain = self.encrypt(&xor(&chain, &block));
        }
        chain
    }

    /// The subkeys of CMAC: K1 for a last block that is whole, K2 for one that is padded.
    pub fn subkeys(&self) -> (Block, Block) {
        let k1 = shift_left(&self.encrypt(&[0; 16]));
        (k1, shift_left(&k1))
    }
}

/// The S-box at one byte: the inverse in GF(2^8), 0 for 0, then the affine map.
pub const fn sub_byte(byte: u8) -> u8 {
    let b = inverse(byte);
    b ^ b.rotate_left(1) ^ b.rotate_left(2) ^ b.rotate_left(3) ^ b.rotate_left(4) ^ 0x63
}

/// xtime: twice a byte in GF(2^8), modulo x^8 + x^4 + x^3 + x + 1.
pub const fn double(byte: u8) -> u8 {
    let shifted = byte << 1;
    if byte & 0x80 == 0 {
        shifted
    } else {
        shifted ^ 0x1b
    }
}

/// The product of two bytes in GF(2^8).
const fn times(mut a: u8, mut b: u8) -> u8 {
    let mut product = 0;
    while b != 0 {
        if b & 1 == 1 {
            product ^= a;
        }
        a = double(a);
        b >>= 1;
    }
    product
}

/// The inverse is the 254th power, since a byte other than 0 has 1 as its 255th.
const fn inverse(byte: u8) -> u8 {
    let mut power = 1;
    let mut i = 0;
    while i < 254 {
        power = times(power, byte);
        i += 1;
    }
    power
}

/// The S-box, worked out once for all bytes.
static SBOX: [u8; 256] = {
    let mut table = [0; 256];
    let mut i = 0;
    while i < 256 {
        table[i] = sub_byte(i as u8);
        i += 1;
    }
    table
};

fn sub_bytes(state: &mut State) {
    for byte in state.as_flattened_mut() {
        *byte = SBOX[usize::from(*byte)];
    }
}

fn shift_rows(state: &mut State) {
    let before = *state;
    for (c, column) in state.iter_mut().enumerate() {
        for (r, byte) in column.iter_mut().enumerate() {
            *byte = before[(c + r) % 4][r];
        }
    }
}

fn mix_columns(state: &mut State) {
    for column in state {
        let s = *column;
        for (r, byte) in column.iter_mut().enumerate() {
            *byte = times(s[r], 2) ^ times(s[(r + 1) % 4], 3) ^ s[(r + 2) % 4] ^ s[(r + 3) % 4];
        }
    }
}

fn add_round_key(state: &mut State, round_key: &State) {
    for (byte, key) in state
        .as_flattened_mut()
        .iter_mut()
        .zip(round_key.as_flattened())
    {
        *byte ^= key;
    }
}

fn columns(block: &Block) -> State {
    let mut state = [[0; 4]; 4];
    state.as_flattened_mut().copy_from_slice(block);
    state
}

fn bytes(state: &State) -> Block {
    let mut block = [0; 16];
    block.copy_from_slice(state.as_flattened());
    block
}

fn xor(a: &Block, b: &Block) -> Block {
    std::array::from_fn(|i| a[i] ^ b[i])
}

/// A block moved left by one bit; the bit that falls out comes back as 0x87 in the last byte.
fn shift_left(block: &Block) -> Block {
    let mut out = [0; 16];
    for i in 0..16 {
        let next = if i < 15 { block[i + 1] >> 7 } else { 0 };
        out[i] = block[i] << 1 | next;
    }
    if block[0] & 0x80 != 0 {
        out[15] ^= 0x87;
    }
    out
}
