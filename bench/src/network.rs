//! The baseline of the FAST network, as fast as portable scalar Rust makes it.
//!
//! The layers run over a window that moves: a layer writes one symbol past the end, and nothing is
//! shifted. A row of the pool holds its box twice, so that no remainder is taken. A layer waits for
//! the symbol that was written w' layers before it, and a backward layer for that of w layers before
//! it, so the last w' or w symbols stay in variables. The window and the index sequences of eight
//! lanes have places of their own, and nothing is cleared. No access has a bounds check.

use crate::coins::{CounterBits, shuffled};
use crate::interface::{BlockCipher, Direction, Mac};
use crate::reference::Block;
use crate::tables::{Aes128, Cmac, Lookup};

const BOXES: usize = 256;
const MOST_SYMBOLS: usize = 64;
const MOST_LAYERS: usize = 2_048;
const MOST_LENGTH: usize = 32;
/// How many index sequences are kept.
pub const LANES: usize = 8;
const TABLE: usize = BOXES * 2 * MOST_SYMBOLS;

/// The numbers of a derived key's label.
const INDEX_SEQUENCE: u8 = 2;
const POOL: u8 = 3;

/// The numbers of a shape: how long its codes are, and how many layers a code goes through.
#[derive(Clone, Copy)]
pub struct Shape {
    pub radix: usize,
    pub len: usize,
    pub layers: usize,
}

impl Shape {
    /// The branch distances w and w'.
    fn distances(self) -> (usize, usize) {
        let w = self.len.isqrt().min(self.len - 2);
        (w, w.saturating_sub(1).max(1))
    }
}

/// The network over the pool from a key, for codes of one shape.
pub struct Network<L> {
    shape: Shape,
    /// The branch distances w and w'.
    distances: (usize, usize),
    mac: Cmac<L>,
    forward: Box<[u8; TABLE]>,
    inverse: Box<[u8; TABLE]>,
    indices: Box<[[u8; MOST_LAYERS]; LANES]>,
    window: [u8; MOST_LAYERS + MOST_LENGTH],
}

impl<L: Lookup> Network<L> {
    pub fn new(key: &Block, shape: Shape) -> Self {
        let mac = Cmac::new(key);
        let (forward, inverse) = pool(&mac, shape.radix);
        Network {
            shape,
            distances: shape.distances(),
            mac,
            forward,
            inverse,
            indices: Box::new([[0; MOST_LAYERS]; LANES]),
            window: [0; MOST_LAYERS + MOST_LENGTH],
        }
    }

    /// Masks or unmasks a code under a new run.
    #[inline(never)]
    pub fn swap(&mut self, direction: Direction, run: &[u8], code: &mut [u8]) {
        self.derive(0, run);
        self.layers(direction, 0, code);
    }

    /// The layers of the index sequence of a lane.
    pub fn layers(&mut self, direction: Direction, lane: usize, code: &mut [u8]) {
        match direction {
            Direction::Mask => self.encrypt(lane, code),
            Direction::Unmask => self.decrypt(lane, code),
        }
    }

    /// The same until the code does not begin with 0.
    pub fn walk(&mut self, direction: Direction, lane: usize, code: &mut [u8]) {
        loop {
            self.layers(direction, lane, code);
            if code[0] != 0 {
                return;
            }
        }
    }

    /// Makes the index sequence of a run the one of a lane.
    #[inline(never)]
    pub fn derive(&mut self, lane: usize, run: &[u8]) {
        let Shape { radix, len, layers } = self.shape;
        let (w, v) = self.distances;
        let [high, low] = (layers as u16).to_be_bytes();
        let mut list = [0; 14 + 32];
        let second = [len as u8, high, low, w as u8, v as u8, run.len() as u8];
        list[8..14].copy_from_slice(&second);
        list[14..14 + run.len()].copy_from_slice(run);
        let list = &mut list[..14 + run.len()];
        let [key, mut iv] = derived(&self.mac, INDEX_SEQUENCE, radix, list);
        iv[14..].fill(0);
        let cipher = Aes128::<L>::new(&key);
        let (blocks, _) = self.indices[lane].as_chunks_mut();
        for (i, block) in (0..layers.div_ceil(16) as u64).zip(blocks) {
            cipher.counter(&iv, i, block);
        }
    }

    /// The layers of all indices, the first one first.
    #[inline(never)]
    fn encrypt(&mut self, lane: usize, code: &mut [u8]) {
        match self.distances {
            (0, _) => self.forward::<1, true>(lane, code),
            (_, 1) => self.forward::<1, false>(lane, code),
            (_, 2) => self.forward::<2, false>(lane, code),
            (_, 3) => self.forward::<3, false>(lane, code),
            _ => self.forward::<4, false>(lane, code),
        }
    }

    /// The backward layers, the last one first.
    #[inline(never)]
    fn decrypt(&mut self, lane: usize, code: &mut [u8]) {
        match self.distances {
            (0, _) => self.backward::<1, true>(lane, code),
            (1, _) => self.backward::<1, false>(lane, code),
            (2, _) => self.backward::<2, false>(lane, code),
            (3, _) => self.backward::<3, false>(lane, code),
            (4, _) => self.backward::<4, false>(lane, code),
            _ => self.backward::<5, false>(lane, code),
        }
    }

    /// The index sequence of a lane.
    pub fn indices(&self, lane: usize) -> &[u8] {
        &self.indices[lane][..self.shape.layers]
    }

    #[inline(always)]
    fn forward<const V: usize, const ALONE: bool>(&mut self, lane: usize, code: &mut [u8]) {
        let Shape { radix, len, layers } = self.shape;
        let (w, _) = self.distances;
        let table = &*self.forward;
        let window = &mut self.window[..layers + len];
        window[..len].copy_from_slice(code);
        let mut last: [usize; V] = std::array::from_fn(|j| usize::from(code[len - V + j]));
        for (k, &i) in self.indices[lane][..layers].iter().enumerate() {
            let row = usize::from(i) * 2 * radix;
            // SAFETY: the window has `layers + len` symbols and w is below `len`; a row has twice
            // as many places as there are symbols, and every symbol is below the radix.
            unsafe {
                let here = usize::from(*window.get_unchecked(k));
                let ahead = usize::from(*window.get_unchecked(k + w));
                let first = table.get_unchecked(row + here..);
                let second = match ALONE {
                    true => table.get_unchecked(row..),
                    false => table.get_unchecked(row + radix - ahead..),
                };
                let u = *first.get_unchecked(last[0]);
                let z = *second.get_unchecked(usize::from(u));
                *window.get_unchecked_mut(k + len) = z;
                last = shifted(last, usize::from(z));
            }
        }
        code.copy_from_slice(&window[layers..]);
    }

    #[inline(always)]
    fn backward<const W: usize, const ALONE: bool>(&mut self, lane: usize, code: &mut [u8]) {
        let Shape { radix, len, layers } = self.shape;
        let (_, v) = self.distances;
        let table = &*self.inverse;
        let window = &mut self.window[..layers + len];
        window[layers..].copy_from_slice(code);
        let mut last: [usize; W] = std::array::from_fn(|j| usize::from(code[W - 1 - j]));
        for (k, &i) in self.indices[lane][..layers].iter().enumerate().rev() {
            let row = usize::from(i) * 2 * radix;
            // SAFETY: as in `forward`.
            unsafe {
                let end = usize::from(*window.get_unchecked(k + len));
                let behind = *window.get_unchecked(k + len - v);
                let first = table.get_unchecked(row..);
                let second = first.get_unchecked(usize::from(*first.get_unchecked(end))..);
                let t = *second.get_unchecked(if ALONE { 0 } else { last[0] });
                let (difference, borrowed) = t.overflowing_sub(behind);
                let z = difference.wrapping_add(if borrowed { radix as u8 } else { 0 });
                *window.get_unchecked_mut(k) = z;
                last = shifted(last, usize::from(z));
            }
        }
        code.copy_from_slice(&window[..len]);
    }
}

/// The last symbols, once another is written. They are passed on one by one, so that each stays in a
/// register.
#[inline(always)]
fn shifted<const N: usize>(last: [usize; N], symbol: usize) -> [usize; N] {
    std::array::from_fn(|j| if j + 1 < N { last[j + 1] } else { symbol })
}

/// The two halves of the derived key of a list, whose first eight bytes are filled in here.
fn derived<L: Lookup>(mac: &Cmac<L>, label: u8, radix: usize, list: &mut [u8]) -> [Block; 2] {
    let mut halves = [[0; 16]; 2];
    for (counter, half) in (0..).zip(&mut halves) {
        let [high, low] = (radix as u16).to_be_bytes();
        list[..8].copy_from_slice(&[counter, label, 1, 0, high, low, 1, 0]);
        mac.tag(list, half);
    }
    halves
}

/// The boxes that the key's coins shuffle and their inverses, each row twice.
fn pool<L: Lookup>(mac: &Cmac<L>, radix: usize) -> (Box<[u8; TABLE]>, Box<[u8; TABLE]>) {
    let [key, iv] = derived(mac, POOL, radix, &mut [0; 8]);
    let mut coins = CounterBits::<L>::new(&key, &iv);
    let (mut forward, mut inverse) = (Box::new([0; TABLE]), Box::new([0; TABLE]));
    for row in (0..BOXES).map(|n| n * 2 * radix) {
        let images: [u8; MOST_SYMBOLS] = shuffled(&mut coins, radix);
        for (symbol, &image) in images[..radix].iter().enumerate() {
            for copy in [row, row + radix] {
                forward[copy + symbol] = image;
                inverse[copy + usize::from(image)] = symbol as u8;
            }
        }
    }
    (forward, inverse)
}
