//! Compares the library and both variants of the table code with the reference, and the network, the
//! codebook and the walks with their baselines, on many inputs.

use crate::codebook::Codebook;
use crate::interface::{BlockCipher, Direction, Mac};
use crate::library::{self, Cipher, Run};
use crate::network::{Network, Shape};
use crate::reference::{self, Block};
use crate::tables::{self, FourTables, Lookup, OneTable};
use std::fmt;

const RANDOM_KEYS: u64 = 4_000;
const BLOCKS_A_KEY: u64 = 4;
const CMAC_KEYS: u64 = 20;
const NETWORK_KEYS: u64 = 10;
const RUNS_A_KEY: usize = 40;
/// More names than sequences are kept, so that each is kept, replaced and made again.
const NAMES_A_KEY: u64 = 12;
const LONG_MESSAGES: [usize; 8] = [255, 256, 257, 1_023, 1_024, 1_025, 4_096, 65_537];

/// Where two results first differ.
pub struct Difference {
    place: String,
    expected: String,
    found: String,
}

impl fmt::Display for Difference {
    fn fmt(&self, f: &mut fmt::Formatter) -> fmt::Result {
        writeln!(f, "difference at {}", self.place)?;
        writeln!(f, "  expected {}", self.expected)?;
        write!(f, "  found    {}", self.found)
    }
}

/// How many results were compared.
#[derive(Default)]
pub struct Counts {
    pub blocks: u64,
    pub counters: u64,
    pub tags: u64,
    pub codes: u64,
}

/// Runs every comparison, of the library first, and stops at the first difference.
pub fn check() -> Result<Counts, Difference> {
    let mut counts = against_reference::<Library>()?;
    against_reference::<FourTables>()?;
    against_reference::<OneTable>()?;
    networks(&mut counts)?;
    codebooks(&mut counts)?;
    Ok(counts)
}

fn against_reference<C: Candidate>() -> Result<Counts, Difference> {
    let mut counts = Counts::default();
    let mut random = Random(1);
    single_bits::<C>(&mut counts)?;
    random_blocks::<C>(&mut random, &mut counts)?;
    counters::<C>(&mut random, &mut counts)?;
    tags::<C>(&mut random, &mut counts)?;
    Ok(counts)
}

/// Refuses `found` where it is not `expected`.
pub fn same(place: impl Fn() -> String, expected: &[u8], found: &[u8]) -> Result<(), Difference> {
    if expected == found {
        return Ok(());
    }
    Err(Difference {
        place: place(),
        expected: hex(expected),
        found: hex(found),
    })
}

/// An implementation that is held to the reference.
trait Candidate {
    const NAME: &'static str;
    type Cipher: BlockCipher;
    type Mac: Mac;
}

struct Library;

impl Candidate for Library {
    const NAME: &'static str = "the library";
    type Cipher = library::Aes128;
    type Mac = library::Cmac;
}

impl<L: Lookup> Candidate for L {
    const NAME: &'static str = L::NAME;
    type Cipher = tables::Aes128<L>;
    type Mac = tables::Cmac<L>;
}

/// A key set up by the reference and by a candidate.
struct Ciphers<C: Candidate> {
    key: Block,
    reference: reference::Aes128,
    candidate: C::Cipher,
}

impl<C: Candidate> Ciphers<C> {
    fn new(key: Block) -> Self {
        Ciphers {
            key,
            reference: reference::Aes128::new(&key),
            candidate: C::Cipher::new(&key),
        }
    }

    fn block(&self, plain: &Block, counts: &mut Counts) -> Result<(), Difference> {
        let place = || format!("{}: block {}, key {}", C::NAME, hex(plain), hex(&self.key));
        let mut found = *plain;
        self.candidate.encrypt(&mut found);
        counts.blocks += 1;
        same(place, &self.reference.encrypt(plain), &found)
    }

    fn counter(&self, iv: &Block, i: u64, counts: &mut Counts) -> Result<(), Difference> {
        let place = || {
            format!(
                "{}: counter {i}, IV {}, key {}",
                C::NAME,
                hex(iv),
                hex(&self.key)
            )
        };
        let mut found = [0; 16];
        self.candidate.counter(iv, i, &mut found);
        counts.counters += 1;
        same(place, &self.reference.counter(iv, i), &found)
    }
}

/// A CMAC key set up by the reference and by a candidate.
struct Macs<C: Candidate> {
    key: Block,
    reference: reference::Aes128,
    candidate: C::Mac,
}

impl<C: Candidate> Macs<C> {
    fn new(key: Block) -> Self {
        Macs {
            key,
            reference: reference::Aes128::new(&key),
            candidate: C::Mac::new(&key),
        }
    }

    fn tag(&self, message: &[u8], counts: &mut Counts) -> Result<(), Difference> {
        let place = || {
            format!(
                "{}: tag of {} bytes, key {}",
                C::NAME,
                message.len(),
                hex(&self.key)
            )
        };
        let mut found = [0; 16];
        self.candidate.tag(message, &mut found);
        counts.tags += 1;
        same(place, &self.reference.cmac(message), &found)
    }
}

/// Every key and every block that is zero but for one bit, and those that are all zero or all one.
fn single_bits<C: Candidate>(counts: &mut Counts) -> Result<(), Difference> {
    let numbers = || (0..128).map(|bit| 1_u128 << bit).chain([0, u128::MAX]);
    for key in numbers() {
        Ciphers::<C>::new(key.to_be_bytes()).block(&[0; 16], counts)?;
    }
    let zero = Ciphers::<C>::new([0; 16]);
    for plain in numbers() {
        zero.block(&plain.to_be_bytes(), counts)?;
    }
    Ok(())
}

fn random_blocks<C: Candidate>(random: &mut Random, counts: &mut Counts) -> Result<(), Difference> {
    for _ in 0..RANDOM_KEYS {
        let ciphers = Ciphers::<C>::new(random.block());
        for _ in 0..BLOCKS_A_KEY {
            ciphers.block(&random.block(), counts)?;
        }
    }
    Ok(())
}

/// Random counters, and those on both sides of a carry out of 64 bits and of the wrap at 2^128.
fn counters<C: Candidate>(random: &mut Random, counts: &mut Counts) -> Result<(), Difference> {
    let ciphers = Ciphers::<C>::new(random.block());
    for _ in 0..1_000 {
        ciphers.counter(&random.block(), random.next(), counts)?;
    }
    let edges = [0, 1 << 64, u128::MAX - u128::from(u64::MAX), u128::MAX];
    for edge in edges {
        for offset in -3_i128..=3 {
            let iv = edge.wrapping_add_signed(offset).to_be_bytes();
            for i in [0, 1, 2, 3, 4, 255, 256, u64::MAX - 1, u64::MAX] {
                ciphers.counter(&iv, i, counts)?;
            }
        }
    }
    // A carry out of each byte.
    for byte in 1..16 {
        let iv = ((1_u128 << (8 * byte)) - 1).to_be_bytes();
        ciphers.counter(&iv, 1, counts)?;
    }
    Ok(())
}

fn tags<C: Candidate>(random: &mut Random, counts: &mut Counts) -> Result<(), Difference> {
    let mut message = vec![0; 65_537];
    for _ in 0..CMAC_KEYS {
        let macs = Macs::<C>::new(random.block());
        random.fill(&mut message);
        for length in (0..=80).chain(LONG_MESSAGES) {
            macs.tag(&message[..length], counts)?;
        }
    }
    Ok(())
}

/// A shape of each pair of branch distances, with its text and whether a walk takes it, and one with
/// more rounds than the least.
const SHAPES: [(&str, Shape, bool); 9] = [
    ("d02", shape(10, 2, 83), true),
    ("h03", shape(16, 3, 55), true),
    ("d06", shape(10, 6, 48), true),
    ("d07", shape(10, 7, 45), true),
    ("d10", shape(10, 10, 39), true),
    ("d10/064", shape(10, 10, 64), true),
    ("m10", shape(36, 10, 34), true),
    ("u16", shape(26, 16, 33), false),
    ("m32", shape(36, 32, 35), false),
];

/// Shapes that a codebook can have.
const BOOKS: [(&str, Shape); 5] = [
    ("d01", shape(10, 1, 0)),
    ("d03", shape(10, 3, 0)),
    ("h03", shape(16, 3, 0)),
    ("u02", shape(26, 2, 0)),
    ("m02", shape(36, 2, 0)),
];

const fn shape(radix: usize, len: usize, rounds: usize) -> Shape {
    Shape {
        radix,
        len,
        layers: rounds * len,
    }
}

/// Random codes under random keys, masked and unmasked under runs of a few names, by the network and by
/// the walk over it.
fn networks(counts: &mut Counts) -> Result<(), Difference> {
    let mut random = Random(2);
    for (text, shape, walks) in SHAPES {
        for _ in 0..NETWORK_KEYS {
            let key = random.block();
            let mut baseline = Network::<FourTables>::new(&key, shape);
            let runs = random.runs();
            for direction in [Direction::Mask, Direction::Unmask] {
                let swap = |code: &mut [u8], run: &Run| baseline.swap(direction, run, code);
                let case = Case::new(Cipher::Network(&key), direction, text, &runs);
                case.check(random.code(shape), swap, counts)?;
                if walks {
                    let walk = |code: &mut [u8], run: &Run| {
                        baseline.derive(0, run);
                        baseline.walk(direction, 0, code);
                    };
                    let case = Case::new(Cipher::NetworkWalk(&key), direction, text, &runs);
                    case.check(random.nonzero_code(shape), walk, counts)?;
                }
            }
        }
    }
    Ok(())
}

/// The same by codebooks from random coins, and by walks over them.
fn codebooks(counts: &mut Counts) -> Result<(), Difference> {
    let mut random = Random(3);
    for (text, shape) in BOOKS {
        for _ in 0..NETWORK_KEYS {
            let coins: Box<[u8; 16_384]> = Box::new(random.bytes());
            let baseline = Codebook::new(&*coins, shape.radix, shape.len);
            let runs = random.runs();
            for direction in [Direction::Mask, Direction::Unmask] {
                let swap = |code: &mut [u8], _: &Run| baseline.swap(direction, code);
                let case = Case::new(Cipher::Codebook(&*coins), direction, text, &runs);
                case.check(random.code(shape), swap, counts)?;
                let walk = |code: &mut [u8], _: &Run| baseline.walk(direction, code);
                let case = Case::new(Cipher::CodebookWalk(&*coins), direction, text, &runs);
                case.check(random.nonzero_code(shape), walk, counts)?;
            }
        }
    }
    Ok(())
}

/// A call of the library.
struct Case<'a> {
    cipher: Cipher<'a>,
    direction: Direction,
    text: &'a str,
    runs: &'a [Run],
}

impl<'a> Case<'a> {
    fn new(cipher: Cipher<'a>, direction: Direction, text: &'a str, runs: &'a [Run]) -> Self {
        Case {
            cipher,
            direction,
            text,
            runs,
        }
    }

    /// Holds it to what the baseline makes of the code under one run after the other.
    fn check(
        &self,
        code: Vec<u8>,
        mut swap: impl FnMut(&mut [u8], &Run),
        counts: &mut Counts,
    ) -> Result<(), Difference> {
        let mut expected = code.clone();
        for run in self.runs {
            swap(&mut expected, run);
        }
        let mut found = code.clone();
        library::swap(
            self.cipher,
            self.direction,
            self.text,
            self.runs,
            &mut found,
        )
        .expect("a shape, legal names and a code");
        counts.codes += self.runs.len() as u64;
        let place = || {
            format!(
                "{}: code {}, {}",
                self.text,
                hex(&code),
                described(self.cipher)
            )
        };
        same(place, &expected, &found)
    }
}

fn described(cipher: Cipher) -> String {
    match cipher {
        Cipher::Network(key) => format!("the network, key {}", hex(key)),
        Cipher::NetworkWalk(key) => format!("the walk over the network, key {}", hex(key)),
        Cipher::Codebook(coins) => format!("the codebook, coins {}", hex(coins)),
        Cipher::CodebookWalk(coins) => format!("the walk over the codebook, coins {}", hex(coins)),
    }
}

fn hex(bytes: &[u8]) -> String {
    bytes.iter().map(|byte| format!("{byte:02x}")).collect()
}

/// A small generator (SplitMix64): the same numbers in every run.
struct Random(u64);

impl Random {
    fn next(&mut self) -> u64 {
        self.0 = self.0.wrapping_add(0x9e3779b97f4a7c15);
        let z = (self.0 ^ (self.0 >> 30)).wrapping_mul(0xbf58476d1ce4e5b9);
        let z = (z ^ (z >> 27)).wrapping_mul(0x94d049bb133111eb);
        z ^ (z >> 31)
    }

    fn fill(&mut self, bytes: &mut [u8]) {
        for part in bytes.chunks_mut(8) {
            part.copy_from_slice(&self.next().to_le_bytes()[..part.len()]);
        }
    }

    fn bytes<const N: usize>(&mut self) -> [u8; N] {
        let mut bytes = [0; N];
        self.fill(&mut bytes);
        bytes
    }

    fn block(&mut self) -> Block {
        self.bytes()
    }

    /// A legal run name: its bytes are 33 to 126.
    fn name(&mut self) -> Run {
        self.bytes().map(|byte: u8| 33 + byte % 94)
    }

    /// Runs of a few names, in any order.
    fn runs(&mut self) -> [Run; RUNS_A_KEY] {
        let names: [Run; NAMES_A_KEY as usize] = std::array::from_fn(|_| self.name());
        std::array::from_fn(|_| names[(self.next() % NAMES_A_KEY) as usize])
    }

    /// A code that does not begin with 0.
    fn nonzero_code(&mut self, shape: Shape) -> Vec<u8> {
        let mut code = self.code(shape);
        code[0] = code[0].max(1);
        code
    }

    fn code(&mut self, shape: Shape) -> Vec<u8> {
        let symbol = |_| (self.next() % shape.radix as u64) as u8;
        (0..shape.len).map(symbol).collect()
    }
}
