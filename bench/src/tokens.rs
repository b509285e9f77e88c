//! Holds the baseline of the network to tokens from outside, on which two implementations that share
//! nothing with it agree.

use crate::compare::{Difference, same};
use crate::interface::Direction;
use crate::network::{Network, Shape};
use crate::reference::Block;
use crate::tables::Lookup;

const FIRST: Key = Key(0x2b7e151628aed2a6abf7158809cf4f3c, b"RED7");
const SECOND: Key = Key(0x000102030405060708090a0b0c0d0e0f, b"GALA-2026/09");

/// A main key and the name of a run.
#[derive(Clone, Copy)]
struct Key(u128, &'static [u8]);

/// A masked code, its symbols written as digits and then capital letters.
struct Token {
    key: Key,
    radix: usize,
    rounds: usize,
    plain: &'static str,
    masked: &'static str,
}

/// Lengths 2, 3, 7, 10, 16 and 32 have all pairs of branch distances that there are, w = 0 as well.
/// One has more rounds than the least number.
const TOKENS: [Token; 8] = [
    Token {
        key: FIRST,
        radix: 10,
        rounds: 83,
        plain: "30",
        masked: "66",
    },
    Token {
        key: FIRST,
        radix: 16,
        rounds: 55,
        plain: "3A1",
        masked: "74F",
    },
    Token {
        key: FIRST,
        radix: 10,
        rounds: 45,
        plain: "3074185",
        masked: "7470569",
    },
    Token {
        key: FIRST,
        radix: 10,
        rounds: 39,
        plain: "3074185296",
        masked: "5828062807",
    },
    Token {
        key: SECOND,
        radix: 10,
        rounds: 64,
        plain: "3074185296",
        masked: "5059974295",
    },
    Token {
        key: SECOND,
        radix: 16,
        rounds: 33,
        plain: "3A18F6D4B2907E5C",
        masked: "1E9408E6F201A69A",
    },
    Token {
        key: SECOND,
        radix: 10,
        rounds: 37,
        plain: "30741852963074185296307418529630",
        masked: "94574908741555690885723853573513",
    },
    Token {
        key: FIRST,
        radix: 36,
        rounds: 35,
        plain: "3AHOV29GNU18FMT07ELSZ6DKRY5CJQX4",
        masked: "D87EAQXWI1L44VXBE0W69FEMVBCQDRPK",
    },
];

/// Masks every plain code and unmasks it again.
pub fn check<L: Lookup>() -> Result<(), Difference> {
    for token in &TOKENS {
        let (plain, masked) = (symbols(token.plain), symbols(token.masked));
        let Key(key, run) = token.key;
        let shape = Shape {
            radix: token.radix,
            len: plain.len(),
            layers: token.rounds * plain.len(),
        };
        let key: Block = key.to_be_bytes();
        let mut network = Network::<L>::new(&key, shape);
        let place = || format!("{}: the token of {}", L::NAME, token.plain);
        let mut code = plain.clone();
        network.swap(Direction::Mask, run, &mut code);
        same(place, &masked, &code)?;
        network.swap(Direction::Unmask, run, &mut code);
        same(place, &plain, &code)?;
    }
    Ok(())
}

fn symbols(text: &str) -> Vec<u8> {
    let symbol = |letter: char| letter.to_digit(36).expect("a digit or a letter") as u8;
    text.chars().map(symbol).collect()
}
