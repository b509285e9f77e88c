//! Holds the reference to the values that the standards publish.

use crate::compare::{Difference, same};
use crate::reference::{Aes128, Block};

/// The key of the examples of FIPS 197 appendix B, SP 800-38A and SP 800-38B.
const KEY: u128 = 0x2b7e151628aed2a6abf7158809cf4f3c;

/// The message of the examples of SP 800-38A and SP 800-38B, by blocks.
const MESSAGE: [u128; 4] = [
    0x6bc1bee22e409f96e93d7e117393172a,
    0xae2d8a571e03ac9c9eb76fac45af8e51,
    0x30c81c46a35ce411e5fbc1191a0a52ef,
    0xf69f2445df4f9b17ad2b417be66c3710,
];

pub fn check() -> Result<(), Difference> {
    blocks()?;
    counters()?;
    tags()
}

/// FIPS 197, appendix B and appendix C.1.
fn blocks() -> Result<(), Difference> {
    let examples = [
        (
            "FIPS 197 appendix B",
            KEY,
            0x3243f6a8885a308d313198a2e0370734,
            0x3925841d02dc09fbdc118597196a0b32,
        ),
        (
            "FIPS 197 appendix C.1",
            0x000102030405060708090a0b0c0d0e0f,
            0x00112233445566778899aabbccddeeff,
            0x69c4e0d86a7b0430d8cdb78070b4c55a,
        ),
    ];
    for (name, key, plain, expected) in examples {
        let found = Aes128::new(&block(key)).encrypt(&block(plain));
        same(|| name.to_string(), &block(expected), &found)?;
    }
    Ok(())
}

/// SP 800-38A, the output blocks of the counter mode's example.
fn counters() -> Result<(), Difference> {
    let cipher = Aes128::new(&block(KEY));
    let iv = block(0xf0f1f2f3f4f5f6f7f8f9fafbfcfdfeff);
    let outputs = [
        0xec8cdf7398607cb0f2d21675ea9ea1e4,
        0x362b7c3c6773516318a077d7fc5073ae,
        0x6a2cc3787889374fbeb4c81b17ba6c44,
        0xe89c399ff0f198c6d40a31db156cabfe,
    ];
    for (i, expected) in (0..).zip(outputs) {
        same(
            || format!("SP 800-38A output block {i}"),
            &block(expected),
            &cipher.counter(&iv, i),
        )?;
    }
    Ok(())
}

/// SP 800-38B, the subkeys and tags of the examples for AES-128.
fn tags() -> Result<(), Difference> {
    let cipher = Aes128::new(&block(KEY));
    let (k1, k2) = cipher.subkeys();
    same(
        || "SP 800-38B K1".to_string(),
        &block(0xfbeed618357133667c85e08f7236a8de),
        &k1,
    )?;
    same(
        || "SP 800-38B K2".to_string(),
        &block(0xf7ddac306ae266ccf90bc11ee46d513b),
        &k2,
    )?;
    let message = MESSAGE.map(block);
    let examples = [
        (0, 0xbb1d6929e95937287fa37d129b756746),
        (16, 0x070a16b46b4d4144f79bdd9dd04a287c),
        (20, 0x7d85449ea6ea19c823a7bf78837dfade),
        (40, 0xdfa66747de9ae63030ca32611497c827),
        (64, 0x51f0bebf7e3b9d92fc49741779363cfe),
    ];
    for (length, expected) in examples {
        let found = cipher.cmac(&message.as_flattened()[..length]);
        same(
            || format!("SP 800-38B tag of {length} bytes"),
            &block(expected),
            &found,
        )?;
    }
    Ok(())
}

fn block(number: u128) -> Block {
    number.to_be_bytes()
}
