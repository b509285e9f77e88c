//! What is measured of the block cipher. Each operation works on what the one before it left, so that its whole time
//! counts and not only its share of a pipeline.

use crate::harness::{Row, side_by_side};
use crate::interface::{BlockCipher, Mac};
use crate::lanes::{self, BookRows, LaneRows};
use crate::library;
use crate::tables::{Aes128, Cmac, FourTables, Lookup, OneTable};

pub const KEY: [u8; 16] = *b"a key to measure";
const COUNTER_BLOCKS: u64 = 25;

/// A variant of the table code: its name, its time for a block, and the measures against it.
pub struct Variant {
    pub name: &'static str,
    pub block_ns: f64,
    pub measures: fn() -> Vec<Row>,
    pub lanes: fn(lanes::Format) -> LaneRows,
    pub books: fn() -> BookRows,
}

/// Both variants of the table code, timed side by side.
pub fn variants() -> [Variant; 2] {
    let (four, one) = (
        Aes128::<FourTables>::new(&KEY),
        Aes128::<OneTable>::new(&KEY),
    );
    let (mut a, mut b) = ([0; 16], [0; 16]);
    let row = side_by_side("variants", || four.encrypt(&mut a), || one.encrypt(&mut b));
    [
        variant::<FourTables>(row.ours_ns),
        variant::<OneTable>(row.baseline_ns),
    ]
}

/// Every measure of the block cipher against the variant `L`: a block and a key set-up first.
fn block_cipher<L: Lookup>() -> Vec<Row> {
    vec![
        one_block::<L>(),
        key_set_up::<L>(),
        tag::<L, 16>("CMAC of 16 bytes"),
        tag::<L, 45>("CMAC of 45 bytes"),
        tag::<L, 1_024>("CMAC of 1,024 bytes"),
        counter_blocks::<L>(),
    ]
}

fn variant<L: Lookup>(block_ns: f64) -> Variant {
    Variant {
        name: L::NAME,
        block_ns,
        measures: block_cipher::<L>,
        lanes: lanes::measure::<L>,
        books: lanes::measure_books,
    }
}

fn one_block<L: Lookup>() -> Row {
    let (ours, baseline) = (library::Aes128::new(&KEY), Aes128::<L>::new(&KEY));
    let (mut a, mut b) = ([0; 16], [0; 16]);
    side_by_side(
        "one block",
        || ours.encrypt(&mut a),
        || baseline.encrypt(&mut b),
    )
}

/// The next key is the end of the schedule of the one before.
fn key_set_up<L: Lookup>() -> Row {
    let (mut a, mut b) = (KEY, KEY);
    side_by_side(
        "one key set-up",
        || a = library::Aes128::new(&a).last_round_key(),
        || b = Aes128::<L>::new(&b).last_round_key(),
    )
}

/// The next message begins with the tag of the one before. The subkeys are made once.
fn tag<L: Lookup, const LENGTH: usize>(name: &'static str) -> Row {
    let ours = library::Cmac::new(&KEY);
    let baseline = Cmac::<L>::new(&KEY);
    let (mut a, mut b) = ([0; LENGTH], [0; LENGTH]);
    let (mut a_tag, mut b_tag) = ([0; 16], [0; 16]);
    side_by_side(
        name,
        || {
            ours.tag(&a, &mut a_tag);
            a[..16].copy_from_slice(&a_tag);
        },
        || {
            baseline.tag(&b, &mut b_tag);
            b[..16].copy_from_slice(&b_tag);
        },
    )
}

/// The next IV is the last block of the run before.
fn counter_blocks<L: Lookup>() -> Row {
    let (ours, baseline) = (library::Aes128::new(&KEY), Aes128::<L>::new(&KEY));
    let (mut a, mut b) = ([0xff; 16], [0xff; 16]);
    let (mut a_block, mut b_block) = ([0; 16], [0; 16]);
    side_by_side(
        "25 counter blocks",
        || {
            for i in 0..COUNTER_BLOCKS {
                ours.counter(&a, i, &mut a_block);
            }
            a = a_block;
        },
        || {
            for i in 0..COUNTER_BLOCKS {
                baseline.counter(&b, i, &mut b_block);
            }
            b = b_block;
        },
    )
}
