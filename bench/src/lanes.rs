//! What is measured of the network, of codebooks and of walks over both. A code is swapped on and on, so
//! each operation works on what the one before it left.
//!
//! No cipher crosses the C interface: a call of the library makes one, swaps a code under a list of runs
//! and drops the cipher. So a call with a long list is timed, the time of a call with no run is taken
//! off, and the rest is divided by the runs.

use crate::codebook::Codebook;
use crate::harness::{Row, side_by_side};
use crate::interface::{Direction, Mac};
use crate::library::{self, Cipher, Run};
use crate::measures::KEY;
use crate::network::{LANES, Network, Shape};
use crate::tables::Lookup;
use std::hint::black_box;

/// How many runs a list has: so many that the making of the cipher weighs little.
const RUNS: usize = 1_000;
const NEW_RUNS: usize = 500;
const BOOK_RUNS: usize = 4_000;

/// A format that is measured, and the same with more rounds.
#[derive(Clone, Copy)]
pub struct Format {
    pub text: &'static str,
    pub shape: Shape,
    longer_text: &'static str,
    longer_layers: usize,
    /// Has it few enough codes for a walk?
    walks: bool,
}

pub const FORMATS: [Format; 5] = [
    format("d06", 10, 6, 288, "d06/096", 576, true),
    format("d10", 10, 10, 390, "d10/078", 780, true),
    format("d16", 10, 16, 592, "d16/074", 1_184, true),
    format("d32", 10, 32, 1_184, "d32/064", 2_048, false),
    format("m10", 36, 10, 340, "m10/068", 680, true),
];

const fn format(
    text: &'static str,
    radix: usize,
    len: usize,
    layers: usize,
    longer_text: &'static str,
    longer_layers: usize,
    walks: bool,
) -> Format {
    Format {
        text,
        shape: Shape { radix, len, layers },
        longer_text,
        longer_layers,
        walks,
    }
}

/// The measures of a format.
pub struct LaneRows {
    pub set_up: Row,
    pub indices: Row,
    pub mask: WayRows,
    pub unmask: WayRows,
}

/// The measures of one way.
pub struct WayRows {
    pub layers: Row,
    /// The first code under a new run.
    pub first: Row,
    /// A further code under the same run, against the baseline's layers alone.
    pub further: Row,
    /// Eight runs in turn.
    pub eight: Row,
    /// The walk under the same run.
    pub walk: Option<Row>,
}

/// The measures of a codebook.
pub struct BookRows {
    pub set_up: Row,
    /// Masked, and back.
    pub swap: [Row; 2],
    pub walk: [Row; 2],
}

pub fn measure<L: Lookup>(format: Format) -> LaneRows {
    let set_up = set_up::<L>(format);
    let indices = index_sequence::<L>(format.shape);
    let way = |direction| way::<L>(format, direction, &set_up, &indices);
    LaneRows {
        mask: way(Direction::Mask),
        unmask: way(Direction::Unmask),
        set_up,
        indices,
    }
}

/// A pool from the key, and the network over it.
fn set_up<L: Lookup>(format: Format) -> Row {
    let mut code = code(format.shape.len);
    side_by_side(
        "pool set-up from K",
        || {
            library::swap(
                Cipher::Network(&KEY),
                Direction::Mask,
                format.text,
                &[],
                &mut code,
            )
            .expect("a shape");
        },
        || {
            black_box(Network::<L>::new(&KEY, format.shape));
        },
    )
}

/// The next run is named by the last indices of the one before.
fn index_sequence<L: Lookup>(shape: Shape) -> Row {
    let ours = library::Cmac::new(&KEY);
    let mut baseline = Network::<L>::new(&KEY, shape);
    let (mut a, mut b) = (name(&[0; 8]), name(&[0; 8]));
    let mut indices = vec![0; shape.layers];
    side_by_side(
        "index sequence",
        || {
            let made = ours.indices(shape.radix as u8, shape.len as u8, &a, &mut indices);
            made.expect("the numbers of a shape and a legal name");
            a = name(indices.last_chunk().expect("more than eight"));
        },
        || {
            baseline.derive(0, &b);
            b = name(baseline.indices(0).last_chunk().expect("more than eight"));
        },
    )
}

fn way<L: Lookup>(format: Format, direction: Direction, set_up: &Row, indices: &Row) -> WayRows {
    let Format { text, shape, .. } = format;
    let mut baseline = Network::<L>::new(&KEY, shape);
    let names: Vec<Run> = (0..NEW_RUNS).map(numbered).collect();
    for (lane, run) in names[..LANES].iter().enumerate() {
        baseline.derive(lane, run);
    }
    let one = vec![names[0]; RUNS];
    let eight: Vec<Run> = names[..LANES].iter().copied().cycle().take(RUNS).collect();
    let mut b = code(shape.len);
    // The time of a code of ours: without the making of the cipher, and without that of the index
    // sequences where they are to be at hand.
    let a_code = |row: Row, runs: usize, sequences: usize| Row {
        ours_ns: (row.ours_ns - set_up.ours_ns - sequences as f64 * indices.ours_ns) / runs as f64,
        baseline_ns: row.baseline_ns / runs as f64,
        ..row
    };
    let ours = |cipher: Cipher<'static>, text: &'static str, runs: &[Run]| {
        let (mut a, runs) = (code(shape.len), runs.to_vec());
        move || {
            library::swap(cipher, direction, text, &runs, &mut a)
                .expect("a shape, legal names and a code");
        }
    };
    let network = Cipher::Network(&KEY);
    let further = a_code(
        side_by_side("further code, same run", ours(network, text, &one), || {
            for _ in 0..RUNS {
                baseline.layers(direction, 0, &mut b);
            }
        }),
        RUNS,
        1,
    );
    let eight = a_code(
        side_by_side("eight lanes in turn", ours(network, text, &eight), || {
            for i in 0..RUNS {
                baseline.layers(direction, i % LANES, &mut b);
            }
        }),
        RUNS,
        LANES,
    );
    let walk = format.walks.then(|| {
        let walk = Cipher::NetworkWalk(&KEY);
        let row = side_by_side("walk to no leading 0", ours(walk, text, &one), || {
            for _ in 0..RUNS {
                baseline.walk(direction, 0, &mut b);
            }
        });
        a_code(row, RUNS, 1)
    });
    let first = a_code(
        side_by_side("first code, new run", ours(network, text, &names), || {
            for run in &names {
                baseline.swap(direction, run, &mut b);
            }
        }),
        NEW_RUNS,
        0,
    );
    let longer = side_by_side(
        "longer",
        ours(network, format.longer_text, &one[..NEW_RUNS]),
        || black_box(()),
    );
    let longer = a_code(longer, NEW_RUNS, 1).ours_ns;
    // A further code costs so much a layer, and something beside its layers. The baseline's layers
    // were timed by themselves.
    let more = (format.longer_layers - shape.layers) as f64;
    let layers = Row {
        name: "core layers",
        ours_ns: (longer - further.ours_ns) / more * shape.layers as f64,
        baseline_ns: further.baseline_ns,
    };
    WayRows {
        layers,
        first,
        further,
        eight,
        walk,
    }
}

/// The codebook of three digits.
pub fn measure_books() -> BookRows {
    let coins: Vec<u8> = (0..8_192_u32)
        .map(|i| (i.wrapping_mul(2_654_435_761) >> 13) as u8)
        .collect();
    let coins = &coins;
    let book = Codebook::new(coins, 10, 3);
    let set_up = side_by_side(
        "codebook from coins",
        || {
            library::swap(
                Cipher::Codebook(coins),
                Direction::Mask,
                "d03",
                &[],
                &mut [1, 0, 0],
            )
            .expect("a shape and enough coins");
        },
        || {
            black_box(Codebook::new(black_box(coins), 10, 3));
        },
    );
    let runs = vec![numbered(0); BOOK_RUNS];
    let swap = |name, cipher: Cipher, direction, step: fn(&Codebook, Direction, &mut [u8])| {
        let (mut a, mut b) = ([1, 0, 0], [1, 0, 0]);
        let row = side_by_side(
            name,
            || {
                library::swap(cipher, direction, "d03", &runs, &mut a)
                    .expect("a shape, legal names and a code");
            },
            || {
                for _ in 0..BOOK_RUNS {
                    step(&book, direction, &mut b);
                }
            },
        );
        Row {
            ours_ns: (row.ours_ns - set_up.ours_ns) / BOOK_RUNS as f64,
            baseline_ns: row.baseline_ns / BOOK_RUNS as f64,
            ..row
        }
    };
    let both = [Direction::Mask, Direction::Unmask];
    let by_book = |direction| {
        swap(
            "codebook",
            Cipher::Codebook(coins),
            direction,
            Codebook::swap,
        )
    };
    let by_walk = |direction| {
        swap(
            "walk to no leading 0",
            Cipher::CodebookWalk(coins),
            direction,
            Codebook::walk,
        )
    };
    BookRows {
        swap: both.map(by_book),
        walk: both.map(by_walk),
        set_up,
    }
}

/// A code that a walk takes: 1 and then zeros.
fn code(len: usize) -> Vec<u8> {
    let mut code = vec![0; len];
    code[0] = 1;
    code
}

/// A legal run name from any bytes: its bytes are 33 to 126.
fn name(bytes: &[u8; 8]) -> Run {
    bytes.map(|byte| 33 + byte % 94)
}

/// The name of run i: no two are alike.
fn numbered(i: usize) -> Run {
    let text = format!("RUN{i:05}");
    text.into_bytes().try_into().expect("eight bytes")
}
