//! Compares the proved block cipher, network, codebooks and walks with independent ones, then times both
//! side by side.

mod codebook;
mod coins;
mod compare;
mod harness;
mod interface;
mod lanes;
mod library;
mod lines;
mod measures;
mod network;
mod published;
mod reference;
mod tables;
mod tokens;

use harness::Row;
use lanes::{BookRows, FORMATS, Format, LaneRows};
use measures::Variant;
use std::process::ExitCode;
use tables::FourTables;

fn main() -> ExitCode {
    let words: Vec<String> = std::env::args().skip(1).collect();
    match &words[..] {
        [] => measure_all(),
        [word, program] if word == "lines" => measure_lines(program),
        _ => {
            eprintln!("usage: bench, or bench lines PROGRAM");
            ExitCode::FAILURE
        }
    }
}

/// The lines of the program `bincards`.
fn measure_lines(program: &str) -> ExitCode {
    match lines::measure(program) {
        Ok(()) => ExitCode::SUCCESS,
        Err(error) => {
            eprintln!("{program}: {error}");
            ExitCode::FAILURE
        }
    }
}

/// Everything that the static libraries export.
fn measure_all() -> ExitCode {
    if let Err(difference) = published::check() {
        eprintln!("the reference is wrong: {difference}");
        return ExitCode::FAILURE;
    }
    if let Err(difference) = tokens::check::<FourTables>() {
        eprintln!("the baseline of the network is wrong: {difference}");
        return ExitCode::FAILURE;
    }
    match compare::check() {
        Ok(counts) => println!(
            "No difference in {} blocks, {} counter blocks, {} tags and {} codes.\n",
            counts.blocks, counts.counters, counts.tags, counts.codes
        ),
        Err(difference) => {
            eprintln!("{difference}");
            return ExitCode::FAILURE;
        }
    }
    let baseline = faster();
    print_block_cipher(&(baseline.measures)());
    let mut all = Vec::new();
    for format in FORMATS {
        let rows = (baseline.lanes)(format);
        print_lanes(format, &rows);
        all.push((format, rows));
    }
    print_books(&(baseline.books)());
    print_goals(&all);
    ExitCode::SUCCESS
}

/// The faster variant of the table code.
fn faster() -> Variant {
    let [four, one] = measures::variants();
    for variant in [&four, &one] {
        println!("{:.1} ns a block by {}", variant.block_ns, variant.name);
    }
    let faster = if four.block_ns <= one.block_ns {
        four
    } else {
        one
    };
    println!("The baseline is {}.\n", faster.name);
    faster
}

fn print_block_cipher(rows: &[Row]) {
    print(rows);
    let [block, key_set_up, ..] = rows else {
        return;
    };
    println!(
        "\nA block: {:.2} times the baseline (goal: at most 1.15).",
        block.ratio()
    );
    println!(
        "A key set-up: {:.2} blocks of ours (goal: at most 2).\n",
        key_set_up.ours_ns / block.ours_ns
    );
}

fn print_lanes(format: Format, rows: &LaneRows) {
    let LaneRows {
        set_up,
        indices,
        mask,
        unmask,
    } = rows;
    print_head(&format!("{}, {} layers", format.text, format.shape.layers));
    print_both(&mask.layers, &unmask.layers);
    print_both(&mask.first, &unmask.first);
    print_both(&mask.further, &unmask.further);
    print_both(&mask.eight, &unmask.eight);
    if let (Some(mask), Some(unmask)) = (&mask.walk, &unmask.walk) {
        print_both(mask, unmask);
    }
    print_one(indices);
    print_one(set_up);
    println!();
}

fn print_books(rows: &BookRows) {
    let BookRows { set_up, swap, walk } = rows;
    print_head("d03, a codebook");
    for [mask, unmask] in [swap, walk] {
        print_both(mask, unmask);
    }
    print_one(set_up);
    println!();
}

fn print_goals(all: &[(Format, LaneRows)]) {
    println!("| Goal    | new run / baseline | same run / baseline's layers | eight lanes / one |");
    println!("|---------|-------------------:|-----------------------------:|------------------:|");
    for (format, rows) in all {
        let LaneRows { mask, unmask, .. } = rows;
        let pair = |f: fn(&lanes::WayRows) -> f64| format!("{:.2}, {:.2}", f(mask), f(unmask));
        println!(
            "| {:<7} | {:>18} | {:>28} | {:>17} |",
            format.text,
            pair(|way| way.first.ratio()),
            pair(|way| way.further.ratio()),
            pair(|way| way.eight.ours_ns / way.further.ours_ns),
        );
    }
    println!("| at most |                1.3 |                          1.3 |                 1 |");
}

/// The head of a table of both ways.
fn print_head(title: &str) {
    println!(
        "| {title:<22} | masked: ours | baseline | ratio | unmasked: ours | baseline | ratio |"
    );
    println!(
        "|{:-<24}|-------------:|---------:|------:|---------------:|---------:|------:|",
        ""
    );
}

fn print_both(mask: &Row, unmask: &Row) {
    println!(
        "| {:<22} | {:>12.1} | {:>8.1} | {:>5.2} | {:>14.1} | {:>8.1} | {:>5.2} |",
        mask.name,
        mask.ours_ns,
        mask.baseline_ns,
        mask.ratio(),
        unmask.ours_ns,
        unmask.baseline_ns,
        unmask.ratio()
    );
}

fn print_one(row: &Row) {
    println!(
        "| {:<22} | {:>12.1} | {:>8.1} | {:>5.2} |                |          |       |",
        row.name,
        row.ours_ns,
        row.baseline_ns,
        row.ratio()
    );
}

/// A table in Markdown, as the README keeps it.
fn print<'a>(rows: impl IntoIterator<Item = &'a Row>) {
    println!("| Measure             |    ours | baseline | ratio |");
    println!("|---------------------|--------:|---------:|------:|");
    for row in rows {
        println!(
            "| {:<19} | {:>7.1} | {:>8.1} | {:>5.2} |",
            row.name,
            row.ours_ns,
            row.baseline_ns,
            row.ratio()
        );
    }
}
