//! Times the program `bincards` on a long file of lines over eight lanes, and holds every answer to the
//! baseline.

use crate::harness::side_by_side;
use crate::interface::Direction;
use crate::network::{LANES, Network, Shape};
use crate::tables::FourTables;
use std::fs::{self, File};
use std::io::{self, BufWriter, Write};
use std::path::{Path, PathBuf};
use std::process::{Child, Command};
use std::time::{Duration, Instant};

const KEY: [u8; 16] = *b"a key to measure";
const SHAPE: Shape = Shape {
    radix: 10,
    len: 10,
    layers: 390,
};
const LINES: usize = 1_000_000;
const FEW_LINES: usize = 10_000;
const TIMES: usize = 5;

/// Runs the program and prints how fast it is, and how much memory it needs.
pub fn measure(program: &str) -> io::Result<()> {
    let folder = std::env::temp_dir().join(format!("bench-lines-{}", std::process::id()));
    fs::create_dir(&folder)?;
    let done = measure_in(program, &folder);
    fs::remove_dir_all(&folder)?;
    done
}

fn measure_in(program: &str, folder: &Path) -> io::Result<()> {
    let few = Session::write(folder, FEW_LINES)?;
    let many = Session::write(folder, LINES)?;
    for session in [&few, &many] {
        session.run(program)?.wait()?;
        session.check()?;
    }
    println!("No difference in the answers to {LINES} lines.\n");
    let mut seconds = f64::INFINITY;
    for _ in 0..TIMES {
        let start = Instant::now();
        many.run(program)?.wait()?;
        seconds = seconds.min(start.elapsed().as_secs_f64());
    }
    let line_ns = seconds * 1e9 / LINES as f64;
    let core_ns = core_ns();
    println!(
        "{:.0} lines a second: {line_ns:.0} ns a line.",
        1e9 / line_ns
    );
    println!(
        "The baseline's layers: {core_ns:.0} ns a code, so a line takes {:.2} times as long.",
        line_ns / core_ns
    );
    println!(
        "At 500 ns for the layers, that is {:.0} lines a second (goal: at least 500000).",
        1e9 / (line_ns / core_ns * 500.0)
    );
    println!(
        "Peak memory: {} KiB with {FEW_LINES} lines, {} KiB with {LINES} lines (goal: no more).",
        few.peak_kib(program)?,
        many.peak_kib(program)?
    );
    Ok(())
}

/// A file of lines, the answers to them, and where the program writes its own.
struct Session {
    lines: PathBuf,
    expected: PathBuf,
    found: PathBuf,
}

impl Session {
    /// A network, a run on each lane, and lines that mask and unmask random codes on one lane after
    /// the other.
    fn write(folder: &Path, count: usize) -> io::Result<Self> {
        let session = Session {
            lines: folder.join(format!("lines-{count}")),
            expected: folder.join(format!("expected-{count}")),
            found: folder.join(format!("found-{count}")),
        };
        let mut lines = BufWriter::new(File::create(&session.lines)?);
        let mut expected = BufWriter::new(File::create(&session.expected)?);
        let mut network = Network::<FourTables>::new(&KEY, SHAPE);
        let key: String = KEY.iter().map(|byte| format!("{byte:02X}")).collect();
        writeln!(lines, "F d {key}")?;
        writeln!(expected, "- ok")?;
        for lane in 1..=LANES {
            let run = format!("RUN-{lane}");
            network.derive(lane - 1, run.as_bytes());
            writeln!(lines, "S {lane} {run} d10")?;
            writeln!(expected, "{lane} ok")?;
        }
        let mut number: u64 = 1;
        for i in 0..count {
            let lane = i % LANES;
            let direction = [Direction::Mask, Direction::Unmask][i / LANES % 2];
            let letter = [b'M', b'U'][i / LANES % 2];
            number = number
                .wrapping_mul(6364136223846793005)
                .wrapping_add(1442695040888963407);
            let mut code = format!("{:010}", (number >> 20) % 10_000_000_000).into_bytes();
            writeln!(lines, "{} {} {}", letter as char, lane + 1, text(&code))?;
            code.iter_mut().for_each(|digit| *digit -= b'0');
            network.layers(direction, lane, &mut code);
            code.iter_mut().for_each(|symbol| *symbol += b'0');
            writeln!(expected, "{} {}", lane + 1, text(&code))?;
        }
        lines.flush()?;
        expected.flush()?;
        Ok(session)
    }

    fn run(&self, program: &str) -> io::Result<Child> {
        Command::new(program)
            .stdin(File::open(&self.lines)?)
            .stdout(File::create(&self.found)?)
            .spawn()
    }

    /// The most memory that the program held at once in one of a few runs.
    fn peak_kib(&self, program: &str) -> io::Result<u64> {
        let mut peak = 0;
        for _ in 0..TIMES {
            peak = peak_kib(self.run(program)?)?.max(peak);
        }
        Ok(peak)
    }

    fn check(&self) -> io::Result<()> {
        if fs::read(&self.expected)? == fs::read(&self.found)? {
            return Ok(());
        }
        Err(io::Error::other(
            "the program's answers differ from the baseline's",
        ))
    }
}

fn text(code: &[u8]) -> &str {
    std::str::from_utf8(code).expect("digits")
}

/// The layers of a code, half of them back, by the baseline: the mean.
fn core_ns() -> f64 {
    let [mut a, mut b] = [0; 2].map(|_| Network::<FourTables>::new(&KEY, SHAPE));
    let (mut a_code, mut b_code) = ([0; SHAPE.len], [0; SHAPE.len]);
    a.derive(0, b"RUN-1");
    b.derive(0, b"RUN-1");
    let row = side_by_side(
        "layers",
        || a.layers(Direction::Mask, 0, &mut a_code),
        || b.layers(Direction::Unmask, 0, &mut b_code),
    );
    (row.ours_ns + row.baseline_ns) / 2.0
}

/// The most memory that a program held at once, as it was last seen before its end.
fn peak_kib(mut child: Child) -> io::Result<u64> {
    let status = format!("/proc/{}/status", child.id());
    let mut peak = 0;
    while child.try_wait()?.is_none() {
        if let Ok(text) = fs::read_to_string(&status) {
            let line = text.lines().find_map(|line| line.strip_prefix("VmHWM:"));
            let number = line.and_then(|rest| rest.trim().trim_end_matches(" kB").parse().ok());
            peak = number.unwrap_or(0).max(peak);
        }
        std::thread::sleep(Duration::from_millis(1));
    }
    Ok(peak)
}
