//! Compares the library with the published Rust, or with document 01's stand-ins where the Rust's
//! body is not published. `oracle/run` builds and runs it.
//!
//! options: --seed N       the cases' seed (default 1); 'time' takes one from the clock
//!          --cases N      cases of each number operation (default 10,000,000); a fifth as many
//!                         outlines, with thirteen calls on each, a fifth as many outlines with a
//!                         cell to fill, a tenth as many ellipses, and a twentieth as many lists
//!                         of boxes, with three calls on each, and sets of outlines, with two;
//!                         a fiftieth as many sets with many points, an eightieth as many
//!                         lists of boxes with two cells, one inside the other, and a fifth as
//!                         many GDSII streams
//!          --sample N     no comparison: writes about N cases with the Rust's answers ..
//!          --to FOLDER    .. to FOLDER/stdin and FOLDER/stdout
//!
//! Exit status: 0 all equal; 1 a mismatch, each printed with its inputs and both answers as bit
//! patterns (a long outline's first numbers only); 2 bad usage.
#![allow(dead_code)] // the published modules hold more than is called yet

mod boxes;
mod buffers;
mod ellipses;
mod fills;
mod indexes;
mod layouts;
mod library;
mod many;
mod numbers;
mod original;
mod outlines;
mod random;
mod reader;
mod refusals;
mod report;
mod sample;
mod sets;
mod shapes;
mod smallest;
mod standins;
mod streams;
mod zooms;

use std::path::PathBuf;
use std::process::ExitCode;
use std::time::{Instant, SystemTime};

struct Options {
    seed: u64,
    cases: u64,
    sample: Option<u64>,
    to: Option<PathBuf>,
}

fn options() -> Option<Options> {
    let mut o = Options {
        seed: 1,
        cases: 10_000_000,
        sample: None,
        to: None,
    };
    let mut args = std::env::args().skip(1);
    while let Some(name) = args.next() {
        let value = args.next()?;
        match name.as_str() {
            "--seed" if value == "time" => {
                o.seed = SystemTime::UNIX_EPOCH.elapsed().ok()?.as_nanos() as u64;
            }
            "--seed" => o.seed = value.parse().ok()?,
            "--cases" => o.cases = value.parse().ok()?,
            "--sample" => o.sample = Some(value.parse().ok()?),
            "--to" => o.to = Some(value.into()),
            _ => return None,
        }
    }
    (o.sample.is_some() == o.to.is_some()).then_some(o)
}

fn write_sample(seed: u64, count: u64, folder: PathBuf) -> ExitCode {
    let mut out = sample::Sample::default();
    numbers::sample(&mut out, seed, count);
    outlines::sample(&mut out, seed, count / 4);
    ellipses::sample(&mut out, seed, count / 10);
    fills::sample(&mut out, seed, count / 20);
    indexes::sample(&mut out, seed, count / 40);
    sets::sample(&mut out, seed, count / 40);
    many::sample(&mut out, seed, count / 50);
    streams::sample(&mut out, seed, count / 20);
    match out.write(&folder) {
        Ok(()) => ExitCode::SUCCESS,
        Err(e) => {
            eprintln!("oracle: {}: {e}", folder.display());
            ExitCode::from(2)
        }
    }
}

fn compare(seed: u64, cases: u64) -> ExitCode {
    println!("seed {seed}");
    let start = Instant::now();
    let mut report = report::Report::new();
    numbers::compare(&mut report, seed, cases);
    outlines::compare(&mut report, seed, cases / 5);
    ellipses::compare(&mut report, seed, cases / 10);
    fills::compare(&mut report, seed, cases / 5);
    indexes::compare(&mut report, seed, cases / 20);
    sets::compare(&mut report, seed, cases / 20);
    many::compare(&mut report, seed, cases / 50);
    zooms::compare(&mut report, seed, cases / 80);
    streams::compare(&mut report, seed, cases / 5);
    let equal = report.finish();
    smallest::print();
    println!("{:.1} s", start.elapsed().as_secs_f64());
    if equal {
        ExitCode::SUCCESS
    } else {
        ExitCode::FAILURE
    }
}

fn main() -> ExitCode {
    let Some(o) = options() else {
        eprintln!("options: [--seed N|time] [--cases N] [--sample N --to FOLDER]");
        return ExitCode::from(2);
    };
    original::self_check();
    match (o.sample, o.to) {
        (Some(count), Some(folder)) => write_sample(o.seed, count, folder),
        _ => compare(o.seed, o.cases),
    }
}
