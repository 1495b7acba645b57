//! Times each operation of the library beside the Rust's, in one run and on the same inputs.
//! `bench/run` builds and runs it.
//!
//! Both sides are called, not inlined, but in the rows that say so. A chain makes each call wait for
//! the answer before it (latency); a stream does not (throughput). Each figure is the best of several
//! repetitions. Arguments name the groups to time (numbers, outlines, ellipses, fills, indexes, sets,
//! many, streams); none means all. With `--cfg without_many` there is no group many, with
//! `--cfg without_streams` no group streams: earlier libraries lack their calls.
#![allow(dead_code)] // the oracle's modules hold more than is timed yet

mod ellipses;
mod fills;
mod indexes;
#[path = "../../oracle/src/library.rs"]
mod library;
#[cfg(not(without_many))]
mod many;
mod numbers;
#[path = "../../oracle/src/original.rs"]
mod original;
mod outlines;
#[path = "../../oracle/src/random.rs"]
mod random;
#[path = "../../oracle/src/reader.rs"]
mod reader;
mod sets;
#[path = "../../oracle/src/standins.rs"]
mod standins;
#[cfg(not(without_streams))]
mod streams;
mod table;

#[cfg(target_env = "gnu")]
unsafe extern "C" {
    fn mallopt(parameter: i32, value: i32) -> i32;
}

/// Has the C library keep the memory that is freed, for the Rust's sake. As it comes, glibc gives large
/// blocks back to the system, and gets them again, page by page and cleared, at the next call: in some
/// rows that was most of the Rust's time (800 µs in place of 110 for the fill of a cell that covers an
/// outline of 4,096 vertices). Ours allocates nothing.
#[cfg(target_env = "gnu")]
fn keep_memory() {
    const M_TRIM_THRESHOLD: i32 = -1;
    const M_MMAP_THRESHOLD: i32 = -3;
    for parameter in [M_TRIM_THRESHOLD, M_MMAP_THRESHOLD] {
        // SAFETY: no other thread runs yet.
        let taken = unsafe { mallopt(parameter, 1 << 30) };
        assert!(taken == 1, "mallopt does not take parameter {parameter}");
    }
}

#[cfg(not(target_env = "gnu"))]
fn keep_memory() {}

fn main() {
    keep_memory();
    original::self_check();
    let asked: Vec<String> = std::env::args().skip(1).collect();
    let groups: &[(&str, fn(&mut table::Table))] = &[
        ("numbers", numbers::rows),
        ("outlines", outlines::rows),
        ("ellipses", ellipses::rows),
        ("fills", fills::rows),
        ("indexes", indexes::rows),
        ("sets", sets::rows),
        #[cfg(not(without_many))]
        ("many", many::rows),
        #[cfg(not(without_streams))]
        ("streams", streams::rows),
    ];
    let mut table = table::Table::new();
    for (name, rows) in groups {
        if asked.is_empty() || asked.iter().any(|a| a == name) {
            rows(&mut table);
        }
    }
    table.print();
}
