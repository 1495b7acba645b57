//! Square root and hypot, over lists of 4,096 inputs.
use crate::library;
use crate::random::Random;
use crate::standins::Hypot;
use crate::table::{Table, time};
use std::hint::black_box;

const INPUTS: usize = 4096;

type Pairs = Vec<(f64, f64)>;

fn pairs(mut make: impl FnMut(&mut Random) -> (f64, f64)) -> Pairs {
    let mut r = Random::new(1, "bench");
    (0..INPUTS).map(|_| make(&mut r)).collect()
}

/// ns per call where each input waits for the answer before it: the answer's bits, masked by zero,
/// go into the next input.
fn chain(list: &Pairs, f: impl Fn(f64, f64) -> f64) -> f64 {
    let zero = black_box(0u64);
    let pass = || {
        let mut last = 0.0f64;
        for &(a, b) in black_box(list) {
            last = f(f64::from_bits(a.to_bits() ^ (last.to_bits() & zero)), b);
        }
        black_box(last);
    };
    time(pass) / INPUTS as f64
}

/// ns per call where no call waits for another.
fn stream(list: &Pairs, f: impl Fn(f64, f64) -> f64) -> f64 {
    let mut out = vec![0.0; INPUTS];
    let pass = || {
        for (to, &(a, b)) in out.iter_mut().zip(black_box(list)) {
            *to = f(a, b);
        }
        black_box(&mut out);
    };
    time(pass) / INPUTS as f64
}

/// The rows of an operation and a list. `rust` is compiled into the loop; where the row does not say
/// so, it is called as ours is.
fn compare(
    table: &mut Table,
    operation: &str,
    inputs: &str,
    list: &Pairs,
    ours: impl Fn(f64, f64) -> f64,
    rust: impl Fn(f64, f64) -> f64,
) {
    let called = Called(&rust);
    let called = |a: f64, b: f64| called.call(a, b);
    let streamed = stream(list, &ours);
    table.row(
        operation,
        &format!("{inputs}, chain"),
        chain(list, &ours),
        chain(list, called),
    );
    table.row(
        operation,
        &format!("{inputs}, stream"),
        streamed,
        stream(list, called),
    );
    table.row(
        operation,
        &format!("{inputs}, stream, Rust inlined"),
        streamed,
        stream(list, &rust),
    );
}

/// A function that stays a call.
struct Called<F>(F);

impl<F: Fn(f64, f64) -> f64> Called<F> {
    #[inline(never)]
    fn call(&self, a: f64, b: f64) -> f64 {
        (self.0)(a, b)
    }
}

pub fn rows(table: &mut Table) {
    let sqrt_lists = [
        (
            "from 1 to 4",
            pairs(|r| (r.digits() * if r.yes() { 2.0 } else { 1.0 }, 0.0)),
        ),
        (
            "normal patterns",
            pairs(|r| {
                (
                    f64::from_bits((1 + r.below(2046)) << 52 | r.bits() >> 12),
                    0.0,
                )
            }),
        ),
        (
            "subnormal",
            pairs(|r| (f64::from_bits(1 + (r.bits() >> 13)), 0.0)),
        ),
    ];
    for (inputs, list) in &sqrt_lists {
        compare(
            table,
            "sqrt",
            inputs,
            list,
            |x, _| library::vk_sqrt(x),
            |x, _| x.sqrt(),
        );
    }
    let side = |r: &mut Random| {
        let x = r.digits() * 512.0;
        r.signed(x)
    };
    let hypot_lists = [
        ("general", pairs(|r| (side(r), side(r)))),
        (
            "axis-parallel",
            pairs(|r| {
                if r.yes() {
                    (side(r), 0.0)
                } else {
                    (0.0, side(r))
                }
            }),
        ),
    ];
    for (inputs, list) in &hypot_lists {
        compare(
            table,
            "hypot",
            inputs,
            list,
            |a, b| library::vk_hypot(a, b),
            |a, b| a.hypot_standin(b),
        );
    }
}
