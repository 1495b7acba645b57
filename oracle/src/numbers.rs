//! Square root and hypot against the machine's: f64::sqrt, which IEEE 754 requires to be the
//! nearest double to the exact root, and document 01's stand-in for hypot.
use crate::library;
use crate::random::Random;
use crate::report::Report;
use crate::sample::Sample;
use crate::standins::Hypot;

/// Numbers at which the code or the format changes its way, and their neighbours.
fn boundaries() -> Vec<f64> {
    let patterns: [u64; 12] = [
        0,                     // +0
        0x0010_0000_0000_0000, // 2^-1022, the least normal
        0x0020_0000_0000_0000, // 2^-1021
        0x1e60_0000_0000_0000, // 2^-537, the root of the least subnormal
        0x3fe0_0000_0000_0000, // 1/2
        0x3ff0_0000_0000_0000, // 1
        0x4000_0000_0000_0000, // 2
        0x4010_0000_0000_0000, // 4
        0x4130_0000_0000_0000, // 1,048,576
        0x5ff0_0000_0000_0000, // 2^512, whose square overflows
        0x7ff0_0000_0000_0000, // infinity, with the largest number below it and a NaN above it
        0x7ff8_0000_0000_0000, // a quiet NaN
    ];
    let mut list = Vec::new();
    for p in patterns {
        for d in [-2, -1, 0, 1, 2] {
            let x = f64::from_bits(p.saturating_add_signed(d));
            list.extend([x, f64::from_bits(x.to_bits() ^ 1 << 63)]);
        }
    }
    list
}

/// 2^k, for k from -1074 to 1023.
fn power(k: i64) -> f64 {
    f64::from_bits(if k < -1022 {
        1 << (k + 1074)
    } else {
        ((k + 1023) as u64) << 52
    })
}

/// x or a number a few places from it. x is not negative.
fn near(x: f64, r: &mut Random) -> f64 {
    f64::from_bits(x.to_bits().saturating_add_signed(r.between(-3, 3)))
}

/// A number whose exponent is from low to high.
fn sized(low: i64, high: i64, r: &mut Random) -> f64 {
    r.digits() * power(r.between(low, high))
}

/// A number of 53 digits.
fn whole(r: &mut Random) -> u64 {
    1 << 52 | r.bits() >> 12
}

/// The whole number m times a power of four.
fn scaled(m: u128, r: &mut Random) -> f64 {
    m as f64 * power(2 * r.between(-530, 450))
}

const SQRT_KINDS: u64 = 8;

fn sqrt_input(kind: u64, r: &mut Random) -> f64 {
    match kind {
        // any bit pattern
        0 => f64::from_bits(r.bits()),
        // near a power of two
        1 => near(power(r.between(-1074, 1023)), r),
        // near an exact square
        2 => {
            let q = u128::from(r.bits() >> r.between(38, 63));
            near(scaled(q * q, r), r)
        }
        // near the square of a double
        3 => {
            let q = u128::from(whole(r));
            near(scaled(q * q, r), r)
        }
        // near the square of the middle between two doubles
        4 => {
            let q = 2 * u128::from(whole(r)) + 1;
            near(scaled(q * q, r), r)
        }
        // subnormal, of each length
        5 => f64::from_bits(r.bits() >> r.between(12, 63)),
        // near a subnormal square
        6 => {
            let q = r.bits() >> r.between(38, 63);
            near(f64::from_bits(q * q), r)
        }
        // from 1 to 4
        _ => sized(0, 1, r),
    }
}

const HYPOT_KINDS: u64 = 12;

fn hypot_input(kind: u64, r: &mut Random, boundaries: &[f64]) -> (f64, f64) {
    let (a, b) = match kind {
        // any bit patterns
        0 => (f64::from_bits(r.bits()), f64::from_bits(r.bits())),
        // of like size
        1 => {
            let e = r.between(-450, 450);
            (sized(e, e, r), sized(e - 60, e + 60, r))
        }
        // equal, and nearly so
        2 | 3 => {
            let a = sized(-540, 515, r);
            (a, if kind == 2 { a } else { near(a, r) })
        }
        // one of them zero
        4 => (f64::from_bits(r.bits()), 0.0),
        // whole steps of the grid
        5 => (
            r.between(0, 1 << 20) as f64 / 1024.0,
            r.between(0, 1 << 20) as f64 / 1024.0,
        ),
        // within the field
        6 => (sized(-30, 19, r), sized(-30, 19, r)),
        // sides of a right triangle in whole numbers
        7 => {
            let (m, n) = (r.between(1, 4096), r.between(1, 4096));
            let unit = power(r.between(-500, 450));
            ((m * m - n * n) as f64 * unit, (2 * m * n) as f64 * unit)
        }
        // squares that are subnormal or vanish
        8 => (sized(-560, -500, r), sized(-560, -500, r)),
        // squares that come near the largest number or overflow
        9 => (sized(500, 515, r), sized(500, 515, r)),
        // a subnormal beside any
        10 => (
            f64::from_bits(r.bits() >> r.between(12, 63)),
            f64::from_bits(r.bits()),
        ),
        // boundaries
        _ => (r.pick(boundaries), r.pick(boundaries)),
    };
    let (a, b) = (r.signed(a), r.signed(b));
    if r.yes() { (b, a) } else { (a, b) }
}

/// Every boundary, and `cases` inputs, the kinds in turn.
fn compare_sqrt(report: &mut Report, seed: u64, cases: u64) {
    report.operation("sqrt");
    let mut test = |x: f64| report.exact(&[x], library::vk_sqrt(x), x.sqrt());
    boundaries().into_iter().for_each(&mut test);
    let mut r = Random::new(seed, "sqrt");
    for i in 0..cases {
        test(sqrt_input(i % SQRT_KINDS, &mut r));
    }
}

/// Every pair of boundaries, and `cases` inputs, the kinds in turn.
fn compare_hypot(report: &mut Report, seed: u64, cases: u64) {
    report.operation("hypot");
    let mut test =
        |a: f64, b: f64| report.exact(&[a, b], library::vk_hypot(a, b), a.hypot_standin(b));
    let list = boundaries();
    for &a in &list {
        list.iter().for_each(|&b| test(a, b));
    }
    let mut r = Random::new(seed, "hypot");
    for i in 0..cases {
        let (a, b) = hypot_input(i % HYPOT_KINDS, &mut r, &list);
        test(a, b);
    }
}

/// Compares each operation, with `cases` inputs besides the boundaries.
pub fn compare(report: &mut Report, seed: u64, cases: u64) {
    compare_sqrt(report, seed, cases);
    compare_hypot(report, seed, cases);
}

/// About `count` cases: every boundary, then the kinds in turn.
pub fn sample(out: &mut Sample, seed: u64, count: u64) {
    let list = boundaries();
    let mut r = Random::new(seed, "sqrt");
    let others = (count / 2).saturating_sub(list.len() as u64);
    let random = (0..others).map(|i| sqrt_input(i % SQRT_KINDS, &mut r));
    for x in list.iter().copied().chain(random) {
        out.add("sqrt", &[x], &[x.sqrt()]);
    }
    let mut r = Random::new(seed, "hypot");
    for i in 0..count / 2 {
        let (a, b) = hypot_input(i % HYPOT_KINDS, &mut r, &list);
        out.add("hypot", &[a, b], &[a.hypot_standin(b)]);
    }
}
