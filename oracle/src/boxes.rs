//! Lists of boxes at random, a box being min x, min y, max x, max y: spread out, with equal centres,
//! nested, touching, degenerate, at the field's ends, and damaged ones. Cells for them.
use crate::random::Random;
use crate::refusals::FIELD;

pub const KINDS: u64 = 10;

/// How many boxes: mostly few, now and then as many as there may be, or one more.
fn count(r: &mut Random) -> usize {
    match r.below(64) {
        0 => 1023 + r.below(3) as usize,
        1..3 => r.below(1024) as usize,
        3..8 => r.below(128) as usize,
        8..40 => r.below(24) as usize,
        _ => r.below(9) as usize,
    }
}

/// A box from a corner and a size.
fn sized(x: f64, y: f64, w: f64, h: f64) -> [f64; 4] {
    [x, y, x + w, y + h]
}

/// A number within ±2^high, its digits at random.
fn number(high: i64, r: &mut Random) -> f64 {
    let x = r.digits() * 2f64.powi(r.between(-12, high - 1) as i32);
    r.signed(x)
}

fn step(most: i64, r: &mut Random) -> f64 {
    r.between(-most, most) as f64 / 1024.0
}

/// Box `i` of `n`.
fn one(kind: u64, i: usize, n: usize, r: &mut Random) -> [f64; 4] {
    let k = i as f64;
    match kind {
        // anywhere in the field
        0 => {
            let (x, y) = (number(19, r), number(19, r));
            sized(x, y, number(19, r).abs(), number(19, r).abs())
        }
        // on the grid, near each other
        1 => sized(
            step(8192, r),
            step(8192, r),
            step(512, r).abs(),
            step(512, r).abs(),
        ),
        // few places, so that many centres are equal
        2 => sized(r.below(3) as f64, r.below(3) as f64, 1.0, 1.0),
        // one centre, nested
        3 => [-k, -k, k, k],
        // a row and a column of boxes that touch
        4 => sized(k, 0.0, 1.0, 1.0),
        5 => sized(0.0, -k, 1.0, 1.0),
        // points and lines
        6 => sized(
            step(4096, r),
            step(4096, r),
            0.0,
            if r.yes() { 0.0 } else { 2.0 },
        ),
        // at the field's ends
        7 => {
            let mut end = || r.signed(FIELD);
            let (a, b, c, d) = (end(), end(), end(), end());
            [a.min(c), b.min(d), a.max(c), b.max(d)]
        }
        // the same box over and over, zeros of either sign
        8 => [r.signed(0.0), r.signed(0.0), r.signed(0.0), r.signed(0.0)],
        // a grid of cells in a wide or a high field
        _ => {
            let side = (n as f64).sqrt().ceil().max(1.0);
            sized((k % side) * 3.0, (k / side).floor() * 2.0, 2.5, 1.5)
        }
    }
}

/// One number of the list is anything at all, or its length is.
fn damage(list: &mut Vec<f64>, r: &mut Random) {
    if list.is_empty() || r.below(4) == 0 {
        list.push(r.pick(&[0.0, f64::NAN]));
        return;
    }
    let at = r.below(list.len() as u64) as usize;
    list[at] = match r.below(5) {
        0 => f64::from_bits(r.bits()),
        1 => r.signed(FIELD.next_up()),
        2 => r.pick(&[f64::NAN, f64::INFINITY, f64::NEG_INFINITY]),
        3 => r.signed(FIELD),
        _ => number(19, r),
    };
}

/// List number `i` of a run.
pub fn list(i: u64, r: &mut Random) -> Vec<f64> {
    let n = count(r);
    let kind = i % KINDS;
    let mut list: Vec<f64> = (0..n).flat_map(|k| one(kind, k, n, r)).collect();
    if r.below(16) == 0 {
        damage(&mut list, r);
    }
    list
}

/// A cell: mostly one whose sides are among the list's numbers or close to them.
pub fn cell(list: &[f64], r: &mut Random) -> [f64; 4] {
    let mut side = |axis: usize| {
        let near = match r.below(8) {
            0 => number(19, r),
            1 => step(8192, r),
            _ if list.len() < 4 => 0.0,
            _ => list[4 * r.below(list.len() as u64 / 4) as usize + axis + 2 * r.below(2) as usize],
        };
        match r.below(6) {
            0 => near.next_up(),
            1 => near.next_down(),
            2 => near + step(512, r),
            3 => near * (1.0 + 1e-9),
            _ => near,
        }
    };
    let (a, b, c, d) = (side(0), side(1), side(0), side(1));
    let mut cell = [a.min(c), b.min(d), a.max(c), b.max(d)];
    match r.below(40) {
        0 => cell.swap(0, 2),
        1 => cell[r.below(4) as usize] = f64::from_bits(r.bits()),
        2 => cell[r.below(4) as usize] = f64::NAN,
        3..8 => cell = [a, b, a, b],
        _ => {}
    }
    cell
}

/// Two cells, the first inside the second where the second is one: sides among the list's numbers, and often
/// the outer ones.
pub fn nested(list: &[f64], r: &mut Random) -> [[f64; 4]; 2] {
    let outer = cell(list, r);
    let other = cell(list, r);
    let mut inner = outer;
    for axis in 0..2 {
        let (low, high) = (outer[axis], outer[axis + 2]);
        let within = |x: f64| x.max(low).min(high);
        let (a, b) = (within(other[axis]), within(other[axis + 2]));
        if r.below(4) != 0 {
            inner[axis] = a.min(b);
        }
        if r.below(4) != 0 {
            inner[axis + 2] = a.max(b);
        }
    }
    [inner, outer]
}
