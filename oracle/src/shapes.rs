//! Outlines, points and cells at random: shapes of many kinds, damaged copies of them, points that are
//! hard to tell and cells that are hard to fill.
use crate::random::Random;
use crate::refusals::FIELD;
use std::f64::consts::TAU;

/// Turns numbers into coordinates of one kind.
#[derive(Clone, Copy)]
enum Scale {
    /// Whole steps of 1/1,024 µm within ±1,024 µm.
    Grid,
    /// Whole numbers of magnitude at most the given one.
    Small(i64),
    /// Tenths of a µm.
    Tenths,
    /// Any digits, within ±1,024 µm.
    Free,
    /// Any digits, up to the field's end and, seldom, past it.
    Field,
    /// Any exponent from subnormal up to the field's end.
    Exponents,
    /// Small whole numbers of the least subnormal number.
    Subnormal,
}

impl Scale {
    fn random(r: &mut Random) -> Scale {
        match r.below(16) {
            0..4 => Scale::Grid,
            4..7 => Scale::Small(1 + r.below(6) as i64),
            7..9 => Scale::Tenths,
            9..12 => Scale::Free,
            12..14 => Scale::Field,
            14 => Scale::Exponents,
            _ => Scale::Subnormal,
        }
    }

    /// The coordinate for a number t within ±1, or as near to it as the scale has one.
    fn coordinate(self, t: f64) -> f64 {
        match self {
            Scale::Grid => (t * 1_048_576.0).round() / 1024.0,
            Scale::Small(most) => (t * most as f64).round(),
            Scale::Tenths => (t * 200.0).round() / 10.0,
            Scale::Free => t * 1024.0,
            Scale::Field => t * FIELD,
            Scale::Exponents => t * t * t * FIELD,
            Scale::Subnormal => (t * 64.0).round() * f64::from_bits(1),
        }
    }

    /// A coordinate at random.
    fn any(self, r: &mut Random) -> f64 {
        match self {
            Scale::Exponents => {
                let x = f64::from_bits(r.below(1043) << 52 | r.bits() >> 12);
                r.signed(x)
            }
            Scale::Field if r.below(64) == 0 => {
                let end = f64::from_bits(FIELD.to_bits().saturating_add_signed(r.between(-2, 1)));
                r.signed(end)
            }
            _ => self.coordinate(unit(r)),
        }
    }
}

/// A number from -1 to 1.
fn unit(r: &mut Random) -> f64 {
    let t = r.digits() - 1.0;
    r.signed(t)
}

/// How many vertices: mostly 3 to 40, seldom fewer, and once in a long while up to 4,100.
fn count(r: &mut Random) -> usize {
    (match r.below(1024) {
        0 if r.yes() => r.between(41, 4100),
        0 => r.between(4090, 4100),
        1..32 => r.between(0, 2),
        32..600 => r.between(3, 8),
        _ => r.between(3, 40),
    }) as usize
}

/// n vertices at an angle and a radius of each, about a centre.
fn around(
    n: usize,
    scale: Scale,
    r: &mut Random,
    radius: impl Fn(f64, &mut Random) -> f64,
) -> Vec<f64> {
    let turns = if r.below(8) == 0 { r.between(2, 5) } else { 1 } as f64;
    let (cx, cy, start) = (unit(r) / 2.0, unit(r) / 2.0, unit(r));
    let mut list = Vec::with_capacity(2 * n);
    for i in 0..n {
        let part = i as f64 / n as f64;
        let (sin, cos) = (TAU * (start + turns * part)).sin_cos();
        let size = radius(part, r) / 2.0;
        list.push(scale.coordinate(cx + size * cos));
        list.push(scale.coordinate(cy + size * sin));
    }
    list
}

/// An axis-parallel rectangle.
fn rectangle(scale: Scale, r: &mut Random) -> Vec<f64> {
    let [a, b, c, d] = [(); 4].map(|()| scale.any(r));
    vec![a, b, c, b, c, d, a, d]
}

/// Vertices that share their x or their y with the one before, in turn.
fn staircase(n: usize, scale: Scale, r: &mut Random) -> Vec<f64> {
    let (mut x, mut y) = (scale.any(r), scale.any(r));
    let mut list = Vec::with_capacity(2 * n);
    for i in 0..n {
        list.extend([x, y]);
        if i % 2 == 0 {
            x = scale.any(r);
        } else {
            y = scale.any(r);
        }
    }
    list
}

/// Vertices on one line or within a few units of the last digit of it.
fn thin(n: usize, scale: Scale, r: &mut Random) -> Vec<f64> {
    let [ax, ay, bx, by] = [(); 4].map(|()| unit(r));
    let off = r.below(3) as i64;
    let mut list = Vec::with_capacity(2 * n);
    for _ in 0..n {
        let t = unit(r).abs();
        for (a, b) in [(ax, bx), (ay, by)] {
            let x = scale.coordinate(a + (b - a) * t);
            list.push(f64::from_bits(
                x.to_bits().saturating_add_signed(r.between(-off, off)),
            ));
        }
    }
    list
}

/// A shape gone round several times.
fn repeated(list: Vec<f64>, r: &mut Random) -> Vec<f64> {
    let times = 1 + r.below(4) as usize;
    list.repeat(if list.len() < 4096 { times } else { 1 })
}

fn reversed(list: &[f64]) -> Vec<f64> {
    list.chunks(2).rev().flatten().copied().collect()
}

/// Twice the area, roughly.
fn turning(list: &[f64]) -> f64 {
    let v: Vec<&[f64]> = list.chunks_exact(2).collect();
    let n = v.len();
    (0..n)
        .map(|i| v[i][0] * v[(i + 1) % n][1] - v[(i + 1) % n][0] * v[i][1])
        .sum()
}

const KINDS: u64 = 10;

fn shape(kind: u64, r: &mut Random) -> Vec<f64> {
    let scale = Scale::random(r);
    let n = count(r);
    match kind {
        // vertices at random
        0..3 => (0..2 * n).map(|_| scale.any(r)).collect(),
        3 => rectangle(scale, r),
        4 => staircase(n, scale, r),
        5 => thin(n, scale, r),
        // a star, a ring, a spiral
        6 => around(n, scale, r, |_, r| unit(r)),
        7 => around(n, scale, r, |_, _| 1.0),
        8 => around(n, scale, r, |part, _| part),
        // a shape gone round several times
        _ => {
            let list = if r.yes() {
                rectangle(scale, r)
            } else {
                around(n.min(12), scale, r, |_, _| 1.0)
            };
            repeated(list, r)
        }
    }
}

/// One damage of many kinds.
fn damage(list: &mut Vec<f64>, r: &mut Random) {
    let n = list.len() / 2;
    if n == 0 {
        list.push(unit(r));
        return;
    }
    let place = r.below(list.len() as u64) as usize;
    let vertex = r.below(n as u64) as usize;
    match r.below(12) {
        0 => list[place] = f64::NAN,
        1 => list[place] = r.signed(f64::INFINITY),
        // a NaN with a sign and a payload
        2 => list[place] = f64::from_bits(r.bits() | 0x7ff0_0000_0000_0001),
        3 => list.push(unit(r)),
        4 => drop(list.pop()),
        // the field's end, and numbers past it
        5 => list[place] = r.signed(FIELD),
        6 => list[place] = r.signed(FIELD.next_up()),
        7 => list[place] = f64::from_bits(r.bits()),
        // an equal neighbour, and the last and first equal
        8 => {
            let copy = [list[2 * vertex], list[2 * vertex + 1]];
            list.splice(2 * vertex..2 * vertex, copy);
        }
        9 => list.extend_from_within(..2),
        // zeros of either sign
        10 => {
            for x in list.iter_mut().filter(|x| **x == 0.0 && r.yes()) {
                *x = -*x;
            }
        }
        _ => list[place] = r.signed(0.0),
    }
}

/// Outline number `i` of a run: the kinds in turn.
pub fn outline(i: u64, r: &mut Random) -> Vec<f64> {
    let mut list = shape(i % KINDS, r);
    // mostly counterclockwise: a query turns the others away
    if (turning(&list) < 0.0) != (r.below(6) == 0) {
        list = reversed(&list);
    }
    if r.below(8) == 0 && list.len() >= 2 {
        list.extend_from_within(..2);
    }
    for _ in 0..match r.below(24) {
        0..3 => 1,
        3 => 2,
        _ => 0,
    } {
        damage(&mut list, r);
    }
    list
}

/// x, or a number a few places from it.
fn near(x: f64, r: &mut Random) -> f64 {
    f64::from_bits(x.to_bits().saturating_add_signed(r.between(-2, 2)))
}

/// A point for a query of the outline.
pub fn point(list: &[f64], r: &mut Random) -> [f64; 2] {
    let n = list.len() / 2;
    if n == 0 {
        return [unit(r), unit(r)];
    }
    let vertex = |i: usize| [list[2 * (i % n)], list[2 * (i % n) + 1]];
    let i = r.below(n as u64) as usize;
    let (a, b) = (vertex(i), vertex(i + 1));
    let other = vertex(r.below(n as u64) as usize);
    let between = |t: f64| [a[0] + (b[0] - a[0]) * t, a[1] + (b[1] - a[1]) * t];
    match r.below(16) {
        // a vertex, and numbers of two vertices
        0 => a,
        1..3 => [a[0], other[1]],
        // on an edge, or as near as rounding lets it be
        3..5 => between(0.5),
        5 => between(unit(r).abs()),
        // on the edge's line, past its ends
        6 => between(3.0 * unit(r)),
        // at the crossing of the edge with a vertex's height, or a few places from it
        7..10 => {
            let x = (b[0] - a[0]) * (other[1] - a[1]) / (b[1] - a[1]) + a[0];
            [near(x, r), other[1]]
        }
        10 => [near(a[0], r), near(a[1], r)],
        // the middle of two vertices
        11..13 => [(a[0] + other[0]) / 2.0, (a[1] + other[1]) / 2.0],
        13 => [a[0] + unit(r), a[1] + unit(r)],
        14 => [unit(r) * FIELD, unit(r) * FIELD],
        _ => {
            let odd = [
                f64::NAN,
                f64::INFINITY,
                FIELD,
                FIELD.next_up(),
                0.0,
                f64::from_bits(1),
                f64::from_bits(r.bits()),
            ];
            let x = r.pick(&odd);
            let x = r.signed(x);
            if r.yes() { [x, a[1]] } else { [a[0], x] }
        }
    }
}

/// The least and the greatest of one coordinate, numbers that are not finite left out.
fn range(list: &[f64], axis: usize) -> [f64; 2] {
    let of_axis = list.iter().skip(axis).step_by(2);
    of_axis
        .filter(|x| x.is_finite())
        .fold([f64::INFINITY, f64::NEG_INFINITY], |[low, high], x| {
            [low.min(*x), high.max(*x)]
        })
}

/// The extent of a cell along an axis, in any order.
fn extent(kind: u64, list: &[f64], axis: usize, r: &mut Random) -> [f64; 2] {
    let n = list.len() / 2;
    let [low, high] = range(list, axis);
    let wide = (high - low).abs() + f64::from_bits(1);
    let i = r.below(n as u64) as usize;
    let (a, b) = (list[2 * i + axis], list[2 * ((i + 1) % n) + axis]);
    let other = list[2 * r.below(n as u64) as usize + axis];
    let mut inner = || low + wide * unit(r).abs();
    match kind {
        // across, at random
        0..3 => [inner(), inner()],
        // vertices' own numbers: the cell's sides run along edges or through corners
        3..6 => [a, other],
        6 => [a, inner()],
        7 => [near(a, r), near(other, r)],
        // the outline's box, and cells that contain it
        8 => [low, high],
        9 => [low - wide * unit(r).abs(), high + wide * unit(r).abs()],
        // cells that touch the outline from outside, and that miss it
        10 => [high, high + wide],
        11 => [high + wide * unit(r).abs(), high + 2.0 * wide],
        // a small cell about a corner, or about the middle of an edge
        12 => [a - wide / 16.0, a + wide * unit(r).abs() / 8.0],
        13 => [(a + b) / 2.0 - wide / 32.0, (a + b) / 2.0 + wide / 16.0],
        // no width
        14 => [a, a],
        15 => {
            let x = inner();
            [x, x]
        }
        // whole steps of the grid
        16 | 17 => [(a * 1024.0).floor() / 1024.0, other.round()],
        18 => [-FIELD, FIELD],
        _ => [unit(r) * FIELD, unit(r) * FIELD],
    }
}

/// A cell for the outline: min x, min y, max x, max y.
pub fn cell(list: &[f64], r: &mut Random) -> [f64; 4] {
    if list.len() < 2 {
        return [0.0, 0.0, 1.0, 1.0];
    }
    let kind = r.below(20);
    // mostly of one kind along both axes
    let kinds = [kind, if r.below(4) == 0 { r.below(20) } else { kind }];
    let mut cell = [0.0; 4];
    for axis in 0..2 {
        let [a, b] = extent(kinds[axis], list, axis, r);
        (cell[axis], cell[axis + 2]) = if a <= b { (a, b) } else { (b, a) };
    }
    // one that is turned away
    if r.below(24) == 0 {
        let odd = [f64::NAN, f64::INFINITY, FIELD.next_up()];
        let x = r.pick(&odd);
        let place = r.below(4) as usize;
        match r.below(3) {
            0 => cell.swap(place, (place + 2) % 4),
            1 => cell[place] = f64::from_bits(r.bits()),
            _ => cell[place] = r.signed(x),
        }
    }
    cell
}

/// Outlines that every run compares: document 01's examples and the ends of its sizes.
pub fn fixed() -> Vec<Vec<f64>> {
    let square = vec![0.0, 0.0, 4.0, 0.0, 4.0, 4.0, 0.0, 4.0];
    let mut lists = vec![
        Vec::new(),
        vec![0.0],
        square.clone(),
        reversed(&square),
        vec![0.0, 0.0, 1.0, 0.0, 2.0, 0.0],
        vec![0.0, 0.0, 2.0, 2.0, 2.0, 0.0, 0.0, 2.0],
        vec![-FIELD, -FIELD, FIELD, -FIELD, FIELD, FIELD, -FIELD, FIELD],
        vec![0.0, 0.0, FIELD.next_up(), 0.0, 0.0, 4.0],
        vec![0.0, 0.0, 4.0, 0.0, 0.0, -FIELD.next_up()],
    ];
    // rings of differing vertices, and the largest square of the grid gone round 1,024 times
    for n in [3, 4, 5, 4095, 4096, 4097, 4098] {
        let ring: Vec<f64> = (0..n)
            .flat_map(|i| {
                let (sin, cos) = (TAU * f64::from(i) / f64::from(n)).sin_cos();
                [700.0 * cos, 700.0 * sin]
            })
            .collect();
        let mut closed = ring.clone();
        closed.extend_from_within(..2);
        lists.extend([reversed(&ring), closed, ring]);
    }
    lists.push(
        [
            -1024.0, -1024.0, 1024.0, -1024.0, 1024.0, 1024.0, -1024.0, 1024.0,
        ]
        .repeat(1024),
    );
    lists
}
