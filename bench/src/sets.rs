//! The queries over a set of 16, 256 and 1,024 outlines of 4 to 12 vertices. Ours tests the set, builds the
//! index, answers and clears it; the Rust makes a `Polygon` of a copy of each outline's points, an `Index`
//! of their boxes, and answers.
use crate::indexes::Space;
use crate::library;
use crate::original::geometry::{self, Point, Polygon, Region};
use crate::original::index::Index;
use crate::outlines::{keep, polygon};
use crate::random::Random;
use crate::table::{Table, times};
use std::f64::consts::TAU;
use std::hint::black_box;

/// Points of a row: each figure is the mean over them.
const POINTS: usize = 16;

/// Rings spread over a square field; `corners` says how many corners ring k has.
pub fn outlines(n: usize, corners: impl Fn(usize) -> usize) -> Vec<Vec<f64>> {
    let mut r = Random::new(1, "sets");
    let side = (n as f64).sqrt() * 4.0;
    let mut one = |k: usize| {
        let (x, y) = (side * (r.digits() - 1.0), side * (r.digits() - 1.0));
        let (n, size) = (corners(k), r.digits());
        let corner = |i: usize| {
            let (sin, cos) = (TAU * (i as f64 + 0.3) / n as f64).sin_cos();
            [x + size * cos, y + size * sin]
        };
        (0..n).flat_map(corner).collect()
    };
    (0..n).map(&mut one).collect()
}

/// Points spread over the field of n rings.
pub fn points(n: usize, count: usize) -> Vec<[f64; 2]> {
    let mut r = Random::new(2, "points");
    let side = (n as f64).sqrt() * 4.0;
    let mut at = || side * (r.digits() - 1.0);
    (0..count).map(|_| [at(), at()]).collect()
}

/// The Rust's index over the outlines, and the polygons.
pub fn rust_index(lists: &[Vec<Point>]) -> (Index, Vec<Polygon>) {
    let polygons: Vec<Polygon> = lists.iter().map(|l| polygon(l)).collect();
    let boxes: Vec<_> = polygons.iter().map(|p| p.bounds()).collect();
    (Index::new(&boxes), polygons)
}

#[inline(never)]
fn rust_any_at(lists: &[Vec<Point>], p: Point) -> bool {
    let (index, polygons) = rust_index(lists);
    index.any_at(p, |k| polygons[k].contains(p))
}

#[inline(never)]
pub fn rust_nearest(lists: &[Vec<Point>], p: Point) -> Option<(usize, f64)> {
    let (index, polygons) = rust_index(lists);
    kept_nearest(&index, &polygons, p)
}

/// The query alone, of an index that was built before.
#[inline(never)]
pub fn kept_nearest(index: &Index, polygons: &[Polygon], p: Point) -> Option<(usize, f64)> {
    index.nearest(p, |k| polygons[k].distance(p).0.abs())
}

/// A row of the means over the points.
fn row(
    table: &mut Table,
    (operation, n): (&str, usize),
    points: &[[f64; 2]],
    mut ours: impl FnMut([f64; 2]),
    mut rust: impl FnMut(Point),
) {
    let (a, b) = times(
        || black_box(points).iter().for_each(|p| ours(*p)),
        || {
            black_box(points)
                .iter()
                .for_each(|p| rust(Point::um(p[0], p[1])))
        },
    );
    let calls = points.len() as f64;
    table.row(operation, &format!("{n} outlines"), a / calls, b / calls);
}

pub fn rows(table: &mut Table) {
    let mut space = Space::new();
    for n in [16, 256, 1024] {
        let lists = outlines(n, |k| 4 + k % 9);
        let vertices: Vec<f64> = lists.concat();
        let counts: Vec<u32> = lists.iter().map(|l| l.len() as u32 / 2).collect();
        let rust: Vec<Vec<Point>> = lists.iter().map(|l| geometry::points(l)).collect();
        let set = || black_box((vertices.as_slice(), counts.as_slice()));
        let points = points(n, POINTS);
        let mut any = 0;
        row(
            table,
            ("any_at", n),
            &points,
            |p| keep(library::set_any_at(set(), p, space.lent(), &mut any)),
            |p| keep(rust_any_at(black_box(&rust), p)),
        );
        let mut fields = (0, 0, 0.0);
        row(
            table,
            ("nearest", n),
            &points,
            |p| keep(library::set_nearest(set(), p, space.lent(), &mut fields)),
            |p| keep(rust_nearest(black_box(&rust), p)),
        );
    }
}
