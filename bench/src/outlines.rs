//! Outlines of 4, 64 and 4,096 vertices. Both sides do the same work from the same list of vertices:
//! ours tests the outline and answers; the Rust makes a `Polygon` of a copy of its points and answers.
use crate::library;
use crate::original::geometry::{self, Point, Polygon, Region};
use crate::random::Random;
use crate::table::{Table, times};
use std::f64::consts::TAU;
use std::hint::black_box;

/// Points of a query: each figure is the mean over them.
const POINTS: usize = 16;

/// A many-sided ring, no side of it parallel to an axis.
fn ring(n: usize) -> Vec<f64> {
    let corner = |i: usize| {
        let (sin, cos) = (TAU * (i as f64 + 0.3) / n as f64).sin_cos();
        [500.0 * cos, 300.0 * sin]
    };
    (0..n).flat_map(corner).collect()
}

/// Up by steps that are parallel to the axes, and back by slanted edges: half of the edges each.
fn staircase(n: usize) -> Vec<f64> {
    let half = n / 2;
    let size = 600.0 / half as f64;
    let up = (0..half).map(|i| [i.div_ceil(2) as f64, (i / 2) as f64]);
    let back = (0..half).map(|i| {
        let at = (half - i) as f64 / 2.0;
        [at - 1.5 - 0.25 * (i % 2) as f64, at]
    });
    let list: Vec<f64> = up
        .chain(back)
        .flat_map(|p| p.map(|x| x * size - 150.0))
        .collect();
    assert!(geometry::polygon(&list).area() > 0.0);
    list
}

pub fn shapes() -> Vec<(&'static str, Vec<f64>)> {
    vec![
        (
            "rectangle",
            vec![-3.5, 1.25, 8.0, 1.25, 8.0, 6.5, -3.5, 6.5],
        ),
        ("slanted", ring(4)),
        ("staircase", staircase(64)),
        ("ring", ring(64)),
        ("staircase", staircase(4096)),
        ("ring", ring(4096)),
    ]
}

/// Points within the outline's box, some of its vertices, and some outside.
fn points(list: &[f64]) -> Vec<[f64; 2]> {
    let mut r = Random::new(1, "points");
    let corners = geometry::polygon(list).bounds();
    let (min, max) = (corners.min, corners.max);
    let vertex = |k: usize| [list[2 * k], list[2 * k + 1]];
    (0..POINTS)
        .map(|i| {
            if i % 8 == 0 {
                return vertex(r.below(list.len() as u64 / 2) as usize);
            }
            let (s, t) = (r.digits() * 1.2 - 1.1, r.digits() * 1.2 - 1.1);
            let (x, y) = (min.x.to_um(), min.y.to_um());
            [x + s * (max.x.to_um() - x), y + t * (max.y.to_um() - y)]
        })
        .collect()
}

/// A polygon of a copy of the points.
pub fn polygon(list: &[Point]) -> Polygon {
    Polygon::new(list.to_vec()).expect("an outline")
}

#[inline(never)]
fn rust_make(list: &[Point]) -> Polygon {
    polygon(list)
}

#[inline(never)]
fn rust_area(list: &[Point]) -> f64 {
    polygon(list).area()
}

#[inline(never)]
fn rust_perimeter(list: &[Point]) -> f64 {
    polygon(list)
        .perimeter()
        .expect("a polygon has one")
        .to_um()
}

#[inline(never)]
fn rust_bounds(list: &[Point]) -> geometry::Bounds {
    polygon(list).bounds()
}

#[inline(never)]
fn rust_contains(list: &[Point], p: [f64; 2]) -> bool {
    polygon(list).contains(Point::um(p[0], p[1]))
}

#[inline(never)]
fn rust_locate(list: &[Point], p: [f64; 2]) -> crate::standins::Location {
    polygon(list).locate(Point::um(p[0], p[1]))
}

#[inline(never)]
fn rust_distance(list: &[Point], p: [f64; 2]) -> crate::standins::Distance {
    polygon(list).distance(Point::um(p[0], p[1]))
}

fn each(points: &[[f64; 2]], call: impl FnMut([f64; 2])) {
    black_box(points).iter().copied().for_each(call);
}

/// Has the compiler take the answer for used.
pub fn keep<T>(answer: T) {
    black_box(answer);
}

pub fn rows(table: &mut Table) {
    for (shape, list) in shapes() {
        let n = list.len() / 2;
        let rust = geometry::points(&list);
        let ask = points(&list);
        let mut row = |operation: &str, calls: usize, (ours, rust): (f64, f64)| {
            let inputs = format!("{shape}, {n} vertices");
            table.row(operation, &inputs, ours / calls as f64, rust / calls as f64);
        };
        let v = || black_box(list.as_slice());
        let (mut made, mut count) = (vec![0.0; list.len()], 0);
        row(
            "make",
            1,
            times(
                || keep(library::make(v(), &mut made, &mut count)),
                || keep(rust_make(black_box(&rust))),
            ),
        );
        let mut answer = 0.0;
        row(
            "area",
            1,
            times(
                || keep(library::area(v(), &mut answer)),
                || keep(rust_area(black_box(&rust))),
            ),
        );
        row(
            "perimeter",
            1,
            times(
                || keep(library::perimeter(v(), &mut answer)),
                || keep(rust_perimeter(black_box(&rust))),
            ),
        );
        let mut corners = [0.0; 4];
        row(
            "bounds",
            1,
            times(
                || keep(library::bounds(v(), &mut corners)),
                || keep(rust_bounds(black_box(&rust))),
            ),
        );
        let mut told = 0;
        row(
            "contains",
            POINTS,
            times(
                || each(&ask, |p| keep(library::contains(v(), p, &mut told))),
                || each(&ask, |p| keep(rust_contains(&rust, p))),
            ),
        );
        row(
            "locate",
            POINTS,
            times(
                || each(&ask, |p| keep(library::locate(v(), p, &mut told))),
                || each(&ask, |p| keep(rust_locate(&rust, p))),
            ),
        );
        let mut away = [0.0; 3];
        row(
            "distance",
            POINTS,
            times(
                || each(&ask, |p| keep(library::distance(v(), p, &mut away))),
                || each(&ask, |p| keep(rust_distance(&rust, p))),
            ),
        );
    }
}
