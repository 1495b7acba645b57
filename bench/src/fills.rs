//! The fill of a cell, for cells across an outline, inside it and outside; in the least buffer, a piece per
//! vertex in each half, and in a large one of twice as many and eight. Then stars in the large buffer, for
//! cells that cover them, small cells at their edges and all cells of a window. Both sides do the same work
//! from the same list of vertices: ours tests the outline, the cell and the buffer, answers and clears the
//! buffer; the Rust makes a `Polygon` of a copy of its points, its pieces, and answers. Their answers are
//! compared for every cell before it is timed.
use crate::library;
use crate::original::boundary;
use crate::original::geometry::{self, Point};
use crate::outlines::{keep, polygon, shapes};
use crate::random::Random;
use crate::table::{Table, times};
use std::f64::consts::TAU;
use std::hint::black_box;

/// Cells of a row, but for a window: each figure is the mean over them.
const CELLS: usize = 16;

/// How many cells are tried for those of a row.
const TRIES: usize = 20_000;

/// Cells along a side of a window, and the size of each in µm.
const SIDE: usize = 64;
const SIZE: f64 = 4.0;

type Cell = [f64; 4];

/// A cell whose centre is at s and t of the outline's box, and whose size is a part of it.
fn cell(list: &[f64], centre: [f64; 2], part: f64) -> Cell {
    let corners = geometry::polygon(list).bounds();
    let (min, max) = (corners.min, corners.max);
    let sides = [[min.x, max.x], [min.y, max.y]].map(|e| e.map(|x| x.to_um()));
    let along = |axis: usize, t: f64| sides[axis][0] + t * (sides[axis][1] - sides[axis][0]);
    let [s, t] = centre;
    let half = part / 2.0;
    [
        along(0, s - half),
        along(1, t - half),
        along(0, s + half),
        along(1, t + half),
    ]
}

fn area(c: Cell) -> f64 {
    (c[2] - c[0]) * (c[3] - c[1])
}

fn fill(list: &[f64], c: Cell) -> f64 {
    let corners = [[c[0], c[1]], [c[2], c[3]]];
    boundary::fill(&geometry::polygon(list).boundary(), corners)
}

/// Cells with the outline's box as their measure: those that the outline crosses, those that it fills and
/// those that it does not reach.
fn cells(list: &[f64], place: &str) -> Vec<Cell> {
    let mut r = Random::new(1, place);
    let mut found = Vec::new();
    for _ in 0..TRIES {
        let s = r.digits() - 1.0;
        let t = r.digits() - 1.0;
        let c = match place {
            "across" => cell(list, [s, t], 0.4),
            "inside" => cell(list, [s, t], 0.5 / list.len() as f64),
            _ => cell(list, [s + 1.5, t], 0.4),
        };
        let share = fill(list, c) / area(c);
        let taken = match place {
            "across" => share > 0.0 && share < 0.9,
            "inside" => (share - 1.0).abs() < 1e-9,
            _ => share == 0.0,
        };
        if taken {
            found.push(c);
        }
        if found.len() == CELLS {
            break;
        }
    }
    found
}

#[inline(never)]
fn rust_fill(list: &[Point], c: Cell) -> f64 {
    boundary::fill(&polygon(list).boundary(), [[c[0], c[1]], [c[2], c[3]]])
}

/// The cells whose lists fit a half of this many pieces.
fn fitting(list: &[f64], half: usize, place: &str) -> Vec<Cell> {
    let mut work = vec![0.0; 8 * half];
    let mut answer = 0.0;
    let all = cells(list, place).into_iter();
    all.filter(|c| library::fill(list, *c, &mut work, &mut answer) == 0)
        .collect()
}

/// A star around zero, every other vertex nearer to it, all of them on the grid.
fn star(n: usize) -> Vec<f64> {
    let corner = |i: usize| {
        let (sin, cos) = (TAU * (i as f64 + 0.3) / n as f64).sin_cos();
        let radius = if i % 2 == 0 { 120.0 } else { 90.0 };
        [cos, sin].map(|x| (radius * x * 1024.0).round() / 1024.0)
    };
    (0..n).flat_map(corner).collect()
}

/// Cells of 300 µm and a little more that hold the whole star.
fn covering() -> Vec<Cell> {
    let half = |i: usize| 150.0 + i as f64;
    (0..CELLS)
        .map(|i| [-half(i), -half(i), half(i), half(i)])
        .collect()
}

/// Cells of 1 µm, each around the middle of an edge.
fn at_edges(list: &[f64]) -> Vec<Cell> {
    let n = list.len() / 2;
    let middle = |k: usize| {
        let next = (k + 1) % n;
        [0, 1].map(|axis| (list[2 * k + axis] + list[2 * next + axis]) / 2.0)
    };
    (0..CELLS)
        .map(|i| middle(i * n / CELLS))
        .map(|[x, y]| [x - 0.5, y - 0.5, x + 0.5, y + 0.5])
        .collect()
}

/// All cells of a square around zero that holds the whole star.
fn window() -> Vec<Cell> {
    let along = |i: usize| (i as f64 - SIDE as f64 / 2.0) * SIZE;
    (0..SIDE * SIDE)
        .map(|k| [k / SIDE, k % SIDE].map(along))
        .map(|[x, y]| [x, y, x + SIZE, y + SIZE])
        .collect()
}

/// Times the cells, in a buffer whose halves have this many pieces, once both sides answered the same.
fn row(table: &mut Table, inputs: &str, list: &[f64], half: usize, cells: &[Cell]) {
    let points = geometry::points(list);
    let mut work = vec![0.0; 8 * half];
    let mut answer = 0.0;
    for c in cells {
        let number = library::fill(list, *c, &mut work, &mut answer);
        let rust = rust_fill(&points, *c);
        assert!(
            number == 0 && answer == rust,
            "{inputs}: cell {c:?}: ours {answer:?}, refusal {number}, the Rust {rust:?}"
        );
    }
    let (ours, rust) = times(
        || {
            for c in black_box(cells) {
                let v = black_box(list);
                keep(library::fill(v, *c, &mut work, &mut answer));
            }
        },
        || {
            for c in black_box(cells) {
                keep(rust_fill(black_box(&points), *c));
            }
        },
    );
    let calls = cells.len() as f64;
    table.row("fill", inputs, ours / calls, rust / calls);
}

pub fn rows(table: &mut Table) {
    for (shape, list) in shapes() {
        let n = list.len() / 2;
        for place in ["across", "inside", "outside"] {
            for (size, half) in [("least", n), ("large", 2 * n + 8)] {
                let cells = fitting(&list, half, place);
                if cells.is_empty() {
                    continue;
                }
                let inputs = format!("{shape}, {n} vertices, {place}, {size}");
                row(table, &inputs, &list, half, &cells);
            }
        }
    }
    for n in [4, 64, 4096] {
        let list = star(n);
        let mut places = vec![
            ("cells that cover it", covering()),
            ("small cells at an edge", at_edges(&list)),
        ];
        if n > 4 {
            places.push(("a window", window()));
        }
        for (place, cells) in places {
            let inputs = format!("star of {n}, {place}");
            row(table, &inputs, &list, 2 * n + 8, &cells);
        }
    }
}
