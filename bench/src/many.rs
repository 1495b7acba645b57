//! The nearest outlines of 256 points in one call, ns per point: beside the Rust's query of an index that
//! was built before ('kept'), and beside an index built for the 256 points ('anew'). The row 'single' is a
//! call for one point beside the Rust's index built for it. The row 'limit' has in the Rust's column what
//! a point may take at most, the kept query and 1/256 of our single call. The figures of a size are from
//! the same repetitions, in turn.
use crate::indexes::Space;
use crate::library;
use crate::original::geometry::{self, Point, Polygon};
use crate::original::index::Index;
use crate::outlines::keep;
use crate::sets;
use crate::table::{Table, all_times};
use std::hint::black_box;

/// Points of a call.
const MANY: usize = 256;

/// Points of the row 'single': the figure is the mean over them.
const SINGLE: usize = 16;

fn kept(index: &Index, polygons: &[Polygon], points: &[Point]) {
    for p in black_box(points) {
        keep(sets::kept_nearest(
            black_box(index),
            black_box(polygons),
            *p,
        ));
    }
}

pub fn rows(table: &mut Table) {
    let (mut space, mut again) = (Space::new(), Space::new());
    for (n, corners) in [(64, 4), (1024, 4), (1024, 64)] {
        let lists = sets::outlines(n, |_| corners);
        let vertices: Vec<f64> = lists.concat();
        let counts: Vec<u32> = lists.iter().map(|l| l.len() as u32 / 2).collect();
        let rust: Vec<Vec<Point>> = lists.iter().map(|l| geometry::points(l)).collect();
        let (index, polygons) = sets::rust_index(&rust);
        let set = || black_box((vertices.as_slice(), counts.as_slice()));
        let points = sets::points(n, MANY);
        let numbers: Vec<f64> = points.concat();
        let places: Vec<Point> = points.iter().map(|p| Point::um(p[0], p[1])).collect();
        let (mut near, mut away, mut found) = (vec![0; MANY], vec![0.0; MANY], 0);
        let mut fields = (0, 0, 0.0);
        let [ours, old, anew, single, rust_single] = all_times([
            &mut || {
                let (lent, asked) = (space.lent(), black_box(numbers.as_slice()));
                let answers = (near.as_mut_slice(), away.as_mut_slice());
                keep(library::set_nearest_many(
                    set(),
                    asked,
                    lent,
                    answers,
                    &mut found,
                ));
            },
            &mut || kept(&index, &polygons, &places),
            &mut || {
                let (index, polygons) = sets::rust_index(black_box(&rust));
                kept(&index, &polygons, &places);
            },
            &mut || {
                for p in black_box(&points[..SINGLE]) {
                    let lent = again.lent();
                    keep(library::set_nearest(set(), *p, lent, &mut fields));
                }
            },
            &mut || {
                for p in black_box(&places[..SINGLE]) {
                    keep(sets::rust_nearest(black_box(&rust), *p));
                }
            },
        ]);
        let [ours, old, anew] = [ours, old, anew].map(|t| t / MANY as f64);
        let [single, rust_single] = [single, rust_single].map(|t| t / SINGLE as f64);
        let size = format!("{n} outlines of {corners}");
        table.row("many", &format!("{size}, a point, Rust kept"), ours, old);
        table.row("many", &format!("{size}, a point, Rust anew"), ours, anew);
        table.row("single", &size, single, rust_single);
        let limit = old + single / MANY as f64;
        table.row("limit", &format!("{size}, a point"), ours, limit);
    }
}
