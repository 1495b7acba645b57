//! The box tree: building it, in lists and as node records, and listing what meets a cell. Ours tests the boxes, and `meeting` builds
//! and clears the index itself; the Rust makes an `Index` of the same boxes, and for `meeting` asks it. The
//! row 'clearing' times filling the index buffer with zeros by itself, by the C library.
use crate::library::{self, Lent, Node};
use crate::original::geometry::{Bounds, Point};
use crate::original::index::Index;
use crate::outlines::keep;
use crate::random::Random;
use crate::table::{Table, times};
use std::hint::black_box;

/// n boxes spread over a square field, some overlapping.
fn boxes(n: usize) -> Vec<f64> {
    let mut r = Random::new(1, "boxes");
    let side = (n as f64).sqrt() * 4.0;
    let mut one = || {
        let (x, y) = (side * (r.digits() - 1.0), side * (r.digits() - 1.0));
        [x, y, x + r.digits(), y + r.digits()]
    };
    (0..n).flat_map(|_| one()).collect()
}

fn bounds(list: &[f64]) -> Vec<Bounds> {
    let each = list.chunks_exact(4);
    each.map(|b| Bounds {
        min: Point::um(b[0], b[1]),
        max: Point::um(b[2], b[3]),
    })
    .collect()
}

/// An index buffer.
pub struct Space {
    corners: Vec<f64>,
    links: Vec<u32>,
    items: Vec<u32>,
}

impl Space {
    pub fn new() -> Space {
        Space {
            corners: vec![0.0; 2044],
            links: vec![0; 1022],
            items: vec![0; 1024],
        }
    }

    pub fn lent(&mut self) -> Lent<'_> {
        Lent {
            corners: &mut self.corners,
            links: &mut self.links,
            items: &mut self.items,
        }
    }

    /// Zeros in all places, as `meeting` leaves them.
    fn clear(&mut self) {
        self.corners.fill(0.0);
        self.links.fill(0);
        self.items.fill(0);
        black_box(self);
    }
}

pub fn rows(table: &mut Table) {
    let mut space = Space::new();
    let mut found = vec![0; 1024];
    let none = Node {
        min_x: 0.0,
        min_y: 0.0,
        max_x: 0.0,
        max_y: 0.0,
        first: 0,
        count: 0,
    };
    let mut nodes = vec![none; 511];
    for n in [4, 64, 1024] {
        let list = boxes(n);
        let rust = bounds(&list);
        let mut fields = [0; 3];
        let inputs = format!("{n} boxes");
        let (a, b) = times(
            || {
                let v = black_box(list.as_slice());
                keep(library::index_build(v, space.lent(), &mut fields));
            },
            || keep(Index::new(black_box(&rust))),
        );
        table.row("build", &inputs, a, b);
        let (a, b) = times(
            || {
                let v = black_box(list.as_slice());
                keep(library::index_nodes(v, &mut nodes, &mut found, &mut fields));
            },
            || keep(Index::new(black_box(&rust))),
        );
        table.row("nodes", &inputs, a, b);
        let cell = [3.0, 3.0, 6.0, 6.0];
        let corners = bounds(&cell)[0];
        let mut count = 0;
        let (a, b) = times(
            || {
                let v = black_box(list.as_slice());
                let lent = space.lent();
                keep(library::index_meeting(
                    v, cell, lent, &mut found, &mut count,
                ));
            },
            || keep(Index::new(black_box(&rust)).meeting(black_box(corners))),
        );
        table.row("meeting", &inputs, a, b);
        if n == 4 {
            // What `meeting` has to do besides, alone: no call that does it is faster.
            let (a, b) = times(
                || space.clear(),
                || keep(Index::new(black_box(&rust)).meeting(black_box(corners))),
            );
            table.row("clearing", "alone, beside the Rust's meeting of 4", a, b);
        }
    }
}
