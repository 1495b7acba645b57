//! The published Rust, as oracle/extract.py took it out: each module holds what its section of
//! oracle/items names. The functions added to a module give the comparison a way in.

pub mod boundary {
    use crate::standins::Hypot;
    use std::f64::consts::TAU;

    include!(concat!(env!("VISKUNOR_ORIGINAL"), "/boundary.rs"));

    /// How many pieces each of the four lists has that `fill` clips from a loop.
    pub fn clipped(pieces: &[Piece], [lo, hi]: [P; 2]) -> [usize; 4] {
        let a = clip(pieces, 0, lo[0], true);
        let b = clip(&a, 0, hi[0], false);
        let c = clip(&b, 1, lo[1], true);
        let d = clip(&c, 1, hi[1], false);
        [a.len(), b.len(), c.len(), d.len()]
    }
}

pub mod geometry {
    use super::boundary::{self, Piece};
    use crate::standins::{Distance, Error, Length, Location, Result};

    include!(concat!(env!("VISKUNOR_ORIGINAL"), "/geometry.rs"));

    /// The part of the trait that the comparison asks of a polygon.
    pub trait Region {
        fn locate(&self, p: Point) -> Location;
        fn distance(&self, p: Point) -> Distance;
        fn perimeter(&self) -> Option<Length>;
    }

    /// A point's coordinates.
    fn um(p: Point) -> [f64; 2] {
        [p.x.to_um(), p.y.to_um()]
    }

    /// The points of a list of x and y.
    pub fn points(list: &[f64]) -> Vec<Point> {
        list.chunks(2).map(|c| Point::um(c[0], c[1])).collect()
    }

    /// The polygon whose vertices are these, untested and unturned.
    pub fn polygon(list: &[f64]) -> Polygon {
        Polygon {
            vertices: points(list),
        }
    }

    impl Polygon {
        /// The vertices as a list of x and y.
        pub fn list(&self) -> Vec<f64> {
            self.vertices.iter().flat_map(|p| um(*p)).collect()
        }

        /// The vertices, added to the end of a list of x and y.
        pub fn add_to(&self, list: &mut Vec<f64>) {
            list.extend(self.vertices.iter().flat_map(|p| um(*p)));
        }

        /// The boundary, as `fill` takes it.
        pub fn boundary(&self) -> Vec<Vec<Piece>> {
            self.loops()
        }
    }
}

pub mod index {
    use super::geometry::{Bounds, Point};
    use crate::standins::Hypot;

    include!(concat!(env!("VISKUNOR_ORIGINAL"), "/index.rs"));

    impl Index {
        /// The same index with each leaf's items in ascending order: `select_nth_unstable_by` promises
        /// none.
        pub fn ascending(mut self) -> Index {
            for n in &self.nodes {
                let first = n.first as usize;
                self.items[first..first + n.count as usize].sort_unstable();
            }
            self
        }

        /// The nodes' corners and links, and the items, as lists of numbers.
        pub fn numbers(&self) -> (Vec<f64>, Vec<u32>, Vec<u32>) {
            let corners = |n: &Node| [n.lo[0], n.lo[1], n.hi[0], n.hi[1]];
            (
                self.nodes.iter().flat_map(corners).collect(),
                self.nodes.iter().flat_map(|n| [n.first, n.count]).collect(),
                self.items.clone(),
            )
        }
    }
}

/// Calls the original bodies on document 01's examples: the right bodies were taken out, and they
/// run with the stand-ins.
pub fn self_check() {
    use crate::standins::{Distance, Location};
    use geometry::{Bounds, Point, Polygon, Region};
    let square = [0.0, 0.0, 4.0, 0.0, 4.0, 4.0, 0.0, 4.0];
    let turned = [0.0, 0.0, 0.0, 4.0, 4.0, 4.0, 4.0, 0.0];
    let s = Polygon::new(geometry::points(&square)).expect("the square is an outline");
    let made = Polygon::new(geometry::points(&turned)).expect("the square is an outline");
    assert_eq!(made.list(), [4.0, 0.0, 4.0, 4.0, 0.0, 4.0, 0.0, 0.0]);
    assert_eq!(
        (s.area(), s.perimeter().map(|l| l.to_um())),
        (16.0, Some(16.0))
    );
    assert_eq!(geometry::polygon(&turned).area(), -16.0);
    assert!(s.contains(Point::um(0.0, 2.0)) && !s.contains(Point::um(4.0, 2.0)));
    assert_eq!(s.locate(Point::um(4.0, 2.0)), Location::Boundary);
    assert_eq!(s.distance(Point::um(7.0, 8.0)), Distance(5.0, [0.6, 0.8]));
    let across = [[1.0, 1.0], [3.0, 6.0]];
    assert_eq!(boundary::fill(&s.boundary(), across), 6.0);
    assert_eq!(boundary::clipped(&s.boundary()[0], across), [4, 4, 4, 4]);
    assert_eq!(
        boundary::ellipse_nearest(2.0, 1.0, [0.0, -0.0]),
        [0.0, -1.0]
    );
    assert_eq!(boundary::ellipse_nearest(2.0, 1.0, [3.0, 0.0]), [2.0, 0.0]);
    let cell = |a: f64, b: f64| Bounds {
        min: Point::um(a, a),
        max: Point::um(b, b),
    };
    let tree = index::Index::new(&[cell(0.0, 1.0), cell(10.0, 11.0)]);
    assert_eq!(tree.meeting(cell(5.0, 6.0)), [0, 1]);
    assert!(tree.meeting(cell(20.0, 21.0)).is_empty());
    assert_eq!(
        tree.nearest(Point::um(7.0, 2.0), |k| 3.0 + k as f64),
        Some((0, 3.0))
    );
}
