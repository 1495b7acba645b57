//! The nearest point of an ellipse: inside, outside and on an axis.
use crate::library;
use crate::original::boundary;
use crate::random::Random;
use crate::standins::Hypot;
use crate::table::{Table, times};
use std::hint::black_box;

/// Ellipses of a row: each figure is the mean over them.
const COUNT: usize = 64;

/// Centre (0, 0), semi-axes of 1 to 4, and a point `far` times as far from the centre as the ellipse.
fn input(far: f64, on_axis: bool, r: &mut Random) -> [f64; 6] {
    let (a, b, t) = (r.digits() * 2.0, r.digits() * 2.0, r.digits() * 7.0);
    let y = if on_axis { 0.0 } else { far * b * t.sin() };
    [0.0, 0.0, a, b, far * a * t.cos(), y]
}

/// The nearest point and its distance, with document 01's centre around the original.
#[inline(never)]
fn rust([cx, cy, a, b, x, y]: [f64; 6]) -> [f64; 3] {
    let [qx, qy] = boundary::ellipse_nearest(a, b, [x - cx, y - cy]);
    let (qx, qy) = (cx + qx, cy + qy);
    [qx, qy, (x - qx).hypot_standin(y - qy)]
}

pub fn rows(table: &mut Table) {
    for (inputs, far, on_axis) in [
        ("inside", 0.5, false),
        ("outside", 3.0, false),
        ("on an axis", 0.5, true),
    ] {
        let mut r = Random::new(1, "ellipses");
        let list: Vec<_> = (0..COUNT).map(|_| input(far, on_axis, &mut r)).collect();
        let mut fields = [0.0; 3];
        let (ours, rust) = times(
            || {
                for e in black_box(&list) {
                    assert_eq!(library::ellipse_nearest(*e, &mut fields), 0);
                }
            },
            || {
                for e in black_box(&list) {
                    black_box(rust(*e));
                }
            },
        );
        table.row("ellipse", inputs, ours / COUNT as f64, rust / COUNT as f64);
    }
}
