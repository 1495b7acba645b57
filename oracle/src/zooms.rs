//! Zooming out (document 02, U2): two cells, one inside the other, over the same boxes. Each cell's call is
//! compared with the original. Then the two lists are read plainly: the inner is the outer with some items
//! left out, in the same order, and every box that shares a point with a cell is listed for it.
use crate::boxes;
use crate::buffers::SIZES;
use crate::indexes::{Case, LIST};
use crate::random::Random;
use crate::report::{Report, hex_list};

/// Whether the first list is the second with some items left out.
fn left_out(inner: &[u32], outer: &[u32]) -> bool {
    let mut rest = outer.iter();
    inner.iter().all(|i| rest.any(|o| o == i))
}

/// Whether every box that shares a point with the cell is listed.
fn all_listed(list: &[f64], cell: [f64; 4], listed: &[u32]) -> bool {
    let mut seen = vec![false; list.len() / 4];
    for &k in listed {
        seen[k as usize] = true;
    }
    let shares = |b: &[f64]| {
        let along = |a: usize| b[a] <= cell[a + 2] && cell[a] <= b[a + 2];
        along(0) && along(1)
    };
    let each = list.chunks_exact(4).zip(seen);
    each.into_iter().all(|(b, seen)| seen || !shares(b))
}

/// `pairs` lists, each asked about two cells.
pub fn compare(report: &mut Report, seed: u64, pairs: u64) {
    let mut r = Random::new(seed, "zooms");
    let mut case = Case { report, number: 0 };
    for i in 0..pairs {
        case.number = i;
        let list = boxes::list(i, &mut r);
        let cells = boxes::nested(&list, &mut r);
        let [inner, outer] = cells.map(|cell| case.meeting(&list, cell, SIZES, LIST));
        let (Some(inner), Some(outer)) = (inner, outer) else {
            continue;
        };
        case.report.operation("index_meeting, zooming out");
        case.report.compared();
        if !left_out(&inner, &outer) {
            let cells = hex_list(&cells.concat());
            case.differs(&list, &format!("cells {cells}: {inner:?} of {outer:?}"));
        }
        for (cell, listed) in cells.into_iter().zip([&inner, &outer]) {
            case.report.compared();
            if !all_listed(&list, cell, listed) {
                let cell = hex_list(&cell);
                case.differs(&list, &format!("cell {cell}: a box is not in {listed:?}"));
            }
        }
    }
}
