//! The smallest outlines off the grid that `Polygon::new` accepts and reverses, and whose made
//! outline a query then turns away: rounding lets the area of the reversed vertices be zero (8) or
//! negative still (9), and `Polygon::new` tests it only before reversing.
use crate::original::geometry::{self, Polygon};
use crate::refusals;
use crate::report::hex_list;

/// The most tenths of a µm that the search tries.
const MOST: u32 = 12;

/// What a query gives the outline that making makes of these vertices.
fn number_of_made(list: &[f64]) -> u32 {
    if refusals::making(list, list.len()) != 0 {
        return 0;
    }
    let made = Polygon::new(geometry::points(list)).expect("it was accepted");
    refusals::query(&made.list(), None)
}

/// Twice the area times 100, exact: the search asks only where it is close to zero.
fn exact(v: &[[u32; 2]]) -> i64 {
    let term = |a: [u32; 2], b: [u32; 2]| i64::from(a[0] * b[1]) - i64::from(b[0] * a[1]);
    (0..v.len()).map(|i| term(v[i], v[(i + 1) % v.len()])).sum()
}

/// The lists of `n` vertices whose numbers are tenths, the largest of them `most`, in order; `found`
/// says whether to stop.
fn each(
    v: &mut Vec<[u32; 2]>,
    n: usize,
    most: u32,
    found: &mut impl FnMut(&[[u32; 2]]) -> bool,
) -> bool {
    if v.len() == n {
        return v.iter().flatten().any(|t| *t == most) && exact(v) == 0 && found(v);
    }
    for x in 0..=most {
        for y in 0..=most {
            v.push([x, y]);
            if each(v, n, most, found) {
                return true;
            }
            v.pop();
        }
    }
    false
}

/// The first outline of `n` vertices, by its largest number, that gets `number` after making.
fn search(n: usize, number: u32) -> Option<Vec<f64>> {
    let tenths =
        |v: &[[u32; 2]]| -> Vec<f64> { v.iter().flatten().map(|t| f64::from(*t) / 10.0).collect() };
    let mut first = None;
    for most in 1..=MOST {
        let stop = each(&mut Vec::new(), n, most, &mut |v| {
            let list = tenths(v);
            let found = number_of_made(&list) == number;
            if found {
                first = Some(list);
            }
            found
        });
        if stop {
            break;
        }
    }
    first
}

pub fn print() {
    for number in [8, 9] {
        let Some(list) = [3, 4].into_iter().find_map(|n| search(n, number)) else {
            println!("made, reversed and then refused with {number}: none found");
            continue;
        };
        let made = Polygon::new(geometry::points(&list)).expect("it was accepted");
        println!(
            "made, reversed and then refused with {number}: {list:?} = {}, area {:e}, made {:e}",
            hex_list(&list),
            geometry::polygon(&list).area(),
            made.area()
        );
    }
}
