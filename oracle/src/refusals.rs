//! Document 01's tests of an outline, a point, a cell and a buffer, "turned away, in checking order", read anew: each
//! runs over the whole outline before the next. Nothing here comes from the library.
use crate::original::geometry;
use crate::sets::Set;

/// Where the field ends, in µm.
pub const FIELD: f64 = 1_048_576.0;

/// A vertex.
type Vertex = [f64; 2];

fn vertices(list: &[f64]) -> Vec<Vertex> {
    list.chunks_exact(2).map(|c| [c[0], c[1]]).collect()
}

/// The list without its closing vertex: `Polygon::new` drops one that equals the first.
pub fn without_closing(list: &[f64]) -> &[f64] {
    let v = vertices(list);
    if v.len() > 1 && v[0] == v[v.len() - 1] {
        &list[..list.len() - 2]
    } else {
        list
    }
}

/// Tests 1 and 3 to 8: the first that turns the outline away, or 0.
fn shape(list: &[f64]) -> u32 {
    let v = vertices(list);
    let n = v.len();
    let tests: [(u32, &dyn Fn() -> bool); 7] = [
        (1, &|| list.len() % 2 == 1),
        (3, &|| n < 3),
        (4, &|| n > 4096),
        (5, &|| list.iter().any(|x| !x.is_finite())),
        (6, &|| list.iter().any(|x| x.abs() > FIELD)),
        (7, &|| (0..n).any(|i| v[i] == v[(i + 1) % n])),
        (8, &|| geometry::polygon(list).area() == 0.0),
    ];
    let first = tests.iter().find(|(_, turns_away)| turns_away());
    first.map_or(0, |(number, _)| *number)
}

/// What a query's outline gets, and after it the point where the query takes one.
pub fn query(list: &[f64], point: Option<[f64; 2]>) -> u32 {
    let number = shape(list);
    if number != 0 {
        return number;
    }
    if geometry::polygon(list).area() < 0.0 {
        return 9;
    }
    let outside = |x: f64| !(x.abs() <= FIELD);
    if point.is_some_and(|p| outside(p[0]) || outside(p[1])) {
        return 10;
    }
    0
}

/// What a fill gets before it clips, with a buffer of `room` numbers.
pub fn fill(list: &[f64], cell: [f64; 4], room: usize) -> u32 {
    let number = query(list, None);
    if number != 0 {
        return number;
    }
    if !is_box(&cell) {
        return 11;
    }
    if room / 8 < list.len() / 2 {
        return 13;
    }
    0
}

/// Whether four numbers are a box of the field: min x, min y, max x, max y.
fn is_box(b: &[f64]) -> bool {
    let range = |min: f64, max: f64| min.abs() <= FIELD && max.abs() <= FIELD && min <= max;
    range(b[0], b[2]) && range(b[1], b[3])
}

/// What a list of boxes gets, and after it a cell where the call takes one.
fn boxes(list: &[f64], cell: Option<[f64; 4]>) -> u32 {
    if list.len() > 4096 {
        return 4;
    }
    let whole = list.len() % 4 == 0 && list.chunks(4).all(is_box);
    if whole && cell.is_none_or(|c| is_box(&c)) {
        0
    } else {
        11
    }
}

/// Whether an index buffer is shorter than its stated size.
fn is_short([corners, links, items]: [usize; 3]) -> bool {
    corners < 4 * 511 || links < 2 * 511 || items < 1024
}

/// What building gets, with buffers of these lengths.
pub fn build(list: &[f64], lengths: [usize; 3]) -> u32 {
    match boxes(list, None) {
        0 if is_short(lengths) => 13,
        number => number,
    }
}

/// What `meeting` gets, with buffers of these lengths and a list of `room` places.
pub fn meeting(list: &[f64], cell: [f64; 4], lengths: [usize; 3], room: usize) -> u32 {
    match boxes(list, Some(cell)) {
        0 if is_short(lengths) || room < 1024 => 13,
        number => number,
    }
}

/// Whether a number of a point, or of several, is outside the field or not finite.
fn is_off(points: &[f64]) -> bool {
    points.iter().any(|x| !(x.abs() <= FIELD))
}

/// What a query over a set gets, with a point and working buffers of these lengths.
pub fn set(set: &Set, point: [f64; 2], lengths: [usize; 3]) -> u32 {
    match outlines(set) {
        0 if is_off(&point) => 10,
        0 if is_short(lengths) => 13,
        number => number,
    }
}

/// What the nearest query for many points gets, with lists of these lengths: the index buffer's three,
/// outlines and distances.
pub fn many(set: &Set, points: &[f64], [a, b, c, near, away]: [usize; 5]) -> u32 {
    match outlines(set) {
        0 if points.len() % 2 == 1 || points.len() > 2 * 256 => 15,
        0 if is_off(points) => 10,
        0 if is_short([a, b, c]) || near < 256 || away < 256 => 13,
        number => number,
    }
}

/// Tests 1 to 9 of a set: each runs over all outlines before the next.
pub fn outlines(set: &Set) -> u32 {
    let (list, counts) = set.parts();
    let sum: u64 = counts.iter().map(|n| u64::from(*n)).sum();
    if list.len() % 2 == 1 {
        return 1;
    }
    if sum != list.len() as u64 / 2 {
        return 2;
    }
    let outlines = set.outlines();
    let some = |test: &dyn Fn(&[f64]) -> bool| outlines.iter().any(|o| test(o));
    let area = |o: &[f64]| geometry::polygon(o).area();
    let tests: [(u32, &dyn Fn() -> bool); 7] = [
        (3, &|| some(&|o| o.len() < 6)),
        (4, &|| {
            counts.len() > 1024 || sum > 65_536 || some(&|o| o.len() > 8192)
        }),
        (5, &|| some(&|o| o.iter().any(|x| !x.is_finite()))),
        (6, &|| some(&|o| o.iter().any(|x| x.abs() > FIELD))),
        (7, &|| {
            some(&|o| (0..o.len() / 2).any(|i| equal_to_next(o, i)))
        }),
        (8, &|| some(&|o| area(o) == 0.0)),
        (9, &|| some(&|o| area(o) < 0.0)),
    ];
    let first = tests.iter().find(|(_, turns_away)| turns_away());
    first.map_or(0, |(number, _)| *number)
}

/// Whether vertex i equals the one after it.
fn equal_to_next(list: &[f64], i: usize) -> bool {
    let n = list.len() / 2;
    let vertex = |k: usize| [list[2 * (k % n)], list[2 * (k % n) + 1]];
    vertex(i) == vertex(i + 1)
}

/// What an ellipse gets: its centre, its semi-axes and the point.
pub fn ellipse([cx, cy, a, b, x, y]: [f64; 6]) -> u32 {
    if [cx, cy, x, y].iter().any(|v| !(v.abs() <= FIELD)) {
        return 10;
    }
    let axis = |v: f64| (0.0009765625..=1024.0).contains(&v);
    let offset = |d: f64| d == 0.0 || d.abs() >= 1.0 / 1_048_576.0;
    if axis(a) && axis(b) && offset(x - cx) && offset(y - cy) {
        0
    } else {
        12
    }
}

/// What making gets, with a lent list of `room` places.
pub fn making(list: &[f64], room: usize) -> u32 {
    // an odd count is test 1's whether or not the whole vertices close
    let number = if list.len() % 2 == 1 {
        1
    } else {
        shape(without_closing(list))
    };
    if number == 0 && room < list.len() {
        return 13;
    }
    number
}
