//! The fill of a cell against the original `fill`. What is turned away before the clips comes from
//! `refusals`, refusal 14 from the lengths of the four lists that the original `clip` gives. Checked too:
//! a refused call writes +0; the outline stays as it was; the buffer's halves hold only zeros after an
//! accepted call and after 14, and no other place of the buffer, or around it, has changed.
use crate::library;
use crate::original::boundary;
use crate::original::geometry::{self, Polygon};
use crate::random::Random;
use crate::refusals;
use crate::report::{Report, hex_list};
use crate::sample::Sample;
use crate::shapes;

/// What stands in the answer field and in the buffer before a call: no call gives it.
const STALE: f64 = f64::from_bits(0xdead_beef_dead_beef);

/// Places before and after the buffer, which no call may touch.
const GUARD: usize = 4;

/// Numbers of a piece in both halves.
const PAIR: usize = 8;

/// What the Rust tells of an outline and a cell: the fill, and the pieces of the longest of the four
/// lists. Nothing where the outline or the cell is turned away.
fn rust(list: &[f64], cell: [f64; 4]) -> Option<(f64, usize)> {
    if refusals::fill(list, cell, usize::MAX) != 0 {
        return None;
    }
    let polygon = Polygon::new(geometry::points(list)).expect("document 01 accepts it");
    assert_eq!(polygon.list(), list, "Polygon::new keeps a query's outline");
    let loops = polygon.boundary();
    let corners = [[cell[0], cell[1]], [cell[2], cell[3]]];
    let longest = boundary::clipped(&loops[0], corners).into_iter().max();
    Some((
        boundary::fill(&loops, corners),
        longest.expect("four lists"),
    ))
}

/// What a call with a buffer of `room` numbers answers, and the buffer that it leaves, `before` in each
/// place at first.
fn expected(
    list: &[f64],
    cell: [f64; 4],
    told: Option<(f64, usize)>,
    room: usize,
    before: f64,
) -> (u32, f64, Vec<f64>) {
    let number = refusals::fill(list, cell, room);
    let mut work = vec![before; room];
    if number != 0 {
        return (number, 0.0, work);
    }
    let (fill, longest) = told.expect("it was accepted");
    let half = room / PAIR;
    work[..PAIR * half].fill(0.0);
    if longest > half {
        (14, 0.0, work)
    } else {
        (0, fill, work)
    }
}

/// The same bits throughout.
fn same(a: &[f64], b: &[f64]) -> bool {
    a.len() == b.len() && a.iter().zip(b).all(|(x, y)| x.to_bits() == y.to_bits())
}

/// A length of the buffer: mostly about one of the two limits, a piece per vertex and the longest list.
fn room(list: &[f64], longest: usize, r: &mut Random) -> usize {
    let least = PAIR * (list.len() / 2);
    match r.below(16) {
        0 => r.below(9) as usize,
        1..3 => (least + r.below(17) as usize).saturating_sub(9),
        3..9 => least + r.below(8) as usize,
        9..14 => (PAIR * longest + r.below(17) as usize).saturating_sub(9),
        _ => 2 * least + 64,
    }
}

/// One comparison.
struct Case<'a> {
    report: &'a mut Report,
    kind: &'static str,
    number: u64,
}

impl Case<'_> {
    #[cold]
    fn differs(&mut self, list: &[f64], cell: [f64; 4], room: usize, what: &str) {
        let first = &list[..list.len().min(96)];
        let (kind, number, len) = (self.kind, self.number, list.len());
        let (first, cell) = (hex_list(first), hex_list(&cell));
        self.report.differs(&format!(
            "({kind} outline {number}) [{first}] of {len} numbers, cell {cell}, buffer of {room}: {what}"
        ));
    }

    fn call(&mut self, list: &[f64], cell: [f64; 4], told: Option<(f64, usize)>, room: usize) {
        let (number, fill, left) = expected(list, cell, told, room, STALE);
        let mut want = vec![STALE; room + 2 * GUARD];
        want[GUARD..GUARD + room].copy_from_slice(&left);
        let lent = list.to_vec();
        let mut space = vec![STALE; room + 2 * GUARD];
        let mut ours = STALE;
        let given = library::fill(&lent, cell, &mut space[GUARD..GUARD + room], &mut ours);
        self.report.numbered(number);
        let equal = ours.to_bits() == fill.to_bits() || number == 0 && ours == 0.0 && fill == 0.0;
        if given != number || !equal {
            let (ours, fill) = (hex_list(&[ours]), hex_list(&[fill]));
            let what = format!("ours {given} {ours}, Rust {number} {fill}");
            self.differs(list, cell, room, &what);
        }
        if !same(&lent, list) {
            self.differs(list, cell, room, "the outline has changed");
        }
        if !same(&space, &want) {
            self.differs(list, cell, room, "the buffer is not what it must be");
        }
    }

    /// A pair with every buffer from a piece below to a piece above both limits.
    fn limits(&mut self, list: &[f64], cell: [f64; 4]) {
        let told = rust(list, cell);
        let least = list.len() / 2;
        let longest = told.map_or(least, |t| t.1);
        for limit in [least, longest] {
            let at = PAIR * limit;
            for room in at.saturating_sub(PAIR + 1)..=at + PAIR + 1 {
                self.call(list, cell, told, room);
            }
        }
    }

    fn pair(&mut self, list: &[f64], cell: [f64; 4], r: &mut Random) {
        let told = rust(list, cell);
        let room = room(list, told.map_or(0, |t| t.1), r);
        self.call(list, cell, told, room);
    }
}

/// Outline number `i` of a run: one that a query turns away is seldom kept.
fn outline(i: u64, r: &mut Random) -> Vec<f64> {
    loop {
        let list = shapes::outline(i, r);
        if refusals::query(&list, None) == 0 || r.below(8) == 0 {
            return list;
        }
    }
}

/// A cell about the outline's own box: each bound is the outline's, or one double beside it to either side.
fn tight(list: &[f64], r: &mut Random) -> [f64; 4] {
    let mut bound = |axis: usize, high: bool| {
        let numbers = list.iter().skip(axis).step_by(2).copied();
        let x = if high {
            numbers.fold(f64::NEG_INFINITY, f64::max)
        } else {
            numbers.fold(f64::INFINITY, f64::min)
        };
        match r.below(4) {
            0 => x.next_down(),
            1 => x.next_up(),
            _ => x,
        }
    };
    [
        bound(0, false),
        bound(1, false),
        bound(0, true),
        bound(1, true),
    ]
}

/// A strip: each bound of x is a vertex's, or one double beside it to either side, so that runs of edges lie
/// beyond one bound and end at it. The bounds of y are those of `cell`.
fn strip(list: &[f64], cell: [f64; 4], r: &mut Random) -> [f64; 4] {
    let mut bound = || {
        let x = list[2 * r.below(list.len() as u64 / 2) as usize];
        match r.below(4) {
            0 => x.next_down(),
            1 => x.next_up(),
            _ => x,
        }
    };
    let (a, b) = (bound(), bound());
    [a.min(b), cell[1], a.max(b), cell[3]]
}

/// The outlines that every run compares, each with many cells, and `cases` pairs at random.
pub fn compare(report: &mut Report, seed: u64, cases: u64) {
    report.operation("fill");
    let mut r = Random::new(seed, "fills");
    let mut case = Case {
        report,
        kind: "fixed",
        number: 0,
    };
    for (i, list) in shapes::fixed().iter().enumerate() {
        case.number = i as u64;
        case.pair(list, [1.0, 1.0, 3.0, 6.0], &mut r);
        case.pair(list, [5.0, 5.0, 6.0, 6.0], &mut r);
        for _ in 0..40 {
            let cell = shapes::cell(list, &mut r);
            case.pair(list, cell, &mut r);
        }
        let cell = shapes::cell(list, &mut r);
        case.limits(list, cell);
    }
    case.kind = "random";
    for i in 0..cases {
        case.number = i;
        let list = outline(i, &mut r);
        let cell = match i % 8 {
            7 => tight(&list, &mut r),
            5 if list.len() > 1 => strip(&list, shapes::cell(&list, &mut r), &mut r),
            _ => shapes::cell(&list, &mut r),
        };
        if i % 32 == 0 && list.len() <= 128 {
            case.limits(&list, cell);
        } else {
            case.pair(&list, cell, &mut r);
        }
    }
}

/// Cases over outlines of a few vertices, document 01's examples first, in short buffers.
pub fn sample(out: &mut Sample, seed: u64, count: u64) {
    let mut r = Random::new(seed, "fills");
    let square = vec![0.0, 0.0, 4.0, 0.0, 4.0, 4.0, 0.0, 4.0];
    let mut add = |list: &[f64], cell: [f64; 4], room: usize| {
        let (number, fill, work) = expected(list, cell, rust(list, cell), room, 1.0);
        out.fill(list, cell, number, fill, &work);
    };
    add(&square, [1.0, 1.0, 3.0, 6.0], 32);
    add(&square, [5.0, 5.0, 6.0, 6.0], 35);
    let (mut i, mut left) = (0, count.saturating_sub(2));
    while left > 0 {
        i += 1;
        let list = outline(i, &mut r);
        let cell = shapes::cell(&list, &mut r);
        let longest = rust(&list, cell).map_or(0, |t| t.1);
        let room = room(&list, longest, &mut r);
        if list.len() <= 14 && room <= 64 {
            add(&list, cell, room);
            left -= 1;
        }
    }
}
