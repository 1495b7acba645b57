//! The queries over a set against the original `Index` over the outlines' boxes, with the original
//! `contains` and the magnitude of the original `distance`. Checked too: a refused call writes zeros and
//! leaves the working buffers as they were; an accepted one leaves zeros in their stated sizes, and nothing
//! else of them, or around them, has changed.
use crate::buffers::{Buffers, SIZES, STALE, STALE_WORD};
use crate::library;
use crate::original::geometry::{self, Point, Polygon, Region};
use crate::original::index::Index;
use crate::random::Random;
use crate::refusals;
use crate::report::{Report, hex_list};
use crate::sample::Sample;
use crate::shapes;

/// The outlines' vertices one after the other, and each outline's vertex count.
#[derive(Default)]
pub struct Set {
    pub vertices: Vec<f64>,
    pub counts: Vec<u32>,
}

impl Set {
    pub fn push(&mut self, outline: &[f64]) {
        self.vertices.extend(outline);
        self.counts.push((outline.len() / 2) as u32);
    }

    /// The outlines, where the counts add up.
    pub fn outlines(&self) -> Vec<&[f64]> {
        let mut rest = self.vertices.as_slice();
        let mut cut = |n: &u32| {
            let (outline, after) = rest.split_at(2 * *n as usize);
            rest = after;
            outline
        };
        self.counts.iter().map(&mut cut).collect()
    }
}

/// A small outline somewhere near.
fn small(r: &mut Random) -> Vec<f64> {
    let mut step = |most: i64| r.between(-most, most) as f64 / 64.0;
    let (x, y) = (step(4096), step(4096));
    let (w, h) = (step(64).abs() + 0.25, step(64).abs() + 0.25);
    if r.yes() {
        vec![x, y, x + w, y, x + w, y + h, x, y + h]
    } else {
        vec![x, y, x + w, y, x, y + h]
    }
}

/// One that a query accepts.
fn accepted(r: &mut Random) -> Vec<f64> {
    loop {
        let list = shapes::outline(r.below(1000), r);
        if list.len() <= 128 && refusals::query(&list, None) == 0 {
            return list;
        }
    }
}

/// A square of half-side s about (x, y).
pub fn square(x: f64, y: f64, s: f64) -> Vec<f64> {
    vec![x - s, y - s, x + s, y - s, x + s, y + s, x - s, y + s]
}

/// Set number `i` of a run.
pub fn set(i: u64, r: &mut Random) -> Set {
    let n = match r.below(256) {
        0 => 1023 + r.below(3),
        1..4 => r.below(1024),
        4..32 => r.below(80),
        _ => r.below(9),
    };
    let same = accepted(r);
    let mut set = Set::default();
    for k in 0..n {
        let at = k as f64;
        set.push(&match i % 6 {
            0 | 1 => small(r),
            2 => accepted(r),
            // the same outline over and over: equal distances
            3 => same.clone(),
            // nested, and in a row
            4 => square(0.0, 0.0, at + 1.0),
            _ => square(4.0 * at, 0.0, 1.0),
        });
    }
    if r.below(10) == 0 {
        damage(&mut set, r);
    }
    set
}

/// One damage: of the counts, of a number, of an outline, or of the set's size.
fn damage(set: &mut Set, r: &mut Random) {
    let (n, m) = (set.counts.len() as u64, set.vertices.len() as u64);
    if n == 0 {
        set.vertices.push(1.0);
        return;
    }
    let k = r.below(n) as usize;
    let at = r.below(m) as usize;
    match r.below(14) {
        0 => set.counts[k] += 1,
        1 => set.counts[k] -= 1,
        2 => set.counts[k] = u32::MAX,
        3 => set.vertices.push(0.0),
        4 => set.vertices.extend([0.0, 0.0]),
        5 => set.vertices[at] = f64::NAN,
        6 => set.vertices[at] = r.signed(refusals::FIELD.next_up()),
        7 => set.vertices[at] = f64::from_bits(r.bits()),
        8 => set.push(&[1.0, 1.0, 2.0, 2.0]),
        9 => set.push(&[0.0, 0.0, 1.0, 0.0, 1.0, 0.0, 0.0, 1.0]),
        10 => set.push(&[0.0, 0.0, 1.0, 0.0, 2.0, 0.0]),
        11 => set.push(&[0.0, 0.0, 0.0, 1.0, 1.0, 0.0]),
        12 => {
            let ring: Vec<f64> = (0..4097).flat_map(|i| [i as f64, (i % 2) as f64]).collect();
            set.push(&ring);
        }
        // a count moved from one outline to another
        _ => {
            let j = r.below(n) as usize;
            if set.counts[j] > 0 {
                set.counts[j] -= 1;
                set.counts[k] += 1;
            }
        }
    }
}

/// A point for a query of the set: mostly near one of its outlines.
fn point(set: &Set, r: &mut Random) -> [f64; 2] {
    if set.counts.is_empty() || refusals::set(set, [0.0, 0.0], SIZES) != 0 || r.below(8) == 0 {
        let mut step = || r.between(-8192, 8192) as f64 / 64.0;
        return [step(), step()];
    }
    let outlines = set.outlines();
    shapes::point(outlines[r.below(outlines.len() as u64) as usize], r)
}

/// The Rust's index of an accepted set, and its polygons.
pub struct Kept {
    index: Index,
    polygons: Vec<Polygon>,
}

impl Kept {
    pub fn new(set: &Set) -> Kept {
        let made =
            |list: &&[f64]| Polygon::new(geometry::points(list)).expect("document 01 accepts it");
        let polygons: Vec<Polygon> = set.outlines().iter().map(made).collect();
        let boxes: Vec<_> = polygons.iter().map(|p| p.bounds()).collect();
        let index = Index::new(&boxes);
        Kept { index, polygons }
    }

    /// Whether an outline holds the point.
    fn any_at(&self, [x, y]: [f64; 2]) -> bool {
        let p = Point::um(x, y);
        self.index.any_at(p, |k| self.polygons[k].contains(p))
    }

    /// The nearest outline and its distance's magnitude.
    pub fn nearest(&self, [x, y]: [f64; 2]) -> Option<(usize, f64)> {
        let p = Point::um(x, y);
        let magnitude = |k: usize| self.polygons[k].distance(p).0.abs();
        self.index.nearest(p, magnitude)
    }
}

/// The fields of a nearest answer: found, outline, distance.
pub type Nearest = (u32, u32, f64);

/// What both queries answer.
fn answers(set: &Set, p: [f64; 2], lengths: [usize; 3]) -> (u32, u32, Nearest) {
    let number = refusals::set(set, p, lengths);
    if number != 0 {
        return (number, 0, (0, 0, 0.0));
    }
    let kept = Kept::new(set);
    let nearest = kept.nearest(p);
    let nearest = nearest.map_or((0, 0, 0.0), |(k, d)| (1, k as u32, d));
    (0, u32::from(kept.any_at(p)), nearest)
}

struct Case<'a> {
    report: &'a mut Report,
    number: u64,
}

impl Case<'_> {
    #[cold]
    fn differs(&mut self, set: &Set, p: [f64; 2], what: &str) {
        let first = hex_list(&set.vertices[..set.vertices.len().min(96)]);
        let (number, counts) = (self.number, &set.counts[..set.counts.len().min(48)]);
        let p = hex_list(&p);
        self.report.differs(&format!(
            "(set {number}) [{first}] {counts:?}, point {p}: {what}"
        ));
    }

    fn pair(&mut self, set: &Set, p: [f64; 2], lengths: [usize; 3]) {
        let (number, any, nearest) = answers(set, p, lengths);
        let mut left = Buffers::new(lengths);
        if number == 0 {
            left.clear();
        }
        let mut space = Buffers::new(lengths);
        let mut told = STALE_WORD;
        self.report.operation("set_any_at");
        let ours = library::set_any_at(set.parts(), p, space.lent(), &mut told);
        self.report.numbered(number);
        if (ours, told) != (number, any) {
            self.differs(set, p, &format!("ours {ours} {told}, Rust {number} {any}"));
        }
        if !space.same(&left) {
            self.differs(set, p, "the working buffers are not what they must be");
        }
        let mut space = Buffers::new(lengths);
        let mut told: Nearest = (STALE_WORD, STALE_WORD, STALE);
        self.report.operation("set_nearest");
        let ours = library::set_nearest(set.parts(), p, space.lent(), &mut told);
        self.report.numbered(number);
        let bits = |n: Nearest| (n.0, n.1, n.2.to_bits());
        if ours != number || bits(told) != bits(nearest) {
            let what = format!("ours {ours} {told:?}, Rust {number} {nearest:?}");
            self.differs(set, p, &what);
        }
        if !space.same(&left) {
            self.differs(set, p, "the working buffers are not what they must be");
        }
    }
}

impl Set {
    pub fn parts(&self) -> (&[f64], &[u32]) {
        (&self.vertices, &self.counts)
    }
}

/// Sets that every run compares: the ends of the sizes.
pub fn fixed() -> Vec<Set> {
    let ring = |n: usize| -> Vec<f64> {
        let corner = |i: usize| {
            let (sin, cos) = (i as f64 / n as f64 * std::f64::consts::TAU).sin_cos();
            [100.0 * cos, 100.0 * sin]
        };
        (0..n).flat_map(corner).collect()
    };
    let of = |n: usize, outline: &[f64]| {
        let mut set = Set::default();
        (0..n).for_each(|_| set.push(outline));
        set
    };
    vec![
        Set::default(),
        of(16, &ring(4096)),
        of(17, &ring(4096)),
        of(1024, &ring(64)),
        of(1025, &ring(64)),
        of(1024, &ring(3)),
        of(1025, &ring(3)),
        of(2, &square(0.0, 0.0, 1.0)),
    ]
}

/// The fixed sets, and `cases` at random, with both queries on each.
pub fn compare(report: &mut Report, seed: u64, cases: u64) {
    let mut r = Random::new(seed, "sets");
    let mut case = Case { report, number: 0 };
    for (i, set) in fixed().iter().enumerate() {
        case.number = i as u64;
        for p in [[0.0, 0.0], [100.0, 0.0], [50.0, 60.0], [1e6, -1e6]] {
            case.pair(set, p, SIZES);
        }
    }
    for i in 0..cases {
        case.number = i;
        let set = set(i, &mut r);
        let p = point(&set, &mut r);
        case.pair(&set, p, Buffers::lengths(&mut r));
    }
}

/// Cases over sets of a few vertices, document 01's example first.
pub fn sample(out: &mut Sample, seed: u64, count: u64) {
    let mut r = Random::new(seed, "sets");
    let mut add = |set: &Set, p: [f64; 2]| {
        let (number, any, nearest) = answers(set, p, SIZES);
        out.set_any_at(set.parts(), p, number, any);
        out.set_nearest(set.parts(), p, number, nearest);
    };
    let mut two = Set::default();
    two.push(&square(2.0, 2.0, 2.0));
    two.push(&square(12.0, 2.0, 2.0));
    add(&two, [7.0, 2.0]);
    let (mut i, mut left) = (0, count.saturating_sub(1));
    while left > 0 {
        i += 1;
        let set = set(i, &mut r);
        let p = point(&set, &mut r);
        if set.vertices.len() <= 64 && set.counts.len() <= 16 {
            add(&set, p);
            left -= 1;
        }
    }
}
