//! The nearest outlines of many points against the original `Index`, built once for a set and asked for each
//! point by itself. Checked too: a refused call changes no list; an accepted one leaves zeros in the
//! working buffers' stated sizes and each point's answer in its places of both lists, and nothing else of
//! the lists, or around them, has changed.
use crate::buffers::{self, Buffers, GUARD, SIZES, STALE, STALE_WORD};
use crate::library;
use crate::random::Random;
use crate::refusals::{self, FIELD};
use crate::report::{Report, hex_list};
use crate::sample::Sample;
use crate::sets::{self, Kept, Set};
use crate::shapes;

/// Points that a call takes, and places of each of the two lists.
const MOST: usize = 256;

/// The stated sizes: those of an index buffer, outlines and distances.
const ALL: [usize; 5] = [SIZES[0], SIZES[1], SIZES[2], MOST, MOST];

/// The two lists that a call writes its answers to, with the places around them.
#[derive(Clone)]
struct Lists {
    outlines: Vec<u32>,
    distances: Vec<f64>,
}

impl Lists {
    fn new(outlines: usize, distances: usize) -> Lists {
        Lists {
            outlines: vec![STALE_WORD; outlines + 2 * GUARD],
            distances: vec![STALE; distances + 2 * GUARD],
        }
    }

    fn lent(&mut self) -> (&mut [u32], &mut [f64]) {
        (
            buffers::middle(&mut self.outlines),
            buffers::middle(&mut self.distances),
        )
    }

    /// Place i of both has these answers.
    fn put(&mut self, i: usize, (outline, distance): (u32, f64)) {
        let (outlines, distances) = self.lent();
        outlines[i] = outline;
        distances[i] = distance;
    }
}

/// The points of a list.
fn each(points: &[f64]) -> impl Iterator<Item = [f64; 2]> {
    points.chunks_exact(2).map(|p| [p[0], p[1]])
}

/// What the Rust answers, point by point, where the call is accepted; nothing over an empty set.
fn singles(set: &Set, points: &[f64]) -> Vec<(u32, f64)> {
    let kept = Kept::new(set);
    let of = |p: [f64; 2]| kept.nearest(p).map(|(k, d)| (k as u32, d));
    each(points).filter_map(of).collect()
}

/// How many points: mostly few, now and then as many as there may be, or one more; for a large set more
/// often.
fn count(set: &Set, r: &mut Random) -> usize {
    let large = set.counts.len() > 512;
    match r.below(if large { 12 } else { 64 }) {
        0 => MOST - 1,
        1 => MOST,
        2 => MOST + 1,
        3..6 => r.below(1 + MOST as u64) as usize,
        6..14 => r.below(40) as usize,
        _ => r.below(9) as usize,
    }
}

/// A point in the field: mostly near an outline, where there are any.
fn point(outlines: &[&[f64]], r: &mut Random) -> [f64; 2] {
    loop {
        let p = if outlines.is_empty() || r.below(8) == 0 {
            let mut step = || r.between(-8192, 8192) as f64 / 64.0;
            [step(), step()]
        } else {
            shapes::point(outlines[r.below(outlines.len() as u64) as usize], r)
        };
        if p.iter().all(|x| x.abs() <= FIELD) {
            return p;
        }
    }
}

/// One number, at any place, is anything, or the count of numbers is odd.
fn damage(points: &mut Vec<f64>, r: &mut Random) {
    if points.is_empty() || r.below(4) == 0 {
        points.push(r.pick(&[0.0, f64::NAN]));
        return;
    }
    let at = match r.below(4) {
        0 => points.len() - 1 - r.below(2) as usize,
        _ => r.below(points.len() as u64) as usize,
    };
    points[at] = match r.below(4) {
        0 => f64::from_bits(r.bits()),
        1 => r.signed(FIELD.next_up()),
        2 => r.pick(&[f64::NAN, f64::INFINITY, f64::NEG_INFINITY]),
        _ => r.signed(FIELD),
    };
}

/// So many points for the set, in the field.
fn points(set: &Set, n: usize, r: &mut Random) -> Vec<f64> {
    let outlines = match refusals::outlines(set) {
        0 => set.outlines(),
        _ => Vec::new(),
    };
    let mut list: Vec<f64> = (0..n).flat_map(|_| point(&outlines, r)).collect();
    // a point again: the same answer
    if n > 1 && r.below(8) == 0 {
        let at = 2 * r.below(n as u64 - 1) as usize;
        list.copy_within(at..at + 2, 2 * n - 2);
    }
    list
}

struct Case<'a> {
    report: &'a mut Report,
    number: u64,
}

impl Case<'_> {
    #[cold]
    fn differs(&mut self, set: &Set, points: &[f64], what: &str) {
        let first = hex_list(&set.vertices[..set.vertices.len().min(96)]);
        let (number, counts) = (self.number, &set.counts[..set.counts.len().min(48)]);
        let (len, points) = (points.len(), hex_list(&points[..points.len().min(48)]));
        self.report.differs(&format!(
            "(set {number}) [{first}] {counts:?}, {len} numbers of points {points}: {what}"
        ));
    }

    /// Each place of both lists that has a point's answer counts as one answer.
    fn places(&mut self, set: &Set, points: &[f64], ours: &mut Lists, want: &[(u32, f64)]) {
        let (outlines, distances) = ours.lent();
        for (i, (p, (outline, distance))) in each(points).zip(want).enumerate() {
            self.report.compared();
            if outlines[i] != *outline {
                let what = format!("outline {i}: ours {}, Rust {outline}", outlines[i]);
                self.differs(set, &p, &what);
            }
            self.report.compared();
            if distances[i].to_bits() != distance.to_bits() {
                let [a, b] = [distances[i], *distance].map(f64::to_bits);
                let what = format!("distance {i}: ours {a:016x}, Rust {b:016x}");
                self.differs(set, &p, &what);
            }
        }
    }

    fn call(&mut self, set: &Set, points: &[f64], lengths: [usize; 5]) {
        let number = refusals::many(set, points, lengths);
        let [a, b, c, near, away] = lengths;
        let mut left = Buffers::new([a, b, c]);
        let mut space = left.clone();
        let mut want = Lists::new(near, away);
        let mut lists = want.clone();
        let (mut found, mut answers) = (0, Vec::new());
        if number == 0 {
            left.clear();
            found = u32::from(!set.counts.is_empty());
            answers = singles(set, points);
            for (i, answer) in answers.iter().enumerate() {
                want.put(i, *answer);
            }
        }
        let mut told = STALE_WORD;
        let lent = space.lent();
        let ours = library::set_nearest_many(set.parts(), points, lent, lists.lent(), &mut told);
        self.report.numbered(number);
        if (ours, told) != (number, found) {
            let what = format!("ours {ours} {told}, Rust {number} {found}");
            self.differs(set, points, &what);
        }
        self.places(set, points, &mut lists, &answers);
        // the answers again, and every other place of the lists and around them
        let bits = |list: &[f64]| list.iter().map(|x| x.to_bits()).collect::<Vec<u64>>();
        if lists.outlines != want.outlines || bits(&lists.distances) != bits(&want.distances) {
            self.differs(set, points, "the two lists are not what they must be");
        }
        if !space.same(&left) {
            self.differs(set, points, "the working buffers are not what they must be");
        }
    }
}

/// The fixed sets with 0, 1 and about 256 points, and `cases` calls at random.
pub fn compare(report: &mut Report, seed: u64, cases: u64) {
    report.operation("set_nearest_many");
    let mut r = Random::new(seed, "many");
    let mut case = Case { report, number: 0 };
    for (i, set) in sets::fixed().iter().enumerate() {
        case.number = i as u64;
        for n in [0, 1, 255, 256, 257] {
            let mut list = points(set, n, &mut r);
            case.call(set, &list, ALL);
            list.push(1.0);
            case.call(set, &list, ALL);
        }
    }
    for i in 0..cases {
        case.number = i;
        let set = sets::set(i, &mut r);
        let n = count(&set, &mut r);
        let mut list = points(&set, n, &mut r);
        if r.below(8) == 0 {
            damage(&mut list, &mut r);
        }
        case.call(&set, &list, buffers::varied(ALL, &mut r));
    }
}

/// Cases over sets of a few vertices: the manual's first, then an empty set, and the ends of 15.
pub fn sample(out: &mut Sample, seed: u64, count: u64) {
    let mut r = Random::new(seed, "many");
    let mut add = |set: &Set, points: &[f64], short: u32| {
        let mut lengths = ALL;
        if short > 0 {
            lengths[2 + short as usize] -= 1;
        }
        let number = refusals::many(set, points, lengths);
        let places = points.len() / 2 + 1;
        let (mut outlines, mut distances) = (vec![9; places], vec![1.0; places]);
        let mut found = 0;
        if number == 0 {
            found = u32::from(!set.counts.is_empty());
            for (i, (outline, distance)) in singles(set, points).into_iter().enumerate() {
                (outlines[i], distances[i]) = (outline, distance);
            }
        }
        let lists = (outlines.as_slice(), distances.as_slice());
        out.set_nearest_many(set.parts(), points, short, [number, found], lists);
    };
    let mut two = Set::default();
    two.push(&sets::square(2.0, 2.0, 2.0));
    two.push(&sets::square(12.0, 2.0, 2.0));
    let row = |n: usize| -> Vec<f64> { (0..n).flat_map(|i| [i as f64 / 16.0, 2.0]).collect() };
    add(&two, &[7.0, 2.0, 7.5, 2.0, 12.0, 2.0], 0);
    add(&two, &[], 0);
    add(&Set::default(), &[], 0);
    add(&Set::default(), &[7.0, 2.0], 0);
    add(&two, &row(256), 0);
    add(&two, &row(257), 0);
    for short in [1, 2] {
        add(&two, &[7.0, 2.0], short);
        add(&two, &[7.0, 2.0, 7.5, f64::NAN], short);
        add(&two, &[7.0, 2.0, f64::NAN], short);
    }
    let (mut i, mut left) = (0, count.saturating_sub(12));
    while left > 0 {
        i += 1;
        let set = sets::set(i, &mut r);
        let n = r.below(7) as usize;
        let mut list = points(&set, n, &mut r);
        if r.below(4) == 0 {
            damage(&mut list, &mut r);
        }
        // mostly no list is short
        let short = r.below(16).saturating_sub(13) as u32;
        if set.vertices.len() <= 64 && set.counts.len() <= 16 {
            add(&set, &list, short);
            left -= 1;
        }
    }
}
