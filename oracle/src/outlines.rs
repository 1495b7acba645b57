//! Outlines: making, area, perimeter, bounds, containment, location and distance against the original
//! bodies of `Polygon`. What is turned away comes from `refusals`, what is answered from the Rust. Checked
//! too: a refused call writes +0 to every answer field, and lent lists hold what they must.
use crate::library;
use crate::original::geometry::{self, Point, Polygon, Region};
use crate::random::Random;
use crate::refusals;
use crate::report::{Report, hex_list};
use crate::sample::Sample;
use crate::shapes;
use crate::standins::{Distance, Location};

/// What a call gives: its number and its answer fields, zeros where it has fewer.
#[derive(Clone, Copy, Debug, Default)]
struct Answer {
    number: u32,
    told: u32,
    measures: [f64; 4],
}

impl Answer {
    fn refused(number: u32) -> Answer {
        Answer {
            number,
            ..Answer::default()
        }
    }

    fn told(told: u32) -> Answer {
        Answer {
            told,
            ..Answer::default()
        }
    }

    fn measures(measures: [f64; 4]) -> Answer {
        Answer {
            measures,
            ..Answer::default()
        }
    }

    /// Equal to the bit; but a zero that the Rust works out may have either sign.
    fn equals(&self, rust: &Answer) -> bool {
        let worked_out = rust.number == 0;
        let mut pairs = self.measures.iter().zip(&rust.measures);
        self.number == rust.number
            && self.told == rust.told
            && pairs
                .all(|(a, b)| a.to_bits() == b.to_bits() || worked_out && *a == 0.0 && *b == 0.0)
    }

    fn show(&self) -> String {
        format!("{} {} {}", self.number, self.told, hex_list(&self.measures))
    }
}

/// What stands in an answer field and in a lent list before a call: no call gives it.
const STALE: u32 = 0xdead_beef;
const STALE_FLOAT: f64 = f64::from_bits(0xdead_beef_dead_beef);

/// Places past a lent list, which no call may touch.
const GUARD: usize = 4;

/// The operations that take an outline and no list to write to.
#[derive(Clone, Copy)]
enum Query {
    Area,
    Perimeter,
    Bounds,
    Contains([f64; 2]),
    Locate([f64; 2]),
    Distance([f64; 2]),
}

impl Query {
    fn name(self) -> &'static str {
        match self {
            Query::Area => "area",
            Query::Perimeter => "perimeter",
            Query::Bounds => "bounds",
            Query::Contains(_) => "contains",
            Query::Locate(_) => "locate",
            Query::Distance(_) => "distance",
        }
    }

    fn point(self) -> Option<[f64; 2]> {
        match self {
            Query::Contains(p) | Query::Locate(p) | Query::Distance(p) => Some(p),
            _ => None,
        }
    }

    fn ours(self, list: &[f64]) -> Answer {
        let mut told = STALE;
        let mut measures = [STALE_FLOAT; 4];
        let number = match self {
            Query::Area => library::area(list, &mut measures[0]),
            Query::Perimeter => library::perimeter(list, &mut measures[0]),
            Query::Bounds => library::bounds(list, &mut measures),
            Query::Contains(p) => library::contains(list, p, &mut told),
            Query::Locate(p) => library::locate(list, p, &mut told),
            Query::Distance(p) => {
                let mut fields = [STALE_FLOAT; 3];
                let number = library::distance(list, p, &mut fields);
                measures[..3].copy_from_slice(&fields);
                number
            }
        };
        // fields that the operation does not have
        match self {
            Query::Area | Query::Perimeter => {
                measures[1..].fill(0.0);
                told = 0;
            }
            Query::Bounds => told = 0,
            Query::Distance(_) => {
                measures[3] = 0.0;
                told = 0;
            }
            Query::Contains(_) | Query::Locate(_) => measures.fill(0.0),
        }
        Answer {
            number,
            told,
            measures,
        }
    }

    fn rust(self, list: &[f64]) -> Answer {
        let number = refusals::query(list, self.point());
        if number != 0 {
            return Answer::refused(number);
        }
        let polygon = Polygon::new(geometry::points(list)).expect("document 01 accepts it");
        assert_eq!(polygon.list(), list, "Polygon::new keeps a query's outline");
        let at = |p: [f64; 2]| Point::um(p[0], p[1]);
        match self {
            Query::Area => Answer::measures([polygon.area(), 0.0, 0.0, 0.0]),
            Query::Perimeter => {
                let perimeter = polygon.perimeter().expect("a polygon has one").to_um();
                Answer::measures([perimeter, 0.0, 0.0, 0.0])
            }
            Query::Bounds => {
                let b = polygon.bounds();
                Answer::measures([b.min.x, b.min.y, b.max.x, b.max.y].map(|x| x.to_um()))
            }
            Query::Contains(p) => Answer::told(u32::from(polygon.contains(at(p)))),
            Query::Locate(p) => Answer::told(match polygon.locate(at(p)) {
                Location::Outside => 0,
                Location::Boundary => 1,
                Location::Inside => 2,
            }),
            Query::Distance(p) => {
                let Distance(d, n) = polygon.distance(at(p));
                Answer::measures([d, n[0], n[1], 0.0])
            }
        }
    }
}

/// What making answers and the vertices that it writes, by the Rust.
fn rust_make(list: &[f64], room: usize) -> (Answer, Vec<f64>) {
    let number = refusals::making(list, room);
    if number != 1 {
        // the Rust makes the tests 3, 5, 7 and 8, and no other
        let accepts = Polygon::new(geometry::points(list)).is_ok();
        match number {
            0 | 13 => assert!(accepts, "Polygon::new accepts {}", hex_list(list)),
            3 | 5 | 7 | 8 => assert!(!accepts, "Polygon::new refuses {}", hex_list(list)),
            _ => {}
        }
    }
    if number != 0 {
        return (Answer::refused(number), Vec::new());
    }
    let made = Polygon::new(geometry::points(list)).expect("it was accepted");
    let made = made.list();
    (Answer::told(made.len() as u32 / 2), made)
}

/// The same bits throughout.
fn same(a: &[f64], b: &[f64]) -> bool {
    a.len() == b.len() && a.iter().zip(b).all(|(x, y)| x.to_bits() == y.to_bits())
}

/// One outline of a comparison, and lists that serve again for the next.
struct Case<'a> {
    report: &'a mut Report,
    /// The outline's number, among the fixed ones or those at random.
    kind: &'static str,
    number: u64,
    lent: Vec<f64>,
    made: Vec<f64>,
}

impl Case<'_> {
    #[cold]
    fn differs(&mut self, list: &[f64], what: &str, ours: &str, rust: &str) {
        let (kind, number, input) = (self.kind, self.number, shortened(list));
        self.report.differs(&format!(
            "{what} ({kind} outline {number}) {input}: ours {ours}, Rust {rust}"
        ));
    }

    /// The outline's numbers are lent to a call, and must not change.
    fn unchanged(&mut self, list: &[f64], what: &str) {
        if !same(&self.lent, list) {
            let ours = format!("leaves {}", shortened(&self.lent));
            self.differs(list, what, &ours, "leaves it");
        }
    }

    fn query(&mut self, list: &[f64], query: Query) {
        self.report.operation(query.name());
        self.lent.clear();
        self.lent.extend_from_slice(list);
        let (ours, rust) = (query.ours(&self.lent), query.rust(list));
        self.report.numbered(rust.number);
        if !ours.equals(&rust) {
            let at = query.point().map_or(String::new(), |p| hex_list(&p));
            self.differs(list, &at, &ours.show(), &rust.show());
        }
        self.unchanged(list, "");
    }

    fn make(&mut self, list: &[f64], room: usize) {
        self.report.operation("make");
        self.lent.clear();
        self.lent.extend_from_slice(list);
        self.made.clear();
        self.made.resize(room + GUARD, STALE_FLOAT);
        let mut ours = Answer::told(STALE);
        ours.number = library::make(&self.lent, &mut self.made[..room], &mut ours.told);
        let (rust, mut made) = rust_make(list, room);
        made.resize(room + GUARD, STALE_FLOAT);
        self.report.numbered(rust.number);
        if !ours.equals(&rust) {
            let places = format!("to {room} places");
            self.differs(list, &places, &ours.show(), &rust.show());
        }
        if !same(&self.made, &made) {
            let places = format!("to {room} places");
            let (ours, rust) = (shortened(&self.made), shortened(&made));
            self.differs(list, &places, &ours, &rust);
        }
        self.unchanged(list, "");
    }

    /// Every operation on one outline, and several points of it.
    fn all(&mut self, list: &[f64], r: &mut Random) {
        self.query(list, Query::Area);
        self.query(list, Query::Perimeter);
        self.query(list, Query::Bounds);
        self.make(list, room(list.len(), r));
        for _ in 0..3 {
            let p = shapes::point(list, r);
            self.query(list, Query::Contains(p));
            self.query(list, Query::Locate(p));
            self.query(list, Query::Distance(p));
        }
    }
}

/// The first numbers of a list, and how many there are.
fn shortened(list: &[f64]) -> String {
    if list.len() <= 96 {
        return format!("[{}]", hex_list(list));
    }
    format!("[{} .. {} numbers]", hex_list(&list[..16]), list.len())
}

/// The length of a list lent to making, for an outline of `len` numbers: mostly enough.
fn room(len: usize, r: &mut Random) -> usize {
    match r.below(12) {
        0 => len.saturating_sub(1 + r.below(3) as usize),
        1 => 0,
        2..4 => len + 1 + r.below(6) as usize,
        _ => len,
    }
}

/// The outlines that every run compares, and `cases` at random.
pub fn compare(report: &mut Report, seed: u64, cases: u64) {
    let mut r = Random::new(seed, "outlines");
    let mut case = Case {
        report,
        kind: "fixed",
        number: 0,
        lent: Vec::new(),
        made: Vec::new(),
    };
    for (i, list) in shapes::fixed().iter().enumerate() {
        case.number = i as u64;
        case.all(list, &mut r);
        for room in [0, 1, list.len().saturating_sub(2), list.len()] {
            case.make(list, room);
        }
    }
    case.kind = "random";
    for i in 0..cases {
        case.number = i;
        let list = shapes::outline(i, &mut r);
        case.all(&list, &mut r);
    }
}

/// About `count` cases over short outlines, document 01's examples first; every operation on each.
pub fn sample(out: &mut Sample, seed: u64, count: u64) {
    let mut r = Random::new(seed, "outlines");
    let fixed = shapes::fixed().into_iter();
    let mut short = fixed.filter(|list| list.len() <= 16);
    let mut i = 0;
    for _ in 0..count / 7 {
        let list = short.next().unwrap_or_else(|| {
            loop {
                i += 1;
                let list = shapes::outline(i, &mut r);
                if list.len() <= 24 {
                    return list;
                }
            }
        });
        for query in [Query::Area, Query::Perimeter, Query::Bounds] {
            let a = query.rust(&list);
            let fields = if let Query::Bounds = query { 4 } else { 1 };
            out.measures(query.name(), &list, &[], a.number, &a.measures[..fields]);
        }
        let p = shapes::point(&list, &mut r);
        for query in [Query::Contains(p), Query::Locate(p)] {
            let a = query.rust(&list);
            out.told(query.name(), &list, p, a.number, a.told);
        }
        let query = Query::Distance(p);
        let a = query.rust(&list);
        out.measures(query.name(), &list, &p, a.number, &a.measures[..3]);
        let room = room(list.len(), &mut r);
        let (a, mut made) = rust_make(&list, room);
        made.resize(room, 0.0);
        out.make(&list, a.number, a.told, &made);
    }
}
