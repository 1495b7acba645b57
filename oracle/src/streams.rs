//! Reading a GDSII stream (document 02, U3) against a plain reader over the original `Polygon::new`. Checked too: a
//! refused call changes neither list; an accepted one changes no place past the set that it found; the stream, and
//! what is around the lists, stay as they were; and a query takes the set that was read.
use crate::buffers::{self, Buffers, GUARD, SIZES, STALE, STALE_WORD};
use crate::layouts::{self, END, ENDS, KINDS, Record, Steps};
use crate::library;
use crate::random::Random;
use crate::reader::{self, UNITS, XY};
use crate::report::Report;
use crate::sample::Sample;

/// The two lists that a call writes the set to, with the places around them.
#[derive(Default)]
struct Lists {
    vertices: Vec<f64>,
    counts: Vec<u32>,
}

impl Lists {
    /// Lists of these lengths, as they are before a call.
    fn blank(&mut self, [numbers, outlines]: [usize; 2]) {
        self.vertices.clear();
        self.vertices.resize(numbers + 2 * GUARD, STALE);
        self.counts.clear();
        self.counts.resize(outlines + 2 * GUARD, STALE_WORD);
    }

    fn lent(&mut self) -> (&mut [f64], &mut [u32]) {
        (
            buffers::middle(&mut self.vertices),
            buffers::middle(&mut self.counts),
        )
    }

    /// A set at the front of both.
    fn put(&mut self, vertices: &[f64], counts: &[u32]) {
        let lent = self.lent();
        lent.0[..vertices.len()].copy_from_slice(vertices);
        lent.1[..counts.len()].copy_from_slice(counts);
    }

    /// The same bits in every place.
    fn same(&self, other: &Lists) -> bool {
        let mut pairs = self.vertices.iter().zip(&other.vertices);
        self.vertices.len() == other.vertices.len()
            && pairs.all(|(a, b)| a.to_bits() == b.to_bits())
            && self.counts == other.counts
    }
}

/// Which lists a call is lent.
#[derive(Clone, Copy)]
enum Room {
    Exact,
    /// So many places more of both.
    Longer(usize),
    /// So many places fewer of the vertices, or of the counts.
    FewVertices(usize),
    FewCounts(usize),
}

impl Room {
    fn random(r: &mut Random) -> Room {
        match r.below(16) {
            0 => Room::FewVertices(1),
            1 => Room::FewCounts(1),
            2 => Room::FewVertices(1 + r.below(24) as usize),
            3 => Room::FewCounts(1 + r.below(9) as usize),
            4..10 => Room::Exact,
            _ => Room::Longer(r.below(24) as usize),
        }
    }

    fn lengths(self, [numbers, outlines]: [usize; 2]) -> [usize; 2] {
        match self {
            Room::Exact => [numbers, outlines],
            Room::Longer(n) => [numbers + n, outlines + n],
            Room::FewVertices(n) => [numbers.saturating_sub(n), outlines],
            Room::FewCounts(n) => [numbers, outlines.saturating_sub(n)],
        }
    }
}

/// What a call must give: its number and both fields, and the set that it writes.
struct Want {
    number: u32,
    fields: [u32; 2],
    set: reader::Layout,
}

/// What the stream gets in lists of the lengths that `room` says, and these lengths.
fn wanted(stream: &[u8], room: Room) -> (Want, [usize; 2]) {
    let refused = |number| Want {
        number,
        fields: [0, 0],
        set: reader::Layout::default(),
    };
    let set = match reader::read(stream) {
        Ok(set) => set,
        Err(number) => return (refused(number), room.lengths([24, 8])),
    };
    let sizes = [set.vertices.len(), set.counts.len()];
    let lengths = room.lengths(sizes);
    if lengths[0] < sizes[0] || lengths[1] < sizes[1] {
        return (refused(13), lengths);
    }
    let fields = [sizes[1] as u32, sizes[0] as u32 / 2];
    let number = 0;
    (
        Want {
            number,
            fields,
            set,
        },
        lengths,
    )
}

struct Case<'a> {
    report: &'a mut Report,
    /// How many streams were read.
    number: u64,
    lists: Lists,
    left: Lists,
    lent: Vec<u8>,
}

impl Case<'_> {
    #[cold]
    fn differs(&mut self, stream: &[u8], what: &str) {
        let (number, len) = (self.number, stream.len());
        let first: String = stream
            .iter()
            .take(640)
            .map(|b| format!("{b:02x}"))
            .collect();
        self.report
            .differs(&format!("(stream {number}, {len} bytes) {first}: {what}"));
    }

    fn call(&mut self, stream: &[u8], room: Room) {
        let (want, lengths) = wanted(stream, room);
        self.lists.blank(lengths);
        self.left.blank(lengths);
        self.left.put(&want.set.vertices, &want.set.counts);
        self.lent.clear();
        self.lent.extend_from_slice(stream);
        let mut fields = [STALE_WORD; 2];
        self.report.operation("gdsii_read");
        let ours = library::gdsii_read(&self.lent, self.lists.lent(), &mut fields);
        self.report.numbered(want.number);
        if (ours, fields) != (want.number, want.fields) {
            let (number, rust) = (want.number, want.fields);
            let what = format!("to {lengths:?} ours {ours} {fields:?}, Rust {number} {rust:?}");
            self.differs(stream, &what);
        }
        if !self.lists.same(&self.left) {
            let what = format!("the lists of {lengths:?} are not what they must be");
            self.differs(stream, &what);
        }
        if self.lent != stream {
            self.differs(stream, "the stream is not what it was");
        }
        if ours == 0 && self.number.is_multiple_of(16) {
            self.query(stream, want.fields);
        }
        self.number += 1;
    }

    /// A query takes the set that was read.
    fn query(&mut self, stream: &[u8], [outlines, total]: [u32; 2]) {
        let mut space = Buffers::new(SIZES);
        let (vertices, counts) = self.lists.lent();
        let set = (
            &vertices[..2 * total as usize],
            &counts[..outlines as usize],
        );
        let mut answer = (STALE_WORD, 0, 0.0);
        self.report.operation("gdsii_read, then set_nearest");
        let number = library::set_nearest(set, [0.0, 0.0], space.lent(), &mut answer);
        self.report.numbered(number);
        if number != 0 || answer.0 != u32::from(outlines > 0) {
            self.differs(stream, &format!("a query of the set: {number}, {answer:?}"));
        }
    }
}

/// The same outline so many times.
fn times(n: usize, outline: &[Steps]) -> Vec<Vec<Steps>> {
    vec![outline.to_vec(); n]
}

/// An outline with its first vertex again at the end.
fn closed(mut outline: Vec<Steps>) -> Vec<Steps> {
    outline.push(outline[0]);
    outline
}

/// Sets at the ends of their sizes, as outlines in steps.
fn ends() -> Vec<Vec<Vec<Steps>>> {
    let most = layouts::comb(4096);
    let more = |n: usize, list: &[Steps], last: &[Steps]| {
        let mut set = times(n, list);
        set.push(last.to_vec());
        set
    };
    let triangle = [[0, 0], [4, 0], [0, 4]];
    let mut one_over = more(15, &most, &triangle);
    one_over.push(layouts::comb(4094));
    let square = vec![[-END, -END], [END, -END], [END, END], [-END, END]];
    vec![
        Vec::new(),
        vec![most.clone()],
        vec![closed(most.clone())],
        vec![layouts::comb(4097)],
        vec![closed(layouts::comb(4097))],
        vec![layouts::comb(8191)],
        vec![closed(layouts::comb(8190))],
        times(1024, &triangle),
        times(1025, &triangle),
        times(1024, &layouts::comb(64)),
        times(1025, &closed(layouts::comb(64))),
        times(1024, &layouts::comb(65)),
        times(16, &most),
        times(16, &closed(most.clone())),
        more(16, &most, &triangle),
        one_over,
        // the last outline's own refusal comes before the set's
        more(16, &closed(most.clone()), &[[0, 0], [1, 1]]),
        more(16, &most, &[[0, 0], [4, 0], [9, 0]]),
        more(1024, &triangle, &[]),
        more(1024, &triangle, &[[0, 0], [4, 0], [4, 0]]),
        more(1024, &triangle, &[[0, 0], [4, 0], [END + 1, 0]]),
        more(1024, &triangle, &layouts::comb(4097)),
        vec![square.clone()],
        vec![closed(square.iter().rev().copied().collect())],
        times(1024, &square),
    ]
}

/// Each single fault of record `at`, one after the other.
fn faults_of(records: &[Record], at: usize, mut with: impl FnMut(&dyn Fn(&mut Vec<Record>))) {
    let (size, now) = (records[at].size(), records[at].kind);
    with(&|list| drop(list.remove(at)));
    with(&|list| list.insert(at, records[at].clone()));
    with(&|list| list.truncate(at));
    with(&|list| list.swap(at, (at + 1) % records.len()));
    let flips = (0..16).map(|bit| now ^ 1 << bit);
    for kind in flips.chain(KINDS).chain([0x0900, 0x0C00, 0xFFFF]) {
        with(&|list| list[at].kind = kind);
    }
    let near = [size - 1, size + 1, size + 4, size + 8];
    for length in (0..6).chain(near).chain([0xFFFF]) {
        with(&|list| list[at].length = Some(length));
    }
    for n in 0..=records[at].data.len() + 9 {
        with(&|list| list[at].data.resize(n, 0));
    }
    for byte in 0..records[at].data.len() * usize::from(now == UNITS || now == XY) {
        for bit in 0..8 {
            with(&|list| list[at].data[byte] ^= 1 << bit);
        }
    }
    for place in 0..records[at].data.len() / 4 * usize::from(now == XY) {
        for far in ENDS.map(i32::to_be_bytes) {
            with(&|list| list[at].data[4 * place..4 * place + 4].copy_from_slice(&far));
        }
    }
}

/// Each single fault of the records, one after the other.
fn single_faults(records: &[Record], mut each: impl FnMut(&[Record])) {
    for at in 0..records.len() {
        faults_of(records, at, |change| {
            let mut list = records.to_vec();
            change(&mut list);
            each(&list);
        });
    }
}

/// The streams that every run reads: the ends of the sizes, each with a fault after it too, and every single fault of
/// three small ones.
fn fixed(case: &mut Case) {
    let rooms = [
        Room::Exact,
        Room::Longer(7),
        Room::FewVertices(1),
        Room::FewCounts(1),
    ];
    for set in ends() {
        let mut records = layouts::whole(&set);
        for room in rooms {
            case.call(&layouts::bytes(&records), room);
        }
        let mut after = layouts::bytes(&records);
        after.extend([0; 3]);
        case.call(&after, Room::Exact);
        // the last outline's ENDEL is missing: what its XY gets comes first
        let n = records.len();
        records.remove(n - 3);
        case.call(&layouts::bytes(&records), Room::Exact);
    }
    let bow: [Steps; 4] = [[0, 0], [4, 4], [4, 0], [0, 4]];
    let back = closed(vec![[0, 0], [0, 8], [8, 8], [8, 0]]);
    for set in [vec![], vec![back.clone()], vec![back, bow.to_vec()]] {
        single_faults(&layouts::whole(&set), |records| {
            case.call(&layouts::bytes(records), Room::Exact);
        });
    }
}

/// A stream of up to 65,536 vertices and more, or of about 1,024 outlines, at times.
fn large(r: &mut Random) -> Vec<u8> {
    let n = r.between(60, 67) as usize;
    let set = match r.below(4) {
        0 => times(1022 + r.below(5) as usize, &layouts::ring(n, false, r)),
        1 => times(1022 + r.below(5) as usize, &layouts::outline(r)),
        2 => times(15 + r.below(3) as usize, &layouts::ring(4096, false, r)),
        _ => times(
            1 + r.below(2) as usize,
            &layouts::ring(4094 + r.below(5) as usize, r.yes(), r),
        ),
    };
    let mut records = layouts::whole(&set);
    if r.below(3) == 0 {
        layouts::fault(&mut records, r);
    }
    layouts::bytes(&records)
}

/// A stream at random: whole, with one fault, with several, with damaged bytes.
fn stream(kind: u64, r: &mut Random) -> Vec<u8> {
    let mut records = layouts::whole(&layouts::outlines(r));
    if r.below(4) == 0 {
        layouts::stretch(&mut records, r);
    }
    let faults = match kind {
        0..2 => 0,
        2..4 => 1,
        4 => 2 + r.below(4),
        _ => 0,
    };
    for _ in 0..faults {
        layouts::fault(&mut records, r);
    }
    let mut stream = layouts::bytes(&records);
    if kind == 5 {
        layouts::damage(&mut stream, r);
    }
    if r.below(8) == 0 {
        stream.extend((0..r.below(9)).map(|_| r.bits() as u8));
    }
    stream
}

/// The fixed streams, and as many more at random as make `cases`; a quarter of these are cut, each at every byte.
pub fn compare(report: &mut Report, seed: u64, cases: u64) {
    let mut r = Random::new(seed, "streams");
    let mut case = Case {
        report,
        number: 0,
        lists: Lists::default(),
        left: Lists::default(),
        lent: Vec::new(),
    };
    fixed(&mut case);
    let mut cut = Vec::new();
    while case.number < cases {
        let kind = r.below(8);
        let room = Room::random(&mut r);
        if r.below(2_000) == 0 {
            case.call(&large(&mut r), room);
        } else if kind < 6 {
            case.call(&stream(kind, &mut r), room);
        } else {
            if cut.pop().is_none() {
                cut = stream(r.below(3), &mut r);
            }
            case.call(&cut, room);
        }
    }
}

/// Small streams: two squares, one of them clockwise and closed; none; and one outline each that is turned away, but
/// for the last, which ends where the reach does.
fn small() -> Vec<(Vec<u8>, Room)> {
    let square = vec![[0, 0], [4096, 0], [4096, 4096], [0, 4096]];
    let back = closed(square.iter().rev().copied().collect());
    let of = |set: &[Vec<Steps>], room| (layouts::bytes(&layouts::whole(set)), room);
    let two = [square, back];
    let mut list = vec![
        of(&two, Room::Exact),
        of(&two, Room::Longer(2)),
        of(&two, Room::FewVertices(1)),
        of(&two, Room::FewCounts(1)),
        of(&[], Room::Longer(1)),
    ];
    for outline in [
        vec![],
        vec![[0, 0], [4, 0], [4, 0], [0, 4]],
        vec![[0, 0], [4, 0], [8, 0]],
        vec![[0, 0], [END + 1, 0], [0, 4]],
        vec![[-END, -END], [END, -END], [0, END]],
    ] {
        list.push(of(&[outline], Room::Longer(1)));
    }
    list
}

/// About `count` small streams, with what the plain reader says of them, those of each kind at random among them.
pub fn sample(out: &mut Sample, seed: u64, count: u64) {
    let mut r = Random::new(seed, "streams");
    let mut list = small();
    while (list.len() as u64) < count {
        let stream = stream(r.below(6), &mut r);
        if stream.len() <= 400 {
            list.push((stream, Room::random(&mut r)));
        }
    }
    for (stream, room) in list {
        let (want, lengths) = wanted(&stream, room);
        let (mut vertices, mut counts) = (vec![1.0; lengths[0]], vec![9; lengths[1]]);
        vertices[..want.set.vertices.len()].copy_from_slice(&want.set.vertices);
        counts[..want.set.counts.len()].copy_from_slice(&want.set.counts);
        let [outlines, total] = want.fields;
        out.gdsii_read(&stream, [want.number, outlines, total], &vertices, &counts);
    }
}
