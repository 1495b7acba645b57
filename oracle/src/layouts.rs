//! GDSII streams at random: whole ones that hold outlines of many kinds, faults in their records, and damaged bytes.
use crate::random::Random;
use crate::reader::{
    BGNLIB, BGNSTR, BOUNDARY, DATATYPE, ENDEL, ENDLIB, ENDSTR, HEADER, LAYER, LIBNAME, REACH,
    STRNAME, UNIT, UNITS, XY,
};
use std::f64::consts::TAU;

/// The largest magnitude of a coordinate.
pub const END: i32 = REACH as i32;

/// The second real of UNITS as layout programs write it: 1/1,024 µm in metres.
const METRES: [u8; 8] = [0x39, 0x43, 0x1B, 0xDE, 0x82, 0xD7, 0xB6, 0x35];

/// The types that a stream has.
pub const KINDS: [u16; 13] = [
    HEADER, BGNLIB, LIBNAME, UNITS, BGNSTR, STRNAME, BOUNDARY, LAYER, DATATYPE, XY, ENDEL, ENDSTR,
    ENDLIB,
];

/// Types of other streams: PATH, SREF, TEXT, PATHTYPE, ELFLAGS, PROPATTR, PROPVALUE, BOX, and no type at all.
const OTHERS: [u16; 9] = [
    0x0900, 0x0A00, 0x0C00, 0x2102, 0x2601, 0x2B02, 0x2C06, 0x2D00, 0xFFFF,
];

/// A vertex in steps.
pub type Steps = [i32; 2];

/// A record; `length` stands in it where that is not its length.
#[derive(Clone, Debug)]
pub struct Record {
    pub kind: u16,
    pub data: Vec<u8>,
    pub length: Option<u16>,
}

impl Record {
    pub fn new(kind: u16, data: &[u8]) -> Record {
        Record {
            kind,
            data: data.to_vec(),
            length: None,
        }
    }

    pub fn size(&self) -> u16 {
        self.data.len() as u16 + 4
    }
}

/// The records' bytes, one after the other.
pub fn bytes(records: &[Record]) -> Vec<u8> {
    let mut list = Vec::with_capacity(512);
    for r in records {
        list.extend(r.length.unwrap_or(r.size()).to_be_bytes());
        list.extend(r.kind.to_be_bytes());
        list.extend(&r.data);
    }
    list
}

pub fn xy(outline: &[Steps]) -> Record {
    let data: Vec<u8> = outline
        .iter()
        .flatten()
        .flat_map(|k| k.to_be_bytes())
        .collect();
    Record::new(XY, &data)
}

/// A stream that holds these outlines, its other records as layout programs write them.
pub fn whole(outlines: &[Vec<Steps>]) -> Vec<Record> {
    let mut list = vec![
        Record::new(HEADER, &[2, 88]),
        Record::new(BGNLIB, &[0; 24]),
        Record::new(LIBNAME, b"LIB\0"),
        Record::new(UNITS, &[UNIT, METRES].concat()),
        Record::new(BGNSTR, &[0; 24]),
        Record::new(STRNAME, b"TOP\0"),
    ];
    for o in outlines {
        list.push(Record::new(BOUNDARY, &[]));
        list.push(Record::new(LAYER, &[0, 1]));
        list.push(Record::new(DATATYPE, &[0, 0]));
        list.push(xy(o));
        list.push(Record::new(ENDEL, &[]));
    }
    list.push(Record::new(ENDSTR, &[]));
    list.push(Record::new(ENDLIB, &[]));
    list
}

/// A coordinate of one of four scales: a few steps, some, anywhere in reach, mostly at its ends.
fn step(scale: u64, r: &mut Random) -> i32 {
    let at = |most: i64, r: &mut Random| r.between(-most, most) as i32;
    match scale {
        0 => at(3, r),
        1 => at(4096, r),
        2 => at(i64::from(END), r),
        _ => match r.below(4) {
            0 => END,
            1 => -END,
            2 => END - r.below(3) as i32,
            _ => at(i64::from(END), r),
        },
    }
}

/// n corners of a ring, or of a star where every other is nearer to the middle.
pub fn ring(n: usize, star: bool, r: &mut Random) -> Vec<Steps> {
    let [x, y] = [(); 2].map(|()| r.between(-500_000, 500_000) as f64);
    let size = r.between(1000, 500_000) as f64;
    let corner = |i: usize| {
        let (sin, cos) = (TAU * i as f64 / n as f64).sin_cos();
        let size = if star && i % 2 == 1 { size / 3.0 } else { size };
        [(x + size * cos) as i32, (y + size * sin) as i32]
    };
    (0..n).map(corner).collect()
}

/// n vertices along a line, and one above it.
pub fn comb(n: usize) -> Vec<Steps> {
    let mut list: Vec<Steps> = (1..n as i32).map(|i| [i, 0]).collect();
    list.push([1, 7]);
    list
}

/// How many vertices: mostly 3 to 8.
fn count(r: &mut Random) -> usize {
    (match r.below(64) {
        0 => r.between(0, 2),
        1..4 => r.between(9, 40),
        _ => r.between(3, 8),
    }) as usize
}

/// An outline as it may be drawn, in either direction, closed or not.
pub fn outline(r: &mut Random) -> Vec<Steps> {
    let scale = r.below(4);
    let n = count(r);
    let any = |r: &mut Random| [step(scale, r), step(scale, r)];
    let mut list = match r.below(12) {
        0..4 => {
            let ([a, b], [c, d]) = (any(r), any(r));
            vec![[a, b], [c, b], [c, d], [a, d]]
        }
        4..6 => ring(n, false, r),
        6 => ring(n, true, r),
        // on one line
        7 => {
            let a = step(scale, r);
            (0..n as i32).map(|i| [a.saturating_sub(i), a]).collect()
        }
        // two triangles of opposite directions
        8 => {
            let [a, b] = any(r).map(|k| k.abs() / 2 + 1);
            vec![[0, 0], [a, b], [a, 0], [0, b]]
        }
        _ => (0..n).map(|_| any(r)).collect(),
    };
    if r.yes() {
        list.reverse();
    }
    if r.yes() && !list.is_empty() {
        list.push(list[0]);
    }
    list
}

/// An outline that is turned away.
fn bad(r: &mut Random) -> Vec<Steps> {
    match r.below(6) {
        0 => Vec::new(),
        1 => vec![[1, 1], [5, 5]],
        2 => vec![[0, 0], [4, 0], [0, 0]],
        3 => vec![[0, 0], [4, 0], [4, 0], [0, 4]],
        4 => vec![[0, 0], [4, 0], [8, 0], [2, 0]],
        _ => vec![[0, 0], [4, 0], [0, 4], [0, 0], [0, 0]],
    }
}

/// The outlines of a stream: mostly few, and mostly such as making accepts.
pub fn outlines(r: &mut Random) -> Vec<Vec<Steps>> {
    let n = match r.below(64) {
        0 => r.below(40),
        1..8 => 0,
        _ => 1 + r.below(4),
    };
    let mut list: Vec<Vec<Steps>> = (0..n)
        .map(|_| match r.below(8) {
            0 => outline(r),
            _ => ring(3 + r.below(6) as usize, r.yes(), r),
        })
        .collect();
    for o in &mut list {
        if r.below(3) == 0 {
            o.reverse();
        }
        if r.yes() && o.len() > 2 && o[0] != o[o.len() - 1] {
            o.push(o[0]);
        }
    }
    list
}

/// Other lengths of the records whose data is not read; nothing of this is a fault.
pub fn stretch(records: &mut [Record], r: &mut Random) {
    for record in records {
        let read = record.kind == UNITS || record.kind == XY;
        if !read && r.below(4) == 0 {
            let most = if r.below(32) == 0 { 700 } else { 12 };
            let n = r.below(most);
            record.data = (0..n).map(|_| r.bits() as u8).collect();
        }
        if record.kind == UNITS && r.yes() {
            record.data.truncate(8);
            record.data.extend(r.bits().to_be_bytes());
        }
    }
}

/// A length that may be wrong for a record of this size.
fn length(size: u16, r: &mut Random) -> u16 {
    match r.below(8) {
        0..2 => r.below(4) as u16,
        2 => size - 1,
        3 => size.wrapping_add(1),
        4 => size.wrapping_add(8),
        5 => size ^ 0x8000,
        6 => size.swap_bytes(),
        _ => r.bits() as u16,
    }
}

/// A type that may be wrong for a record of this one.
fn kind(now: u16, r: &mut Random) -> u16 {
    match r.below(4) {
        0 => now ^ 1 << r.below(16),
        1 => OTHERS[r.below(OTHERS.len() as u64) as usize],
        _ => KINDS[r.below(KINDS.len() as u64) as usize],
    }
}

/// A coordinate at the end of the reach or beyond it.
pub const ENDS: [i32; 8] = [
    END,
    -END,
    END + 1,
    -END - 1,
    i32::MIN,
    i32::MAX,
    -END - 256,
    END + 65_536,
];

/// One fault of one record.
fn fault_of(record: &mut Record, r: &mut Random) {
    let n = record.data.len();
    match (record.kind, r.below(8)) {
        (UNITS, 0..5) if n > 0 => record.data[r.below(n as u64) as usize] ^= 1 << r.below(8),
        (XY, 0..3) if n >= 4 => {
            let at = 4 * r.below(n as u64 / 4) as usize;
            let far = ENDS[r.below(8) as usize];
            record.data[at..at + 4].copy_from_slice(&far.to_be_bytes());
        }
        (XY, 3..5) => *record = xy(&bad(r)),
        (_, 5) => record.length = Some(length(record.size(), r)),
        (_, 6) => record.data.resize(r.below(n as u64 + 9) as usize, 0),
        _ => record.kind = kind(record.kind, r),
    }
}

/// One fault of a stream's records.
pub fn fault(records: &mut Vec<Record>, r: &mut Random) {
    let n = records.len() as u64;
    if n == 0 {
        return;
    }
    let at = r.below(n) as usize;
    match r.below(12) {
        0 => drop(records.remove(at)),
        1 => records.insert(at, records[at].clone()),
        2 => records.swap(at, (at + 1) % n as usize),
        3 => records.insert(at, Record::new(kind(XY, r), &[0, 0])),
        4 => records.truncate(at),
        // UNITS and XY more often than the others
        5..8 => {
            let read = |x: &Record| x.kind == UNITS || x.kind == XY;
            let mut list: Vec<&mut Record> = records.iter_mut().filter(|x| read(x)).collect();
            let m = list.len() as u64;
            if m > 0 {
                fault_of(list[r.below(m) as usize], r);
            }
        }
        _ => fault_of(&mut records[at], r),
    }
}

/// Damage of a few bytes, wherever they are.
pub fn damage(stream: &mut Vec<u8>, r: &mut Random) {
    for _ in 0..1 + r.below(4) {
        if stream.is_empty() {
            return;
        }
        let at = r.below(stream.len() as u64) as usize;
        match r.below(8) {
            0 => drop(stream.remove(at)),
            1 => stream.insert(at, r.bits() as u8),
            2 => stream.swap(at, 0),
            3 => stream.truncate(at),
            4..6 => stream[at] ^= 1 << r.below(8),
            _ => stream[at] = r.bits() as u8,
        }
    }
}
