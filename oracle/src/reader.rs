//! A plain reader of GDSII streams (document 02, U3) over the original `Polygon::new`. Nothing here comes from the
//! library: records are taken off the front of the stream one by one, and each outline is made as it is met.
use crate::original::geometry::{Point, Polygon};
use crate::standins::Error;

pub const HEADER: u16 = 0x0002;
pub const BGNLIB: u16 = 0x0102;
pub const LIBNAME: u16 = 0x0206;
pub const UNITS: u16 = 0x0305;
pub const ENDLIB: u16 = 0x0400;
pub const BGNSTR: u16 = 0x0502;
pub const STRNAME: u16 = 0x0606;
pub const ENDSTR: u16 = 0x0700;
pub const BOUNDARY: u16 = 0x0800;
pub const LAYER: u16 = 0x0D02;
pub const DATATYPE: u16 = 0x0E02;
pub const XY: u16 = 0x1003;
pub const ENDEL: u16 = 0x1100;

/// The real 1/1,024.
pub const UNIT: [u8; 8] = [0x3E, 0x40, 0, 0, 0, 0, 0, 0];

/// The largest magnitude of a coordinate, in steps.
pub const REACH: u32 = 1_048_576;

/// The outlines' vertices one after the other, and each outline's vertex count.
#[derive(Default)]
pub struct Layout {
    pub vertices: Vec<f64>,
    pub counts: Vec<u32>,
}

/// What is left of a stream.
struct Records<'a> {
    rest: &'a [u8],
}

impl<'a> Records<'a> {
    /// The next record: its type and its data.
    fn next(&mut self) -> Result<(u16, &'a [u8]), u32> {
        let [a, b, c, d, ..] = *self.rest else {
            return Err(16);
        };
        let len = usize::from(u16::from_be_bytes([a, b]));
        if len < 4 || len > self.rest.len() {
            return Err(16);
        }
        let (record, rest) = self.rest.split_at(len);
        self.rest = rest;
        Ok((u16::from_be_bytes([c, d]), &record[4..]))
    }

    /// The data of the next record, which must be of this type.
    fn of(&mut self, wanted: u16) -> Result<&'a [u8], u32> {
        match self.next()? {
            (kind, data) if kind == wanted => Ok(data),
            _ => Err(16),
        }
    }
}

/// The points of an XY record.
fn points(data: &[u8]) -> Result<Vec<Point>, u32> {
    if data.len() % 8 != 0 {
        return Err(16);
    }
    let step = |b: &[u8]| i32::from_be_bytes([b[0], b[1], b[2], b[3]]);
    if data.chunks_exact(4).any(|b| step(b).unsigned_abs() > REACH) {
        return Err(18);
    }
    let um = |b: &[u8]| f64::from(step(b)) / 1024.0;
    let each = data.chunks_exact(8);
    Ok(each.map(|b| Point::um(um(b), um(&b[4..]))).collect())
}

/// The number of the reason why `Polygon::new` turned an outline away.
fn number(why: &Error) -> u32 {
    let texts = [
        ("at least 3", 3),
        ("consecutive equal", 7),
        ("zero area", 8),
    ];
    let met = texts.iter().find(|(text, _)| why.0.contains(text));
    met.expect("no other reason is left").1
}

/// An outline of these points.
fn made(points: Vec<Point>) -> Result<Polygon, u32> {
    let closed = points.len() > 1 && points.first() == points.last();
    if points.len() - usize::from(closed) > 4096 {
        return Err(4);
    }
    Polygon::new(points).map_err(|e| number(&e))
}

/// What follows a BOUNDARY, up to its ENDEL.
fn element(records: &mut Records, layout: &mut Layout) -> Result<(), u32> {
    records.of(LAYER)?;
    records.of(DATATYPE)?;
    let outline = made(points(records.of(XY)?)?)?;
    let before = layout.vertices.len();
    outline.add_to(&mut layout.vertices);
    layout
        .counts
        .push(((layout.vertices.len() - before) / 2) as u32);
    if layout.counts.len() > 1024 || layout.vertices.len() > 2 * 65_536 {
        return Err(4);
    }
    records.of(ENDEL)?;
    Ok(())
}

/// The set that a stream holds, or the number of its refusal.
pub fn read(stream: &[u8]) -> Result<Layout, u32> {
    let mut records = Records { rest: stream };
    for kind in [HEADER, BGNLIB, LIBNAME] {
        records.of(kind)?;
    }
    let units = records.of(UNITS)?;
    if units.len() != 16 {
        return Err(16);
    }
    if units[..8] != UNIT {
        return Err(17);
    }
    records.of(BGNSTR)?;
    records.of(STRNAME)?;
    let mut layout = Layout::default();
    loop {
        match records.next()? {
            (BOUNDARY, _) => element(&mut records, &mut layout)?,
            (ENDSTR, _) => break,
            _ => return Err(16),
        }
    }
    records.of(ENDLIB)?;
    Ok(layout)
}
