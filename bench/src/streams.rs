//! Reading a GDSII stream of 1,024 outlines, beside a plain reader in Rust that makes each outline a `Polygon` and
//! builds what a host hands to the set's queries: a list of vertices and a list of counts. Half of the outlines run
//! clockwise, and all repeat their first vertex at the end, as layout programs write them.
use crate::library;
use crate::outlines::keep;
use crate::random::Random;
use crate::reader::{self, Layout};
use crate::table::{Table, times};
use std::f64::consts::TAU;
use std::hint::black_box;

const OUTLINES: usize = 1024;

fn record(stream: &mut Vec<u8>, kind: u16, data: &[u8]) {
    stream.extend((data.len() as u16 + 4).to_be_bytes());
    stream.extend(kind.to_be_bytes());
    stream.extend(data);
}

/// A closed ring of n corners somewhere in reach, in steps.
fn ring(n: usize, r: &mut Random) -> Vec<u8> {
    let [x, y] = [(); 2].map(|()| r.between(-900_000, 900_000) as f64);
    let size = r.between(2_000, 100_000) as f64;
    let turn = r.signed(TAU);
    let corner = |i: usize| {
        let (sin, cos) = (turn * ((i % n) as f64 + 0.3) / n as f64).sin_cos();
        [x + size * cos, y + size * sin].map(|c| (c as i32).to_be_bytes())
    };
    (0..=n).flat_map(corner).flatten().collect()
}

/// A stream of rings of n corners.
fn stream(n: usize) -> Vec<u8> {
    let mut r = Random::new(1, "streams");
    let mut s = Vec::new();
    record(&mut s, reader::HEADER, &[2, 88]);
    record(&mut s, reader::BGNLIB, &[0; 24]);
    record(&mut s, reader::LIBNAME, b"LIB\0");
    record(
        &mut s,
        reader::UNITS,
        &[reader::UNIT, reader::UNIT].concat(),
    );
    record(&mut s, reader::BGNSTR, &[0; 24]);
    record(&mut s, reader::STRNAME, b"TOP\0");
    for _ in 0..OUTLINES {
        record(&mut s, reader::BOUNDARY, &[]);
        record(&mut s, reader::LAYER, &[0, 1]);
        record(&mut s, reader::DATATYPE, &[0, 0]);
        record(&mut s, reader::XY, &ring(n, &mut r));
        record(&mut s, reader::ENDEL, &[]);
    }
    record(&mut s, reader::ENDSTR, &[]);
    record(&mut s, reader::ENDLIB, &[]);
    s
}

#[inline(never)]
fn rust_read(stream: &[u8]) -> Layout {
    reader::read(stream).expect("an accepted stream")
}

pub fn rows(table: &mut Table) {
    let (mut vertices, mut counts) = (vec![0.0; 131_072], vec![0; 1024]);
    for n in [4, 64] {
        let s = stream(n);
        let mut fields = [0; 2];
        let lists = (vertices.as_mut_slice(), counts.as_mut_slice());
        assert_eq!(library::gdsii_read(&s, lists, &mut fields), 0);
        let want = rust_read(&s);
        assert!(vertices[..want.vertices.len()] == want.vertices && counts == want.counts);
        let (ours, rust) = times(
            || {
                let lists = (vertices.as_mut_slice(), counts.as_mut_slice());
                keep(library::gdsii_read(black_box(&s), lists, &mut fields));
            },
            || keep(rust_read(black_box(&s))),
        );
        table.row(
            "streams",
            &format!("{OUTLINES} outlines of {n}"),
            ours,
            rust,
        );
        let speed = |ns: f64| s.len() as f64 / ns * 1000.0;
        table.note(&format!(
            "{OUTLINES} outlines of {n}: {} bytes, {:.0} million bytes a second, Rust {:.0}",
            s.len(),
            speed(ours),
            speed(rust)
        ));
    }
}
