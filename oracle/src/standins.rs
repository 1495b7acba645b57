//! What document 01 puts in place of code that the published files call and do not hold.
//! (Sums need none here: Rust starts them at -0 and document 01 at +0, so only the sign of a
//! zero differs, which the comparison does not count.)
use std::fmt;

/// hypot of a and b: the square root of a * a + b * b, each operation rounded once.
pub trait Hypot {
    fn hypot_standin(self, b: f64) -> f64;
}

impl Hypot for f64 {
    #[inline]
    fn hypot_standin(self, b: f64) -> f64 {
        (self * self + b * b).sqrt()
    }
}

/// A length is its number of µm.
#[derive(Clone, Copy, Debug, Default, PartialEq, PartialOrd)]
pub struct Length(f64);

impl Length {
    pub const fn um(x: f64) -> Length {
        Length(x)
    }

    pub const fn to_um(self) -> f64 {
        self.0
    }
}

impl fmt::Display for Length {
    fn fmt(&self, f: &mut fmt::Formatter<'_>) -> fmt::Result {
        self.0.fmt(f)
    }
}

/// A distance is its pair: the signed distance and the normal.
#[derive(Clone, Copy, Debug, PartialEq)]
pub struct Distance(pub f64, pub [f64; 2]);

impl From<(f64, [f64; 2])> for Distance {
    fn from(pair: (f64, [f64; 2])) -> Distance {
        Distance(pair.0, pair.1)
    }
}

#[derive(Clone, Copy, Debug, PartialEq)]
pub enum Location {
    Inside,
    Boundary,
    Outside,
}

/// Why `Polygon::new` turned an outline away.
#[derive(Clone, Debug)]
pub struct Error(pub String);

impl Error {
    pub fn invalid(what: &str, why: impl fmt::Display) -> Error {
        Error(format!("{what}: {why}"))
    }
}

pub type Result<T> = std::result::Result<T, Error>;
