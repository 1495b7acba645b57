//! The clock and the table of results.
use std::time::Instant;

const REPETITIONS: u32 = 25;
const SECONDS: f64 = 0.004;

/// Seconds for `times` calls of `work`.
fn measure(times: u64, work: &mut impl FnMut()) -> f64 {
    let start = Instant::now();
    (0..times).for_each(|_| work());
    start.elapsed().as_secs_f64()
}

/// How many calls of `work` take long enough to be timed.
fn calls(work: &mut impl FnMut()) -> u64 {
    let mut times = 1;
    while measure(times, work) < SECONDS {
        times *= 2;
    }
    times
}

/// The least time of one call of `work`, in ns.
pub fn time(mut work: impl FnMut()) -> f64 {
    let times = calls(&mut work);
    let best = (0..REPETITIONS)
        .map(|_| measure(times, &mut work))
        .fold(f64::INFINITY, f64::min);
    best / times as f64 * 1e9
}

/// The least times of one call of each, in ns, the repetitions in turn: what else the machine does
/// slows both.
pub fn times(mut ours: impl FnMut(), mut rust: impl FnMut()) -> (f64, f64) {
    let (n, m) = (calls(&mut ours), calls(&mut rust));
    let mut best = (f64::INFINITY, f64::INFINITY);
    for _ in 0..REPETITIONS {
        best.0 = best.0.min(measure(n, &mut ours));
        best.1 = best.1.min(measure(m, &mut rust));
    }
    (best.0 / n as f64 * 1e9, best.1 / m as f64 * 1e9)
}

/// The least times of one call of each, in ns, the repetitions in turn.
pub fn all_times<const N: usize>(mut work: [&mut dyn FnMut(); N]) -> [f64; N] {
    let times = work.each_mut().map(|w| calls(w));
    let mut best = [f64::INFINITY; N];
    for _ in 0..REPETITIONS {
        for k in 0..N {
            best[k] = best[k].min(measure(times[k], &mut work[k]) / times[k] as f64 * 1e9);
        }
    }
    best
}

struct Row {
    operation: String,
    inputs: String,
    ours: f64,
    rust: f64,
}

#[derive(Default)]
pub struct Table {
    rows: Vec<Row>,
    notes: Vec<String>,
}

impl Table {
    pub fn new() -> Table {
        Table::default()
    }

    /// One line: what was timed, and the ns per call of both sides.
    pub fn row(&mut self, operation: &str, inputs: &str, ours: f64, rust: f64) {
        self.rows.push(Row {
            operation: operation.into(),
            inputs: inputs.into(),
            ours,
            rust,
        });
    }

    /// A line below the table.
    pub fn note(&mut self, text: &str) {
        self.notes.push(text.into());
    }

    pub fn print(&self) {
        println!(
            "{:<10} {:<40} {:>12} {:>12} {:>8}",
            "operation", "inputs", "ours ns", "Rust ns", "ratio"
        );
        for r in &self.rows {
            println!(
                "{:<10} {:<40} {:>12.2} {:>12.2} {:>8.2}",
                r.operation,
                r.inputs,
                r.ours,
                r.rust,
                r.ours / r.rust
            );
        }
        if !self.notes.is_empty() {
            println!("\n{}", self.notes.join("\n"));
        }
    }
}
