//! Counts the answers compared, operation by operation, and prints each that differs.

/// What came of one operation.
struct Count {
    operation: &'static str,
    compared: u64,
    wrong: u64,
    /// How many calls each refusal met; 0 counts those accepted.
    refusals: [u64; 32],
}

pub struct Report {
    counts: Vec<Count>,
    /// The operation that is compared.
    now: usize,
}

/// A float as its bits, in sixteen hexadecimal digits, or 'nan': every NaN is the same answer.
pub fn hex(x: f64) -> String {
    if x.is_nan() {
        "nan".to_string()
    } else {
        format!("{:016x}", x.to_bits())
    }
}

/// Floats as their bits, the patterns of NaNs too: what an operation is given.
pub fn hex_list(list: &[f64]) -> String {
    let each = list.iter().map(|x| format!("{:016x}", x.to_bits()));
    each.collect::<Vec<_>>().join(" ")
}

impl Report {
    pub fn new() -> Report {
        Report {
            counts: Vec::new(),
            now: 0,
        }
    }

    /// What is compared from here on are answers of this operation.
    pub fn operation(&mut self, operation: &'static str) {
        let counts = &mut self.counts;
        self.now = counts
            .iter()
            .position(|c| c.operation == operation)
            .unwrap_or(counts.len());
        if self.now == counts.len() {
            counts.push(Count {
                operation,
                compared: 0,
                wrong: 0,
                refusals: [0; 32],
            });
        }
    }

    /// One more call's answer is compared.
    #[inline]
    pub fn compared(&mut self) {
        self.counts[self.now].compared += 1;
    }

    /// One more call's answer is compared, which gets this refusal number.
    #[inline]
    pub fn numbered(&mut self, number: u32) {
        self.compared();
        self.counts[self.now].refusals[number as usize] += 1;
    }

    /// The answer differs; the text says on what input, and how.
    #[cold]
    pub fn differs(&mut self, text: &str) {
        let count = &mut self.counts[self.now];
        count.wrong += 1;
        println!("MISMATCH {} {text}", count.operation);
    }

    /// Compares one answer to the bit; NaN equals NaN of any pattern.
    #[inline]
    pub fn exact(&mut self, inputs: &[f64], ours: f64, rust: f64) {
        self.compared();
        if ours.to_bits() != rust.to_bits() && !(ours.is_nan() && rust.is_nan()) {
            let (ours, rust) = (hex_list(&[ours]), hex_list(&[rust]));
            self.differs(&format!("{}: ours {ours}, Rust {rust}", hex_list(inputs)));
        }
    }

    /// Prints the counts, and says whether every answer was equal.
    pub fn finish(&self) -> bool {
        for c in &self.counts {
            println!(
                "{}: {} answers compared, {} mismatches{}",
                c.operation,
                c.compared,
                c.wrong,
                c.met()
            );
        }
        let compared: u64 = self.counts.iter().map(|c| c.compared).sum();
        let wrong: u64 = self.counts.iter().map(|c| c.wrong).sum();
        println!("all: {compared} answers compared, {wrong} mismatches");
        wrong == 0
    }
}

impl Count {
    /// How many calls were accepted and what the others met, where the operation refuses at all.
    fn met(&self) -> String {
        let met = self.refusals.iter().enumerate().filter(|(_, n)| **n > 0);
        let each: Vec<String> = met.map(|(i, n)| format!("{i} x {n}")).collect();
        if each.is_empty() {
            return String::new();
        }
        format!(" (numbers {})", each.join(", "))
    }
}
