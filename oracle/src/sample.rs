//! Cases for the repository's own tests, with the Rust's answers: one call a line in `calls`, one
//! answer a line in `answers`. The program crates/replay replays them.
use crate::report::{hex, hex_list};
use std::fs;
use std::path::Path;

#[derive(Default)]
pub struct Sample {
    calls: String,
    answers: String,
}

impl Sample {
    /// A call and what the Rust answers, in the order of the answer fields.
    pub fn add(&mut self, operation: &str, inputs: &[f64], answers: &[f64]) {
        let answers: Vec<String> = answers.iter().map(|x| hex(*x)).collect();
        self.calls += &format!("{operation} {}\n", hex_list(inputs));
        self.answers += &format!("{}\n", answers.join(" "));
    }

    /// A call on an outline: its list goes in as its length and its numbers.
    fn outline(&mut self, operation: &str, list: &[f64], more: &str, answer: &str) {
        let len = list.len();
        let numbers = hex_list(list);
        let call = [operation, &format!("{len:x}"), &numbers, more];
        let words: Vec<&str> = call.into_iter().filter(|w| !w.is_empty()).collect();
        self.calls += &format!("{}\n", words.join(" "));
        self.answers += &format!("{answer}\n");
    }

    /// A call on an outline, or one with a point, or on an ellipse's numbers, that answers measures. A zero's sign is not compared: each is written
    /// as +0.
    pub fn measures(
        &mut self,
        operation: &str,
        list: &[f64],
        point: &[f64],
        number: u32,
        measures: &[f64],
    ) {
        let measures: Vec<f64> = measures.iter().map(|x| x + 0.0).collect();
        let answer = format!("{number:x} {}", hex_list(&measures));
        self.outline(operation, list, &hex_list(point), &answer);
    }

    /// A call on an outline and a point that answers a flag or a location.
    pub fn told(&mut self, operation: &str, list: &[f64], p: [f64; 2], number: u32, told: u32) {
        let answer = format!("{number:x} {told:x}");
        self.outline(operation, list, &hex_list(&p), &answer);
    }

    /// A call of making, with a lent list of zeros as long as `made`, which it turns into `made`.
    pub fn make(&mut self, list: &[f64], number: u32, count: u32, made: &[f64]) {
        let mut answer = format!("{number:x} {count:x}");
        for x in made {
            answer += &format!(" {}", hex(*x));
        }
        self.outline("make", list, &format!("{:x}", made.len()), &answer);
    }

    /// A call of fill, with a lent list of ones as long as `work`, which it turns into `work`.
    pub fn fill(&mut self, list: &[f64], cell: [f64; 4], number: u32, fill: f64, work: &[f64]) {
        let answer = format!("{number:x} {} {}", hex(fill + 0.0), hex_list(work));
        let more = format!("{} {:x}", hex_list(&cell), work.len());
        self.outline("fill", list, &more, answer.trim_end());
    }

    /// A call of the build in buffers of ones of the stated sizes: the counts, and of an accepted call the
    /// nodes and items.
    pub fn index_build(
        &mut self,
        list: &[f64],
        [number, nodes, items]: [u32; 3],
        built: Option<(Vec<f64>, Vec<u32>, Vec<u32>)>,
    ) {
        let mut answer = format!("{number:x} {nodes:x} {items:x}");
        if let Some((corners, links, items)) = built {
            answer += &format!(" {}", hex_list(&corners));
            for n in links.iter().chain(&items) {
                answer += &format!(" {n:x}");
            }
        }
        self.outline("build", list, "", &answer);
    }

    /// A call of `meeting`: how many items it lists, and these.
    pub fn index_meeting(&mut self, list: &[f64], cell: [f64; 4], number: u32, found: &[u32]) {
        let mut answer = format!("{number:x} {:x}", found.len());
        for k in found {
            answer += &format!(" {k:x}");
        }
        self.outline("meeting", list, &hex_list(&cell), &answer);
    }

    /// A query over a set: its vertices and its counts come as lists.
    fn set(&mut self, operation: &str, set: (&[f64], &[u32]), asked: &str, answer: &str) {
        let (vertices, counts) = set;
        let mut more = format!("{:x}", counts.len());
        for n in counts {
            more += &format!(" {n:x}");
        }
        more += &format!(" {asked}");
        self.outline(operation, vertices, &more, answer);
    }

    pub fn set_any_at(&mut self, set: (&[f64], &[u32]), p: [f64; 2], number: u32, any: u32) {
        let answer = format!("{number:x} {any:x}");
        self.set("any_at", set, &hex_list(&p), &answer);
    }

    pub fn set_nearest(
        &mut self,
        set: (&[f64], &[u32]),
        p: [f64; 2],
        number: u32,
        (found, outline, distance): (u32, u32, f64),
    ) {
        let answer = format!("{number:x} {found:x} {outline:x} {}", hex(distance));
        self.set("nearest", set, &hex_list(&p), &answer);
    }

    /// A call for many points, a list, in lists of nines and ones: `short` says which of the two has 255
    /// places, 0 neither, 1 outlines, 2 distances. The answer has as many places of both as there are
    /// points, and one more.
    pub fn set_nearest_many(
        &mut self,
        set: (&[f64], &[u32]),
        points: &[f64],
        short: u32,
        [number, found]: [u32; 2],
        (outlines, distances): (&[u32], &[f64]),
    ) {
        let numbers = [format!("{:x}", points.len()), hex_list(points)];
        let asked = format!("{} {short}", numbers.join(" ").trim_end());
        let mut answer = format!("{number:x} {found:x}");
        for n in outlines {
            answer += &format!(" {n:x}");
        }
        let answer = format!("{answer} {}", hex_list(distances));
        self.set("nearest_many", set, &asked, &answer);
    }

    /// A call that reads a stream, whose bytes come as a list, into lists of ones and nines as long as `vertices` and
    /// `counts`, which it turns into these; the fields are the number and how many outlines and vertices there are.
    pub fn gdsii_read(
        &mut self,
        stream: &[u8],
        [number, outlines, total]: [u32; 3],
        vertices: &[f64],
        counts: &[u32],
    ) {
        let mut call = format!("gdsii {:x}", stream.len());
        for b in stream {
            call += &format!(" {b:x}");
        }
        self.calls += &format!("{call} {:x} {:x}\n", vertices.len(), counts.len());
        let mut answer = format!("{number:x} {outlines:x} {total:x}");
        for x in vertices {
            answer += &format!(" {}", hex(*x));
        }
        for n in counts {
            answer += &format!(" {n:x}");
        }
        self.answers += &format!("{answer}\n");
    }

    pub fn write(&self, folder: &Path) -> std::io::Result<()> {
        fs::write(folder.join("stdin"), &self.calls)?;
        fs::write(folder.join("stdout"), &self.answers)
    }
}
