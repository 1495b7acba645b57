//! The box tree against the original `Index`: the nodes, their numbers and boxes, and what `meeting` lists,
//! to the bit. The order inside a leaf, which the original does not promise, is made ascending first.
//! Checked too: a refused call writes zeros and leaves every list as it was, places past those used stay
//! as they were, and so does what stands around the lists.
use crate::boxes;
use crate::buffers::{Buffers, STALE, STALE_WORD};
use crate::library::{self, Node};
use crate::original::geometry::{Bounds, Point};
use crate::original::index::Index;
use crate::random::Random;
use crate::refusals;
use crate::report::{Report, hex_list};
use crate::sample::Sample;

/// Places of the list that `meeting` writes.
pub const LIST: usize = 1024;

pub fn bounds(list: &[f64]) -> Vec<Bounds> {
    let corner = |x: f64, y: f64| Point::um(x, y);
    let each = list.chunks_exact(4);
    each.map(|b| Bounds {
        min: corner(b[0], b[1]),
        max: corner(b[2], b[3]),
    })
    .collect()
}

/// The original index over the boxes.
fn index(list: &[f64]) -> Index {
    Index::new(&bounds(list)).ascending()
}

/// What building answers, with the index that it puts in buffers of these lengths.
fn built(list: &[f64], lengths: [usize; 3]) -> ([u32; 3], Option<Index>) {
    let number = refusals::build(list, lengths);
    if number != 0 {
        return ([number, 0, 0], None);
    }
    let index = index(list);
    let (corners, _, items) = index.numbers();
    let counts = [0, (corners.len() / 4) as u32, items.len() as u32];
    (counts, Some(index))
}

/// What `meeting` answers.
fn listed(list: &[f64], cell: [f64; 4], lengths: [usize; 3], room: usize) -> (u32, Vec<u32>) {
    let number = refusals::meeting(list, cell, lengths, room);
    if number != 0 {
        return (number, Vec::new());
    }
    let found = index(list).meeting(bounds(&cell)[0]);
    (0, found.into_iter().map(|k| k as u32).collect())
}

/// What stands in each record before a call.
const STALE_NODE: Node = Node {
    min_x: STALE,
    min_y: STALE,
    max_x: STALE,
    max_y: STALE,
    first: STALE_WORD,
    count: STALE_WORD,
};

/// The same bits.
fn same_node(a: &Node, b: &Node) -> bool {
    let bits = |n: &Node| [n.min_x, n.min_y, n.max_x, n.max_y].map(f64::to_bits);
    bits(a) == bits(b) && (a.first, a.count) == (b.first, b.count)
}

pub struct Case<'a> {
    pub report: &'a mut Report,
    pub number: u64,
}

impl Case<'_> {
    #[cold]
    pub fn differs(&mut self, list: &[f64], what: &str) {
        let first = hex_list(&list[..list.len().min(96)]);
        let (number, len) = (self.number, list.len());
        self.report.differs(&format!(
            "(list {number}) [{first}] of {len} numbers: {what}"
        ));
    }

    fn build(&mut self, list: &[f64], lengths: [usize; 3]) {
        self.report.operation("index_build");
        let (want, index) = built(list, lengths);
        let mut left = Buffers::new(lengths);
        let mut space = left.clone();
        if let Some(index) = index {
            let (corners, links, items) = index.numbers();
            left.put(&corners, &links, &items);
        }
        let mut ours = [0, STALE_WORD, STALE_WORD];
        ours[0] = library::index_build(list, space.lent(), &mut ours);
        self.report.numbered(want[0]);
        if ours != want {
            self.differs(list, &format!("ours {ours:?}, Rust {want:?}"));
        }
        if !space.same(&left) {
            self.differs(list, "the index is not what it must be");
        }
    }

    /// The same tree as records, with room for so many of them and so many items.
    fn nodes(&mut self, list: &[f64], room: usize, places: usize) {
        self.report.operation("index_nodes");
        let (want, index) = built(list, [4 * room, 2 * room, places]);
        let (mut records, mut left) = (vec![STALE_NODE; room], vec![STALE_WORD; places]);
        if let Some(index) = index {
            let (corners, links, items) = index.numbers();
            left[..items.len()].copy_from_slice(&items);
            for (n, (c, l)) in corners.chunks(4).zip(links.chunks(2)).enumerate() {
                records[n] = Node {
                    min_x: c[0],
                    min_y: c[1],
                    max_x: c[2],
                    max_y: c[3],
                    first: l[0],
                    count: l[1],
                };
            }
        }
        let mut given = vec![STALE_NODE; room];
        let mut items = vec![STALE_WORD; places];
        let mut ours = [0, STALE_WORD, STALE_WORD];
        ours[0] = library::index_nodes(list, &mut given, &mut items, &mut ours);
        self.report.numbered(want[0]);
        if ours != want {
            self.differs(list, &format!("ours {ours:?}, Rust {want:?}"));
        }
        if items != left || !given.iter().zip(&records).all(|(a, b)| same_node(a, b)) {
            self.differs(list, "the records or the items are not what they must be");
        }
    }

    /// What the cell lists, where the call is accepted.
    pub fn meeting(
        &mut self,
        list: &[f64],
        cell: [f64; 4],
        lengths: [usize; 3],
        room: usize,
    ) -> Option<Vec<u32>> {
        self.report.operation("index_meeting");
        let (number, found) = listed(list, cell, lengths, room);
        let mut left = Buffers::new(lengths);
        let mut space = left.clone();
        if number == 0 {
            left.clear();
        }
        let mut want = vec![STALE_WORD; room];
        want[..found.len()].copy_from_slice(&found);
        let mut given = vec![STALE_WORD; room];
        let mut count = STALE_WORD;
        let ours = library::index_meeting(list, cell, space.lent(), &mut given, &mut count);
        self.report.numbered(number);
        if (ours, count) != (number, found.len() as u32) || given != want {
            let (cell, ours) = (hex_list(&cell), (ours, count, &given[..room.min(32)]));
            self.differs(
                list,
                &format!("cell {cell}: ours {ours:?}, Rust {number} {found:?}"),
            );
        }
        if !space.same(&left) {
            self.differs(list, "the working buffers are not what they must be");
        }
        given.truncate(count as usize);
        (ours == 0).then_some(given)
    }
}

/// `cases` lists, each built and asked about a cell.
pub fn compare(report: &mut Report, seed: u64, cases: u64) {
    let mut r = Random::new(seed, "indexes");
    let mut case = Case { report, number: 0 };
    for i in 0..cases {
        case.number = i;
        let list = boxes::list(i, &mut r);
        case.build(&list, Buffers::lengths(&mut r));
        let [_, links, items] = Buffers::lengths(&mut r);
        case.nodes(&list, links / 2, items);
        let cell = boxes::cell(&list, &mut r);
        let room = match r.below(16) {
            0 => LIST - 1,
            1 => LIST + r.below(9) as usize,
            _ => LIST,
        };
        case.meeting(&list, cell, Buffers::lengths(&mut r), room);
    }
}

/// Cases over lists of a few boxes, document 01's examples first.
pub fn sample(out: &mut Sample, seed: u64, count: u64) {
    let mut r = Random::new(seed, "indexes");
    let two = [0.0, 0.0, 1.0, 1.0, 10.0, 10.0, 11.0, 11.0];
    let lengths = crate::buffers::SIZES;
    let mut add = |list: &[f64], cell: [f64; 4]| {
        let (counts, index) = built(list, lengths);
        out.index_build(list, counts, index.map(|i| i.numbers()));
        let (number, found) = listed(list, cell, lengths, LIST);
        out.index_meeting(list, cell, number, &found);
    };
    add(&two, [5.0, 5.0, 6.0, 6.0]);
    add(&two, [20.0, 20.0, 21.0, 21.0]);
    let (mut i, mut left) = (0, count.saturating_sub(2));
    while left > 0 {
        i += 1;
        let list = boxes::list(i, &mut r);
        let cell = boxes::cell(&list, &mut r);
        if list.len() <= 64 {
            add(&list, cell);
            left -= 1;
        }
    }
}
