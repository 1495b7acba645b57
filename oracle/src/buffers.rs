//! What a host lends a call for an index: three lists of working space, each from the middle of a larger
//! one, whose other places must stay as they are.
use crate::library::Lent;
use crate::random::Random;

/// Places before and after a list, which no call may touch.
pub const GUARD: usize = 4;

/// What stands in each place before a call: no call gives it.
pub const STALE: f64 = f64::from_bits(0xdead_beef_dead_beef);
pub const STALE_WORD: u32 = 0xdead_beef;

/// The stated sizes: numbers of corners and of links, and items.
pub const SIZES: [usize; 3] = [2044, 1022, 1024];

/// Lengths for a call's lists: mostly the stated ones, now and then one of them a place short or some more.
pub fn varied<const N: usize>(sizes: [usize; N], r: &mut Random) -> [usize; N] {
    let mut lengths = sizes;
    if r.below(8) == 0 {
        let k = r.below(N as u64) as usize;
        lengths[k] = match r.below(4) {
            0 => lengths[k] - 1,
            1 => r.below(lengths[k] as u64) as usize,
            _ => lengths[k] + 1 + r.below(9) as usize,
        };
    }
    lengths
}

/// What is lent of a list that has the places around it too.
pub fn middle<T>(list: &mut [T]) -> &mut [T] {
    let end = list.len() - GUARD;
    &mut list[GUARD..end]
}

#[derive(Clone)]
pub struct Buffers {
    corners: Vec<f64>,
    links: Vec<u32>,
    items: Vec<u32>,
}

impl Buffers {
    /// Lists of these lengths.
    pub fn new([corners, links, items]: [usize; 3]) -> Buffers {
        Buffers {
            corners: vec![STALE; corners + 2 * GUARD],
            links: vec![STALE_WORD; links + 2 * GUARD],
            items: vec![STALE_WORD; items + 2 * GUARD],
        }
    }

    /// Lengths for a call.
    pub fn lengths(r: &mut Random) -> [usize; 3] {
        varied(SIZES, r)
    }

    /// The three lists, as they are lent.
    pub fn lent(&mut self) -> Lent<'_> {
        Lent {
            corners: middle(&mut self.corners),
            links: middle(&mut self.links),
            items: middle(&mut self.items),
        }
    }

    /// These numbers at the front of each list.
    pub fn put(&mut self, corners: &[f64], links: &[u32], items: &[u32]) {
        let lent = self.lent();
        lent.corners[..corners.len()].copy_from_slice(corners);
        lent.links[..links.len()].copy_from_slice(links);
        lent.items[..items.len()].copy_from_slice(items);
    }

    /// Zeros in the places of the stated sizes.
    pub fn clear(&mut self) {
        let [corners, links, items] = SIZES;
        self.put(&vec![0.0; corners], &vec![0; links], &vec![0; items]);
    }

    /// The same bits in every place, those around the lists too.
    pub fn same(&self, other: &Buffers) -> bool {
        let bits = |list: &[f64]| list.iter().map(|x| x.to_bits()).collect::<Vec<u64>>();
        bits(&self.corners) == bits(&other.corners)
            && self.links == other.links
            && self.items == other.items
    }
}
