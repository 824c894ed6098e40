//! Stand-ins of our own for what the Rust source takes from elsewhere, so that its files compile by themselves.
//! Nothing of that source stands here. What a comparison shows about bits rests on these stand-ins, not on the original's.

/// Up to 64 bits, lowest first.
#[derive(Clone, Copy)]
pub struct TinySet(u64);

impl TinySet {
    pub fn empty() -> TinySet {
        TinySet(0)
    }

    pub fn range_greater_or_equal(from: u32) -> TinySet {
        TinySet(u64::MAX << (from % 64))
    }

    pub fn intersect(self, other: TinySet) -> TinySet {
        TinySet(self.0 & other.0)
    }

    pub fn pop_lowest(&mut self) -> Option<u32> {
        if self.0 == 0 {
            return None;
        }
        let lowest = self.0.trailing_zeros();
        self.0 &= self.0 - 1;
        Some(lowest)
    }
}

pub struct BitSet {
    pub words: Vec<u64>,
    pub max_value: u32,
}

impl BitSet {
    pub fn with_ids(max_value: u32, ids: &[u32]) -> BitSet {
        let mut words = vec![0; (max_value as usize + 63) / 64];
        for id in ids {
            words[*id as usize / 64] |= 1 << (id % 64);
        }
        BitSet { words, max_value }
    }

    pub fn max_value(&self) -> u32 {
        self.max_value
    }

    pub fn len(&self) -> usize {
        self.words.iter().map(|w| w.count_ones() as usize).sum()
    }

    pub fn tinyset(&self, bucket: u32) -> TinySet {
        TinySet(self.words[bucket as usize])
    }

    pub fn first_non_empty_bucket(&self, from: u32) -> Option<u32> {
        (from as usize..self.words.len()).find(|place| self.words[*place] != 0).map(|place| place as u32)
    }
}

pub trait HasLen {
    fn len(&self) -> usize;
}

pub mod fastfield {
    pub struct AliveBitSet {
        pub words: Vec<u64>,
    }

    impl AliveBitSet {
        pub fn is_alive(&self, doc: crate::DocId) -> bool {
            self.words.get(doc as usize / 64).map_or(false, |w| w >> (doc % 64) & 1 == 1)
        }
    }
}

pub mod index {
    pub struct SegmentReader;

    impl SegmentReader {
        pub fn max_doc(&self) -> u32 {
            0
        }
    }
}

pub type DocId = u32;
pub type Score = f32;
pub type Result<T> = std::result::Result<T, ()>;
