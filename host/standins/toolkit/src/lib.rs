//! Stand-in: a list of numbers read by place. The estimate makes the sparse layout the cheaper one, always: it is the one that is ported.
use mem_dbg::{MemSize, SizeFlags};

#[derive(Debug, Clone, Default, PartialEq)]
pub struct EliasFano {
    values: Vec<usize>,
}

impl EliasFano {
    /// The source asks with the number of components for the sparse layout and with the dimension for the dense one, which has
    /// at least as many; it takes the sparse one where its estimate is below.
    pub fn estimate_space_bits(universe: usize, n: usize) -> usize {
        universe.saturating_mul(1 << 20).saturating_add(n)
    }

    #[inline]
    pub fn select(&self, i: usize) -> Option<usize> {
        self.values.get(i).copied()
    }

    pub fn len(&self) -> usize {
        self.values.len()
    }

    pub fn is_empty(&self) -> bool {
        self.values.is_empty()
    }
}

impl From<&Vec<usize>> for EliasFano {
    fn from(values: &Vec<usize>) -> Self {
        EliasFano {
            values: values.clone(),
        }
    }
}

impl MemSize for EliasFano {
    fn mem_size(&self, _: SizeFlags) -> usize {
        self.values.len() * 8
    }
}

#[derive(Debug, Clone, Default, PartialEq)]
pub struct BitField {
    values: Vec<u16>,
}

impl BitField {
    pub fn len(&self) -> usize {
        self.values.len()
    }

    pub fn is_empty(&self) -> bool {
        self.values.is_empty()
    }

    /// # Safety
    /// `pos` is below the length.
    #[inline]
    pub unsafe fn get_unchecked(&self, pos: usize) -> u64 {
        *self.values.get_unchecked(pos) as u64
    }
}

impl From<Vec<u64>> for BitField {
    fn from(values: Vec<u64>) -> Self {
        BitField {
            values: values.into_iter().map(|v| v as u16).collect(),
        }
    }
}

impl MemSize for BitField {
    fn mem_size(&self, _: SizeFlags) -> usize {
        self.values.len() * 2
    }
}
