//! Random cases, rich in what goes wrong: ties, zeros of both signs, subnormals, empty documents that share their start, repeated ids
//! and centroids, tiny dimensions, factors, energies and fractions that are no numbers.
use crate::model::*;
use crate::model_build::*;
use crate::slips::Slip;

#[derive(Clone)]
pub struct Random(u64);

impl Random {
    pub fn new(seed: u64) -> Self {
        Random(seed.wrapping_mul(0x9e37_79b9_7f4a_7c15) ^ 0xd1b5_4a32_d192_ed03)
    }
    pub fn next(&mut self) -> u64 {
        self.0 = self.0.wrapping_add(0x9e37_79b9_7f4a_7c15);
        let mut z = self.0;
        z = (z ^ (z >> 30)).wrapping_mul(0xbf58_476d_1ce4_e5b9);
        z = (z ^ (z >> 27)).wrapping_mul(0x94d0_49bb_1331_11eb);
        z ^ (z >> 31)
    }
    /// Below n.
    pub fn below(&mut self, n: u64) -> u64 {
        (self.next() >> 11) % n
    }
    pub fn chance(&mut self, of: u64) -> bool {
        self.below(of) == 0
    }
    pub fn pick<T: Copy>(&mut self, of: &[T]) -> T {
        of[self.below(of.len() as u64) as usize]
    }
}

const FEW: &[f32] = &[0.0, -0.0, 1.0, 1.0, 2.0, 2.0, 3.0, 0.5, -1.0, -2.0];
const ODD: &[f32] = &[
    1e-45, -1e-45, 1.1754944e-38, 5.877472e-39, 4294967296.0, -4294967296.0, 4294967000.0, 0.1, 0.3, 1.1, 3.7, 511.0, 255.0, 100.0, 16777216.0, 16777217.0, 1e-20, 0.49999997,
];

/// A value that the rules take.
pub fn value(r: &mut Random) -> f32 {
    match r.below(8) {
        0..=3 => r.pick(FEW),
        4 => r.pick(ODD),
        5 => (r.below(2001) as f32 - 1000.0) / 256.0,
        6 => {
            let v = f32::from_bits(r.next() as u32);
            if in_bound(v) { v } else { 1.5 }
        }
        _ => r.below(20) as f32,
    }
}

/// Any float at all.
pub fn any_float(r: &mut Random) -> f32 {
    match r.below(6) {
        0 => f32::NAN,
        1 => r.pick(&[f32::INFINITY, f32::NEG_INFINITY, 4294967808.0, -4294967808.0, f32::MAX]),
        2 => f32::from_bits(r.next() as u32),
        _ => value(r),
    }
}

pub fn documents(r: &mut Random, dimension: u64, most: u64) -> Documents {
    let n = 1 + r.below(most);
    let mut d = Documents { offsets: vec![0], ..Documents::default() };
    let pool = r.below(4);
    for _ in 0..n {
        if !r.chance(6) {
            let share = 1 + r.below(4);
            for c in 0..dimension {
                if r.chance(share) && d.components.len() < 4000 {
                    d.components.push(c as u32);
                    d.values.push(match pool {
                        0 => r.pick(FEW),
                        // products of 2^24 and of 1: the order of a sum shows
                        1 => r.pick(&[4096.0, 1.0, 1.0, 1.0]),
                        _ => value(r),
                    });
                }
            }
        }
        d.offsets.push(d.components.len() as u64);
    }
    d
}

pub fn blocking(r: &mut Random, n: usize) -> Blocking {
    let fraction = match r.below(10) {
        0 => any_float(r),
        1 => 1.0,
        2 => 0.7,
        _ => r.below(11) as f32 / 10.0,
    };
    let minimum = r.pick(&[0, 0, 1, 1, 2, 2, 3, 5, u64::MAX]);
    match r.below(3) {
        0 => Blocking::Fixed { size: 1 + r.below(n as u64 + 3) },
        1 => Blocking::Exact { fraction, minimum },
        _ => Blocking::Approximate { fraction, minimum, cut: r.pick(&[0, 1, 1, 2, 3, 15, u64::MAX]) },
    }
}

pub fn summary(r: &mut Random) -> Summary {
    if r.chance(2) {
        Summary::Fixed { size: r.pick(&[1, 1, 2, 3, 5, 100, u64::MAX]) }
    } else {
        let share = if r.chance(6) { any_float(r) } else { r.pick(&[0.0, 0.25, 0.4, 0.5, 0.75, 0.9, 1.0, -1.0]) };
        Summary::Energy { share }
    }
}

pub fn build_input(r: &mut Random) -> BuildInput {
    let dimension = r.pick(&[1, 2, 3, 4, 6, 9, 16]);
    let most = r.pick(&[1, 3, 6, 12, 24]);
    let documents = documents(r, dimension, most);
    let n = r.below(2 * most + 1);
    let count = documents.count();
    let ids: Vec<u64> = (0..n).map(|_| r.below(count)).collect();
    let blocking = blocking(r, ids.len());
    let centroids = match blocking {
        Blocking::Fixed { .. } => Vec::new(),
        Blocking::Exact { fraction, .. } | Blocking::Approximate { fraction, .. } => {
            let many = if ids.is_empty() { 0 } else { centroid_count(Slip::None, fraction, ids.len()).min(ids.len() as u64) };
            let from_list = !r.chance(4);
            (0..many).map(|_| if from_list { r.pick(&ids) } else { r.below(count) }).collect()
        }
    };
    BuildInput { dimension, documents, ids, centroids, blocking, summary: summary(r) }
}

/// A list at one of the limits.
pub fn large_input(r: &mut Random) -> BuildInput {
    let terms = r.pick(&[65_534, 65_535]);
    let (dimension, lengths): (u64, Vec<u64>) = match r.below(3) {
        // as many blocks as there may be, and one less
        0 => (16, vec![1; terms as usize]),
        // documents as long as they may be
        1 => (65_535 + r.below(9), vec![terms, 3, terms]),
        _ => (DIMENSION_LIMIT, vec![40; 30]),
    };
    let mut d = Documents { offsets: vec![0], ..Documents::default() };
    for length in lengths {
        let gap = dimension / length;
        for i in 0..length {
            d.components.push((i * gap + r.below(gap)) as u32);
            d.values.push(value(r));
        }
        d.offsets.push(d.components.len() as u64);
    }
    let ids = (0..d.count()).collect();
    BuildInput { dimension, documents: d, ids, centroids: Vec::new(), blocking: Blocking::Fixed { size: 1 }, summary: summary(r) }
}

pub fn query(r: &mut Random, dimension: u64) -> (Vec<u32>, Vec<f32>) {
    let mut components = Vec::new();
    let share = 1 + r.below(3);
    for c in 0..dimension + 3 {
        if r.chance(share) {
            components.push(c as u32);
        }
    }
    let values = components.iter().map(|_| value(r)).collect();
    (components, values)
}

/// A kept list in order, of at most k entries.
pub fn kept(r: &mut Random, k: u64, starts: u64) -> Vec<(u64, f32)> {
    let n = if r.chance(2) { 0 } else { r.below(k.min(6) + 1) };
    let mut entries = Vec::new();
    for _ in 0..n {
        let score = if r.chance(8) { r.pick(&[f32::INFINITY, f32::NEG_INFINITY]) } else { value(r) };
        keep(Slip::None, k, &mut entries, (r.below(starts + 2) * 65_536 + r.below(4), score));
    }
    entries
}

/// Buffers that a build of this list needs, some of them longer, all of them holding something.
pub fn build_buffers(r: &mut Random, g: &BuildInput, l: &List) -> BuildBuffers {
    let mut more = |n: usize| n + if r.chance(3) { r.below(4) as usize } else { 0 };
    let output = List {
        postings: vec![5; more(l.postings.len())],
        block_offsets: vec![6; more(l.block_offsets.len())],
        summary_components: vec![7; more(l.summary_components.len())],
        component_offsets: vec![8; more(l.component_offsets.len())],
        summary_ids: vec![9; more(l.summary_ids.len())],
        codes: vec![10; more(l.codes.len())],
        minimums: vec![-11.0; more(l.minimums.len())],
        steps: vec![-12.0; more(l.steps.len())],
    };
    let needs = if scratch_known(g) { scratch_needs(g) } else { [4; 11] };
    let [order, blocks, sorted, known, taken, counts, starts, slots, weights, sums, keys] = needs.map(more);
    let scratch = Scratch {
        order: vec![13; order],
        blocks: vec![14; blocks],
        sorted: vec![15; sorted],
        known: vec![16; known],
        taken: vec![17; taken],
        counts: vec![18; counts],
        starts: vec![19; starts],
        slots: vec![20; slots],
        weights: vec![-21.0; weights],
        sums: vec![f32::NAN; sums],
        keys: vec![22; keys],
    };
    BuildBuffers { output, scratch }
}

/// Whether the documents are such that the scratch need can be told.
fn scratch_known(g: &BuildInput) -> bool {
    g.dimension <= DIMENSION_LIMIT && !g.documents.offsets_wrong() && g.centroids.iter().all(|&c| c < g.documents.count())
}
