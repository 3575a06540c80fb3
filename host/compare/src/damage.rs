//! What makes a call wrong, or at least other: flipped numbers, cut slices, short buffers, floats of any kind.
use crate::cases::*;
use crate::model::*;
use crate::model_build::*;

pub fn cut<T: Clone + Default>(r: &mut Random, v: &mut Vec<T>) {
    match r.below(3) {
        0 => {
            v.pop();
        }
        1 => v.push(T::default()),
        _ => {
            let n = r.below(v.len() as u64 + 1) as usize;
            v.truncate(n);
        }
    }
}

pub fn at<'a, T>(r: &mut Random, v: &'a mut [T]) -> Option<&'a mut T> {
    let n = v.len() as u64;
    if n == 0 { None } else { v.get_mut(r.below(n) as usize) }
}

pub fn near(r: &mut Random, x: u64) -> u64 {
    match r.below(5) {
        0 => x.wrapping_add(1),
        1 => x.wrapping_sub(1),
        2 => 0,
        3 => r.next() >> r.below(64),
        _ => x ^ (1 << r.below(64)),
    }
}

/// One thing made wrong, or at least other.
pub fn damage(r: &mut Random, g: &mut SearchInput, b: &mut SearchBuffers) {
    let l = &mut g.list;
    match r.below(28) {
        0 => cut(r, &mut g.query_components),
        1 => cut(r, &mut g.query_values),
        2 => if let Some(x) = { let n = g.query_components.len() as u64; if n == 0 { None } else { let i = r.below(n) as usize; g.query_components.get_mut(i) } } { *x = near(r, *x as u64) as u32 },
        3 => { let v = any_float(r); if let Some(x) = at(r, &mut g.query_values) { *x = v } }
        4 => cut(r, &mut g.components),
        5 => cut(r, &mut g.values),
        6 => { let d = r.clone().next(); if let Some(x) = at(r, &mut g.components) { *x = (*x as u64 ^ (d & 3)) as u32 } }
        7 => { let v = any_float(r); if let Some(x) = at(r, &mut g.values) { *x = v } }
        8 => cut(r, &mut l.postings),
        9 => { let mut q = r.clone(); if let Some(x) = at(r, &mut l.postings) { *x = near(&mut q, *x) } }
        10 => cut(r, &mut l.block_offsets),
        11 => { let mut q = r.clone(); if let Some(x) = at(r, &mut l.block_offsets) { *x = near(&mut q, *x) } }
        12 => cut(r, &mut l.summary_components),
        13 => { let mut q = r.clone(); if let Some(x) = at(r, &mut l.summary_components) { *x = near(&mut q, *x as u64) as u32 } }
        14 => cut(r, &mut l.component_offsets),
        15 => { let mut q = r.clone(); if let Some(x) = at(r, &mut l.component_offsets) { *x = near(&mut q, *x) } }
        16 => cut(r, &mut l.summary_ids),
        17 => { let mut q = r.clone(); if let Some(x) = at(r, &mut l.summary_ids) { *x = near(&mut q, *x as u64) as u16 } }
        18 => cut(r, &mut l.codes),
        19 => { let mut q = r.clone(); if let Some(x) = at(r, &mut l.codes) { *x = q.next() as u8 } }
        20 => { cut(r, &mut l.minimums) }
        21 => { let v = any_float(r); if let Some(x) = at(r, &mut l.minimums) { *x = v } }
        22 => { let v = any_float(r); if let Some(x) = at(r, &mut l.steps) { *x = v } }
        23 => cut(r, &mut b.packed),
        24 => cut(r, &mut b.visits),
        25 => { cut(r, &mut b.block_scores); }
        26 => { let v = any_float(r); if let Some(x) = at(r, &mut b.kept_scores) { *x = v } }
        _ => { b.length = near(r, b.length) }
    }
}

/// One thing of a build's input made wrong, or at least other.
pub fn damage_build(r: &mut Random, g: &mut BuildInput) {
    let d = &mut g.documents;
    let mut q = Random::new(r.next());
    match r.below(16) {
        // the limit itself is rare, since its scratch is long
        0 if r.chance(500) => g.dimension = r.pick(&[1_048_575, 1_048_576]),
        0 => g.dimension = r.pick(&[0, 1, g.dimension - 1, g.dimension + 1, 1_048_576, u64::MAX]),
        1 => cut(r, &mut d.offsets),
        2 => if let Some(x) = at(r, &mut d.offsets) { *x = near(&mut q, *x) },
        3 => cut(r, &mut d.components),
        4 => if let Some(x) = at(r, &mut d.components) { *x = near(&mut q, *x as u64) as u32 },
        5 => cut(r, &mut d.values),
        6 => if let Some(x) = at(r, &mut d.values) { *x = any_float(&mut q) },
        7 => cut(r, &mut g.ids),
        8 => if let Some(x) = at(r, &mut g.ids) { *x = near(&mut q, *x) },
        9 => g.ids.clear(),
        10 => cut(r, &mut g.centroids),
        11 => if let Some(x) = at(r, &mut g.centroids) { *x = near(&mut q, *x) },
        12 => g.blocking = Blocking::Fixed { size: r.pick(&[0, 0, 1, u64::MAX]) },
        13 => g.blocking = blocking(r, g.ids.len()),
        14 => g.summary = Summary::Fixed { size: 0 },
        _ => g.summary = Summary::Energy { share: any_float(r) },
    }
}

/// One of a build's nineteen buffers cut, or longer.
pub fn cut_build_buffer(r: &mut Random, b: &mut BuildBuffers) {
    let (o, s) = (&mut b.output, &mut b.scratch);
    match r.below(19) {
        0 => cut(r, &mut o.postings),
        1 => cut(r, &mut o.block_offsets),
        2 => cut(r, &mut o.summary_components),
        3 => cut(r, &mut o.component_offsets),
        4 => cut(r, &mut o.summary_ids),
        5 => cut(r, &mut o.codes),
        6 => cut(r, &mut o.minimums),
        7 => cut(r, &mut o.steps),
        8 => cut(r, &mut s.order),
        9 => cut(r, &mut s.blocks),
        10 => cut(r, &mut s.sorted),
        11 => cut(r, &mut s.known),
        12 => cut(r, &mut s.taken),
        13 => cut(r, &mut s.counts),
        14 => cut(r, &mut s.starts),
        15 => cut(r, &mut s.slots),
        16 => cut(r, &mut s.weights),
        17 => cut(r, &mut s.sums),
        _ => cut(r, &mut s.keys),
    }
}
