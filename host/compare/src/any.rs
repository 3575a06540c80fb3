//! Calls of any kind: the proved functions beside the plain reading of document 01, answers and all buffers, refused or not.
use crate::cases::*;
use crate::damage::*;
use crate::model::*;
use crate::model_build::*;
use crate::ours;
use crate::slips::Slip;

pub fn bits(v: &[f32]) -> Vec<u32> {
    v.iter().map(|x| x.to_bits()).collect()
}

pub fn same_buffers(a: &SearchBuffers, b: &SearchBuffers) -> bool {
    a.length == b.length
        && a.packed == b.packed
        && bits(&a.kept_scores) == bits(&b.kept_scores)
        && a.visits == b.visits
        && bits(&a.block_scores) == bits(&b.block_scores)
        && a.block_order == b.block_order
}

pub fn same_output(a: &List, b: &List) -> bool {
    a.postings == b.postings
        && a.block_offsets == b.block_offsets
        && a.summary_components == b.summary_components
        && a.component_offsets == b.component_offsets
        && a.summary_ids == b.summary_ids
        && a.codes == b.codes
        && bits(&a.minimums) == bits(&b.minimums)
        && bits(&a.steps) == bits(&b.steps)
}

pub fn same_scratch(a: &Scratch, b: &Scratch) -> bool {
    a.order == b.order
        && a.blocks == b.blocks
        && a.sorted == b.sorted
        && a.known == b.known
        && a.taken == b.taken
        && a.counts == b.counts
        && a.starts == b.starts
        && a.slots == b.slots
        && bits(&a.weights) == bits(&b.weights)
        && bits(&a.sums) == bits(&b.sums)
        && a.keys == b.keys
}

/// A search that may be wrong in any way: flipped bytes, cut slices, short buffers, floats of any kind. The proved function beside the
/// plain reading: answers and all buffers.
pub fn case_any_search(r: &mut Random, slip: Slip) -> Option<bool> {
    let g = build_input(r);
    let list = build(Slip::None, &g, true, |_| true).unwrap_or_default();
    let terms = g.documents.components.len() as u64;
    let k = r.pick(&[0, 1, 1, 2, 3, 5]);
    let (query_components, query_values) = query(r, g.dimension);
    let entries = kept(r, k.max(1), terms);
    let room = k.max(entries.len() as u64) as usize + r.below(3) as usize;
    let n = list.minimums.len();
    let mut input = SearchInput {
        query_components,
        query_values,
        k,
        factor: any_float(r),
        components: g.documents.components.clone(),
        values: g.documents.values.clone(),
        list,
        sorted: r.chance(2),
    };
    let mut b = SearchBuffers {
        length: entries.len() as u64,
        packed: vec![5; room],
        kept_scores: vec![-5.0; room],
        visits: (0..=terms + r.below(2)).map(|_| if r.chance(6) { r.pick(&[1, 7, 255]) } else { 0 }).collect(),
        block_scores: vec![-3.0; n + r.below(2) as usize],
        block_order: vec![99; n + r.below(2) as usize],
    };
    for (i, e) in entries.iter().enumerate() {
        b.packed[i] = e.0;
        b.kept_scores[i] = e.1;
    }
    for _ in 0..r.below(3) {
        damage(r, &mut input, &mut b);
    }
    let mut ours = b.clone();
    let mut again = b.clone();
    let expected = search(slip, &input, &mut b);
    let answer = ours::search(&input, &mut ours);
    let answer_again = ours::search(&input, &mut again);
    let ok = answer == expected && same_buffers(&ours, &b) && answer == answer_again && same_buffers(&ours, &again);
    if !ok && std::env::var("SHOW").is_ok() {
        println!("given {input:?}\nexpected {expected:?} {b:?}\nours {answer:?} {ours:?}\nagain {answer_again:?} {again:?}");
    }
    Some(ok)
}

/// Pushes of any kind, one after another.
pub fn case_any_push(r: &mut Random, slip: Slip) -> Option<bool> {
    let k = r.pick(&[0, 1, 2, 3, 5, u64::MAX]);
    let room = r.below(6) as usize;
    let entries = kept(r, k.clamp(1, 6), 6);
    let mut packed: Vec<u64> = (0..room).map(|_| r.below(9)).collect();
    let mut scores: Vec<f32> = (0..room + r.below(2) as usize).map(|_| any_float(r)).collect();
    let mut length = entries.len() as u64;
    for (i, e) in entries.iter().enumerate() {
        if i < packed.len() { packed[i] = e.0 }
        if i < scores.len() { scores[i] = e.1 }
    }
    if r.chance(6) {
        length = near(r, length);
    }
    let (mut length2, mut packed2, mut scores2) = (length, packed.clone(), scores.clone());
    for _ in 0..1 + r.below(5) {
        let e = (r.below(8) * 65_536 + r.below(3), any_float(r));
        let expected = push(slip, k, &mut length, &mut packed, &mut scores, e);
        let answer = ours::push(k, &mut length2, &mut packed2, &mut scores2, e);
        if expected != answer || length != length2 || packed != packed2 || bits(&scores) != bits(&scores2) {
            return Some(false);
        }
    }
    Some(true)
}

/// A build that may be wrong in any way: damaged documents, unknown ids, settings of any kind, short buffers. Twice the same answer.
pub fn case_any_build(r: &mut Random, slip: Slip) -> Option<bool> {
    let mut g = build_input(r);
    for _ in 0..r.below(3) {
        damage_build(r, &mut g);
    }
    let right = build(Slip::None, &g, true, |_| true).unwrap_or_default();
    let mut b = build_buffers(r, &g, &right);
    for _ in 0..r.below(3) {
        cut_build_buffer(r, &mut b);
    }
    let (mut ours, mut again) = (b.clone(), b.clone());
    let expected = build_into(slip, &g, &mut b);
    let answer = ours::build(&g, &mut ours, r.next())?;
    let answer_again = ours::build(&g, &mut again, r.next())?;
    let same = |x: &BuildBuffers| same_output(&x.output, &b.output) && same_scratch(&x.scratch, &b.scratch);
    let ok = answer == expected && answer_again == expected && same(&ours) && same(&again);
    if !ok && std::env::var("SHOW").is_ok() {
        println!("given {g:?}\nexpected {expected:?} {b:?}\nours {answer:?} {ours:?}\nagain {answer_again:?} {again:?}");
    }
    Some(ok)
}
