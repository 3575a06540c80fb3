//! Accepted cases: the original beside the plain reading of document 01, and beside the proved functions that the library has.
use crate::any::{bits, same_buffers, same_output, same_scratch};
use crate::cases::*;
use crate::model::*;
use crate::model_build::*;
use crate::ours;
use crate::slips::Slip;

pub fn same_list(a: &List, b: &original::List) -> bool {
    a.postings == b.packed
        && a.block_offsets == b.block_offsets
        && a.summary_components == b.components
        && a.component_offsets == b.component_offsets
        && a.summary_ids == b.ids
        && a.codes == b.codes
        && bits(&a.minimums) == bits(&b.minimums)
        && bits(&a.steps) == bits(&b.steps)
}

pub fn of_model(l: &List) -> original::List {
    original::List {
        packed: l.postings.clone(),
        block_offsets: l.block_offsets.clone(),
        components: l.summary_components.clone(),
        component_offsets: l.component_offsets.clone(),
        ids: l.summary_ids.clone(),
        codes: l.codes.clone(),
        minimums: l.minimums.clone(),
        steps: l.steps.clone(),
    }
}

pub fn case_pack(r: &mut Random, _: Slip) -> Option<bool> {
    let start = if r.chance(4) { (1 << 48) - 1 - r.below(3) } else { r.next() >> (16 + r.below(48)) };
    let end = match r.below(4) {
        0 => start.saturating_sub(r.below(9)),
        1 => start + 65_535 - r.below(2),
        _ => start + r.below(65_536),
    };
    let m = pack(start, end).ok()?;
    Some(m == original::pack(start, end))
}

pub fn case_block(r: &mut Random, slip: Slip) -> Option<bool> {
    let n = r.below(200);
    let size = 1 + r.below(40);
    let mut buffer = vec![7; 300];
    let len = fixed_size_blocking(slip, n, size, &mut buffer).ok()? as usize;
    Some(buffer[..len] == original::fixed_offsets(n, size)[..])
}

pub fn case_quantize(r: &mut Random, slip: Slip) -> Option<bool> {
    let n = 1 + r.below(12);
    let values: Vec<f32> = match r.below(4) {
        0 => (0..n).map(|_| r.pick(&[0.0, -0.0, 1e-45, -1e-45, 0.5, 255.0, 100.0, 0.49999997])).collect(),
        1 => {
            let scale = f32::from_bits((r.below(180) as u32 + 1) << 23);
            (0..n).map(|_| r.below(511) as f32 * scale * 0.5).filter(|v| in_bound(*v)).collect()
        }
        _ => (0..n).map(|_| value(r)).collect(),
    };
    let mut codes = vec![9; values.len()];
    let (low, step) = quantize(slip, &values, &mut codes).ok()?;
    let (l, s, c) = original::quantize(&values);
    let read = |l: f32, s: f32| codes.iter().map(|&c| read_back(slip, l, s, c).to_bits()).collect::<Vec<_>>();
    let back: Vec<u32> = c.iter().map(|&c| (c as f32 * s + l).to_bits()).collect();
    Some(low.to_bits() == l.to_bits() && step.to_bits() == s.to_bits() && codes == c && read(low, step) == back)
}

pub fn case_push(r: &mut Random, slip: Slip) -> Option<bool> {
    let k = 1 + r.below(6);
    let mut ours = kept(r, k, 6);
    let mut theirs = original::Kept::new(k, &ours, &[]);
    for _ in 0..1 + r.below(8) {
        let e = (r.below(8) * 65_536 + r.below(3), value(r));
        keep(slip, k, &mut ours, e);
        theirs.push(e.0, e.1);
    }
    let t = theirs.entries();
    Some(ours.len() == t.len() && ours.iter().zip(&t).all(|(a, b)| a.0 == b.0 && a.1.to_bits() == b.1.to_bits()))
}

pub fn their_blocking(b: Blocking) -> original::Blocking {
    match b {
        Blocking::Fixed { size } => original::Blocking::Fixed { size },
        Blocking::Exact { fraction, minimum } => original::Blocking::Exact { fraction, minimum },
        Blocking::Approximate { fraction, minimum, cut } => original::Blocking::Approximate { fraction, minimum, cut },
    }
}

pub fn their_summary(s: Summary) -> original::Summary {
    match s {
        Summary::Fixed { size } => original::Summary::Fixed { size },
        Summary::Energy { share } => original::Summary::Energy { share },
    }
}

/// The original's build beside the plain reading's and, where it is there, beside the proved one: the list and what lies past it.
pub fn case_build(r: &mut Random, slip: Slip) -> Option<bool> {
    let g = build_input(r);
    builds_agree(r, g, slip)
}

fn builds_agree(r: &mut Random, g: BuildInput, slip: Slip) -> Option<bool> {
    let right = build(Slip::None, &g, true, |_| true).ok()?;
    if slip != Slip::None && !build(slip, &g, true, |_| true).is_ok_and(|l| same_output(&l, &right)) {
        return Some(false);
    }
    let d = original::Documents::new(g.dimension as usize, &g.documents.offsets, &g.documents.components, &g.documents.values);
    let theirs = original::build(&d, &g.ids, &g.centroids, their_blocking(g.blocking), their_summary(g.summary));
    if !same_list(&right, &theirs.list()) {
        return Some(false);
    }
    let mut b = build_buffers(r, &g, &right);
    let mut expected = b.clone();
    let written = build_into(slip, &g, &mut expected);
    let Some(answer) = ours::build(&g, &mut b, r.next()) else { return Some(true) };
    Some(answer == written && same_output(&b.output, &expected.output) && same_scratch(&b.scratch, &expected.scratch))
}

/// Lists at the limits, built and searched: 65,535 blocks, a document of 65,535 terms, the greatest dimension.
pub fn case_large(r: &mut Random, slip: Slip) -> Option<bool> {
    let g = large_input(r);
    Some(builds_agree(r, g.clone(), slip)? && searches_agree(r, g, slip)?)
}

/// The original's search beside the plain reading's and the proved one.
pub fn case_search(r: &mut Random, slip: Slip) -> Option<bool> {
    let g = build_input(r);
    searches_agree(r, g, slip)
}

fn searches_agree(r: &mut Random, g: BuildInput, slip: Slip) -> Option<bool> {
    let list = build(Slip::None, &g, true, |_| true).ok()?;
    let terms = g.documents.components.len() as u64;
    let k = r.pick(&[1, 1, 2, 3, 5, 40]);
    let (query_components, query_values) = query(r, g.dimension);
    let factor = if r.chance(5) { any_float(r) } else { r.pick(&[0.0, 0.5, 0.8, 1.0, 1.0, 2.0]) };
    let entries = kept(r, k, terms);
    let sorted = r.chance(2);
    let visits: Vec<u8> = (0..=terms).map(|_| if r.chance(6) { r.pick(&[1, 7, 255]) } else { 0 }).collect();
    let mut b = SearchBuffers {
        length: entries.len() as u64,
        packed: vec![0; k as usize],
        kept_scores: vec![0.0; k as usize],
        visits: visits.clone(),
        block_scores: vec![0.0; list.minimums.len()],
        block_order: vec![0; list.minimums.len()],
    };
    for (i, e) in entries.iter().enumerate() {
        b.packed[i] = e.0;
        b.kept_scores[i] = e.1;
    }
    let before: Vec<u64> = (0..visits.len() as u64).filter(|&i| visits[i as usize] != 0).collect();
    let mut input = SearchInput {
        query_components,
        query_values,
        k,
        factor,
        components: g.documents.components.clone(),
        values: g.documents.values.clone(),
        list,
        sorted,
    };
    // components spread out in the same order, so that pages are read by the query's table, through its sieve, and with shared remainders
    let spread = if g.dimension < 1000 { r.pick(&[1, 1, 4096, 7001]) } else { 1 };
    let apart = [&mut input.query_components, &mut input.components, &mut input.list.summary_components];
    apart.into_iter().flatten().for_each(|c| *c *= spread);
    let dimension = g.dimension as usize * spread as usize;
    let mut lent = b.clone();
    let answer = search(slip, &input, &mut b);
    let Found::Done { evaluated, .. } = answer else { return None };
    if ours::search(&input, &mut lent) != answer || !same_buffers(&lent, &b) {
        return Some(false);
    }
    // the document's dimension and the query's terms past it: the stand-in's layout is as long as both need
    let d = original::Documents::new(dimension, &g.documents.offsets, &input.components, &input.values);
    let theirs = original::Built::of_list(dimension, &of_model(&input.list));
    let mut kept = original::Kept::new(k, &entries, &before);
    let mut evaluator = original::evaluator(&d, &input.query_components, &input.query_values);
    original::search(&theirs, &d, &mut evaluator, &input.query_components, &input.query_values, k, factor, &mut kept, sorted);
    let found = kept.entries();
    let ours: Vec<(u64, u32)> = (0..b.length as usize).map(|i| (b.packed[i], b.kept_scores[i].to_bits())).collect();
    let them: Vec<(u64, u32)> = found.iter().map(|e| (e.0, e.1.to_bits())).collect();
    let marks: std::collections::BTreeSet<usize> = (0..b.visits.len()).filter(|&i| b.visits[i] != 0).collect();
    let their_marks: std::collections::BTreeSet<usize> = kept.visited.iter().copied().collect();
    let scores = theirs.scores(&input.query_components, &input.query_values);
    Some(
        ours == them
            && marks == their_marks
            && bits(&b.block_scores) == bits(&scores)
            && evaluated as usize == their_marks.len() - before.len(),
    )
}

