//! Lists searched. What the original does not show of a search, the skipped blocks and the order of turns, is the plain reading's, which
//! agrees with it on all else.
use crate::leaves::places;
use crate::words::*;
use compare::any::bits;
use compare::cases::*;
use compare::model::*;
use compare::model_build::*;
use compare::slips::Slip;

pub fn search_case(r: &mut Random) -> Option<Vec<u32>> {
    let g = build_input(r);
    let list = build(Slip::None, &g, true, |_| true).ok()?;
    let terms = g.documents.components.len();
    let k = r.pick(&[1, 1, 2, 3, 5, 8]);
    let (query_components, query_values) = query(r, g.dimension);
    let factor = if r.chance(5) { any_float(r) } else { r.pick(&[0.0, 0.5, 0.8, 1.0, 1.0, 2.0]) };
    let entries = kept(r, k, terms as u64);
    let sorted = r.chance(2);
    let visits: Vec<u8> = (0..=terms).map(|_| if r.chance(6) { r.pick(&[1, 7, 255]) } else { 0 }).collect();
    if visits.len() > 256 || list.minimums.len() > 32 {
        return None;
    }
    let mut b = SearchBuffers {
        length: entries.len() as u64,
        packed: entries.iter().map(|e| e.0).chain([0; 8]).take(8).collect(),
        kept_scores: entries.iter().map(|e| e.1).chain([0.0; 8]).take(8).collect(),
        visits: visits.clone(),
        block_scores: vec![0.0; list.minimums.len()],
        block_order: vec![0; list.minimums.len()],
    };
    let input = SearchInput { query_components, query_values, k, factor, components: g.documents.components.clone(), values: g.documents.values.clone(), list, sorted };
    let Found::Done { evaluated, skipped, .. } = search(Slip::None, &input, &mut b) else { return None };
    let l = &input.list;
    if !original_agrees(&g, &input, &entries, &visits, &b, evaluated) {
        panic!("the plain reading and the original differ");
    }
    let [p, s] = places(&entries)?;
    let bytes = |v: &[u8]| v.iter().map(|&x| x as u32).collect::<Vec<u32>>();
    let slices = [
        input.query_components.clone(),
        keys(&input.query_values),
        input.components.clone(),
        keys(&input.values),
        words(&l.postings)?,
        words(&l.block_offsets)?,
        l.summary_components.clone(),
        words(&l.component_offsets)?,
        l.summary_ids.iter().map(|&i| i as u32).collect(),
        bytes(&l.codes),
        keys(&l.minimums),
        keys(&l.steps),
        p,
        s,
        bytes(&visits),
        words(&b.packed)?,
        keys(&b.kept_scores),
        bytes(&b.visits),
        keys(&b.block_scores),
        if sorted { words(&b.block_order)? } else { Vec::new() },
    ];
    let head = [5, sorted as u32, k as u32, key(factor), entries.len() as u32, b.length as u32, evaluated as u32, skipped as u32];
    Some([&head[..], &laid(29, &slices), &slices.concat()].concat())
}

/// Whether the original finds the same.
fn original_agrees(g: &BuildInput, input: &SearchInput, entries: &[(u64, f32)], visits: &[u8], b: &SearchBuffers, evaluated: u64) -> bool {
    let d = original::Documents::new(g.dimension as usize, &g.documents.offsets, &input.components, &input.values);
    let theirs = original::Built::of_list(g.dimension as usize, &compare::against::of_model(&input.list));
    let before: Vec<u64> = (0..visits.len() as u64).filter(|&i| visits[i as usize] != 0).collect();
    let mut kept = original::Kept::new(input.k, entries, &before);
    let mut evaluator = original::evaluator(&d, &input.query_components, &input.query_values);
    original::search(&theirs, &d, &mut evaluator, &input.query_components, &input.query_values, input.k, input.factor, &mut kept, input.sorted);
    let found = kept.entries();
    let n = b.length as usize;
    found.iter().map(|e| (e.0, e.1.to_bits())).eq((0..n).map(|i| (b.packed[i], b.kept_scores[i].to_bits())))
        && (0..b.visits.len()).all(|i| kept.visited.contains(&i) == (b.visits[i] != 0))
        && bits(&theirs.scores(&input.query_components, &input.query_values)) == bits(&b.block_scores)
        && evaluated as usize == kept.visited.len() - before.len()
}
