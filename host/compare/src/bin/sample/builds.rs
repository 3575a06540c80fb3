//! Lists built: the original's answer, which is the plain reading's too, and how many cases have what is easily got wrong.
use crate::words::*;
use compare::against::{same_list, their_blocking, their_summary};
use compare::cases::*;
use compare::model::*;
use compare::model_build::*;
use compare::slips::Slip;
use std::collections::{BTreeMap, BTreeSet};

/// The words before the slices.
const HEAD: usize = 30;

/// Room of the program `replay`: postings, block offsets, terms of centroids, entries, components.
const ROOM: [usize; 5] = [60, 60, 500, 250, 28];

/// A choice's numbers as the C function takes them; what the choice does not look at is noise.
fn settings(r: &mut Random, g: &BuildInput) -> Vec<u32> {
    let noise = r.pick(&[0, 1, 2, 3, u64::MAX, 1 << 40]);
    let odd = key(any_float(r));
    let other = |least: u64| noise.max(least);
    let (blocking, size, fraction, minimum, cut) = match g.blocking {
        Blocking::Fixed { size } => (0, size, odd, noise, noise),
        Blocking::Exact { fraction, minimum } => (1, noise, key(fraction), minimum, noise),
        Blocking::Approximate { fraction, minimum, cut } => (other(2), noise, key(fraction), minimum, cut),
    };
    let (summarization, n, energy) = match g.summary {
        Summary::Fixed { size } => (0, size, odd),
        Summary::Energy { share } => (other(1), noise, key(share)),
    };
    let [b, s, m, c, z, n] = [blocking, size, minimum, cut, summarization, n].map(long);
    [&[6, g.dimension as u32][..], &b, &s, &[fraction], &m, &c, &z, &n, &[energy]].concat()
}

fn fits(g: &BuildInput, l: &List) -> bool {
    let terms: usize = g.centroids.iter().map(|&c| g.documents.terms(c).len()).sum();
    let needs = [g.ids.len().max(g.centroids.len()), l.block_offsets.len(), terms, l.summary_ids.len(), l.component_offsets.len()];
    needs.iter().zip(ROOM).all(|(n, room)| *n <= room)
}

fn case_of(r: &mut Random) -> Option<(BuildInput, Vec<u32>)> {
    let g = build_input(r);
    let right = build(Slip::None, &g, true, |_| true).ok()?;
    let d = &g.documents;
    let theirs = original::Documents::new(g.dimension as usize, &d.offsets, &d.components, &d.values);
    let l = original::build(&theirs, &g.ids, &g.centroids, their_blocking(g.blocking), their_summary(g.summary)).list();
    assert!(same_list(&right, &l), "the plain reading and the original differ");
    if !fits(&g, &right) {
        return None;
    }
    let slices = [
        words(&d.offsets)?,
        d.components.clone(),
        keys(&d.values),
        words(&g.ids)?,
        words(&g.centroids)?,
        words(&l.packed)?,
        words(&l.block_offsets)?,
        l.components.clone(),
        words(&l.component_offsets)?,
        l.ids.iter().map(|&i| i as u32).collect(),
        l.codes.iter().map(|&c| c as u32).collect(),
        keys(&l.minimums),
        keys(&l.steps),
    ];
    let all = [settings(r, &g), laid(HEAD, &slices), slices.concat()].concat();
    Some((g, all))
}

pub fn build_case(r: &mut Random) -> Option<Vec<u32>> {
    case_of(r).map(|c| c.1)
}

fn repeats(v: &[u64]) -> bool {
    v.iter().collect::<BTreeSet<_>>().len() < v.len()
}

/// What a case has, in words.
fn features(g: &BuildInput) -> Vec<&'static str> {
    let listed: Vec<_> = g.ids.iter().map(|&i| g.documents.terms(i)).collect();
    let values: Vec<f32> = listed.iter().flatten().map(|t| t.1).collect();
    let ties = listed.iter().any(|t| t.windows(2).any(|p| p[0].1.to_bits() == p[1].1.to_bits()));
    let blocking = match g.blocking {
        Blocking::Fixed { .. } => "blocks of a fixed size",
        Blocking::Exact { .. } => "clusters by dot product",
        Blocking::Approximate { .. } => "clusters by largest terms",
    };
    let summary = match g.summary {
        Summary::Fixed { .. } => "summaries of a fixed size",
        Summary::Energy { .. } => "summaries by energy",
    };
    let others = [
        (g.ids.is_empty(), "an empty list"),
        (repeats(&g.ids), "a repeated id"),
        (repeats(&g.centroids), "a repeated centroid"),
        (listed.iter().any(|t| t.is_empty()), "an empty document listed"),
        (values.iter().any(|v| v.to_bits() == 1 << 31), "-0 among the values"),
        (values.iter().any(|v| v.is_subnormal()), "a subnormal among the values"),
        (ties, "equal values side by side in a document"),
    ];
    [blocking, summary].into_iter().chain(others.into_iter().filter(|o| o.0).map(|o| o.1)).collect()
}

/// Adds what a case has to the counts.
pub fn count(r: &mut Random, counts: &mut BTreeMap<&'static str, u64>) {
    if let Some((g, _)) = case_of(r) {
        features(&g).into_iter().for_each(|f| *counts.entry(f).or_default() += 1);
    }
}
