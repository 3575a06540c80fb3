//! A plain reading of document 01's building: clusters, summaries, layout, every refusal in its order, and what each lent buffer holds
//! afterwards. Written from the document, like `model`.
use crate::model::*;
use crate::slips::Slip;
use std::cmp::Ordering;
use std::collections::{BTreeMap, BTreeSet, HashMap};

/// What a build is given.
#[derive(Clone, Debug)]
pub struct BuildInput {
    pub dimension: u64,
    pub documents: Documents,
    pub ids: Vec<u64>,
    pub centroids: Vec<u64>,
    pub blocking: Blocking,
    pub summary: Summary,
}

// ---- terms by value
fn falling(slip: Slip, mut terms: Terms) -> Terms {
    terms.sort_by(|a, b| {
        let tie = if slip == Slip::TiesToGreaterComponent { b.0.cmp(&a.0) } else { a.0.cmp(&b.0) };
        let values = if slip == Slip::SummaryZerosEqual { b.1.partial_cmp(&a.1).unwrap() } else { b.1.total_cmp(&a.1) };
        values.then(tie)
    });
    terms
}

fn largest(slip: Slip, cut: u64, terms: Terms) -> Terms {
    let mut all = falling(slip, terms);
    if slip == Slip::CutSmallestTerms {
        all.reverse();
    }
    all.truncate(cut.min(all.len() as u64) as usize);
    all
}

// ---- clusters: pairs (centroid's document, document)
fn nearest(slip: Slip, d: &Documents, centroids: &[u64], id: u64) -> u64 {
    let query = d.terms(id);
    let mut best = if slip == Slip::NoDotLastCentroid { centroids[centroids.len() - 1] } else { centroids[0] };
    let mut most = 0.0_f32;
    for &c in centroids {
        let x = dot(slip, &query, &d.terms(c));
        if x > most || (slip == Slip::ExactLastGreatest && x == most && x > 0.0) {
            most = x;
            best = c;
        }
    }
    best
}

/// The last greatest, as a place among those that compete.
fn nearly(slip: Slip, d: &Documents, cut: u64, competing: &[u64], id: u64) -> usize {
    let query = largest(slip, cut, d.terms(id));
    let mut best = 0;
    let mut most = f32::NEG_INFINITY;
    for (slot, &c) in competing.iter().enumerate() {
        let x = dot(slip, &query, &d.terms(c));
        let takes = if slip == Slip::FirstGreatestApproximate {
            slot == 0 || x.total_cmp(&most) == Ordering::Greater
        } else {
            x.total_cmp(&most) != Ordering::Less
        };
        if takes {
            most = x;
            best = slot;
        }
    }
    best
}

/// The centroids whose groups are of at most the minimum size: they dissolve. One that drew nothing has no group.
fn dissolved(slip: Slip, minimum: u64, pairs: &[(u64, u64)]) -> BTreeSet<u64> {
    let mut groups = BTreeMap::<u64, Vec<u64>>::new();
    for p in pairs {
        groups.entry(p.0).or_default().push(p.1);
    }
    let size = |g: &[u64]| {
        if slip == Slip::RepeatedIdCountsOnce {
            g.iter().collect::<BTreeSet<_>>().len() as u64
        } else {
            g.len() as u64
        }
    };
    let dissolves = |n: u64| if slip == Slip::DissolveBelowMinimum { n < minimum } else { n <= minimum };
    groups.into_iter().filter(|(_, g)| dissolves(size(g))).map(|(c, _)| c).collect()
}

fn exact(slip: Slip, d: &Documents, minimum: u64, centroids: &[u64], ids: &[u64]) -> Vec<(u64, u64)> {
    let known: BTreeSet<u64> = centroids.iter().copied().collect();
    let first: Vec<_> = ids
        .iter()
        .map(|&i| (if known.contains(&i) { i } else { nearest(slip, d, centroids, i) }, i))
        .collect();
    let gone = dissolved(slip, minimum, &first);
    let left: Vec<u64> = centroids.iter().copied().filter(|c| !gone.contains(c)).collect();
    let candidates = if slip == Slip::ExcludeDissolvedExact && !left.is_empty() { &left } else { centroids };
    let again = |pairs: Vec<(u64, u64)>, gone: &BTreeSet<u64>| -> Vec<(u64, u64)> {
        pairs
            .into_iter()
            .map(|(c, i)| {
                if !gone.contains(&c) {
                    (c, i)
                } else if slip == Slip::DissolvedTakesItself && known.contains(&i) {
                    (i, i)
                } else {
                    (nearest(slip, d, candidates, i), i)
                }
            })
            .collect()
    };
    let second = again(first, &gone);
    if slip == Slip::DissolveAgain {
        let gone = dissolved(slip, minimum, &second);
        let left: Vec<u64> = centroids.iter().copied().filter(|c| !gone.contains(c)).collect();
        let others = if left.is_empty() { centroids } else { &left };
        return second.into_iter().map(|(c, i)| if gone.contains(&c) { (nearest(slip, d, others, i), i) } else { (c, i) }).collect();
    }
    second
}

fn approximate(slip: Slip, d: &Documents, cut: u64, minimum: u64, centroids: &[u64], ids: &[u64]) -> Vec<(u64, u64)> {
    // a group goes by the centroid's document; the slip has it go by the slot
    let name = |slot: usize| if slip == Slip::GroupsBySlot { slot as u64 } else { centroids[slot] };
    let document = |name: u64| if slip == Slip::GroupsBySlot { centroids[name as usize] } else { name };
    let first: Vec<(u64, u64)> = ids.iter().map(|&i| (name(nearly(slip, d, cut, centroids, i)), i)).collect();
    let gone = dissolved(slip, minimum, &first);
    let drew: BTreeSet<u64> = first.iter().map(|p| p.0).collect();
    let left: Vec<u64> = (0..centroids.len())
        .filter(|&s| slip == Slip::AllCompeteAgain || !gone.contains(&name(s)))
        .filter(|&s| slip != Slip::SurvivorsWithoutGroupLeftOut || drew.contains(&name(s)))
        .map(|s| centroids[s])
        .collect();
    first
        .into_iter()
        .map(|(c, i)| {
            if !gone.contains(&c) {
                (document(c), i)
            } else if left.is_empty() {
                (centroids[0], i)
            } else {
                (left[nearly(slip, d, cut, &left, i)], i)
            }
        })
        .collect()
}

/// One block per centroid present, the centroids rising by their document, and the documents of each rising.
fn clusters(slip: Slip, centroids: &[u64], pairs: &[(u64, u64)]) -> Vec<Vec<u64>> {
    let mut groups = BTreeMap::<u64, Vec<u64>>::new();
    for &(c, i) in pairs {
        let key = if slip == Slip::CentroidsInSlotOrder { centroids.iter().position(|&x| x == c).unwrap() as u64 } else { c };
        groups.entry(key).or_default().push(i);
    }
    let mut blocks: Vec<Vec<u64>> = groups.into_values().collect();
    if slip != Slip::DocumentsInListOrder {
        blocks.iter_mut().for_each(|b| b.sort());
    }
    blocks
}

/// The documents in list order, and the block offsets.
fn blocked(slip: Slip, d: &Documents, ids: &[u64], centroids: &[u64], blocking: Blocking) -> (Vec<u64>, Vec<u64>) {
    let pairs = match blocking {
        Blocking::Fixed { size } => return (ids.to_vec(), fixed_offsets(slip, ids.len() as u64, size)),
        _ if ids.is_empty() => return (Vec::new(), Vec::new()),
        Blocking::Exact { minimum, .. } => exact(slip, d, minimum, centroids, ids),
        Blocking::Approximate { minimum, cut, .. } => approximate(slip, d, cut, minimum, centroids, ids),
    };
    let mut offsets = vec![0];
    let mut order = Vec::new();
    for block in clusters(slip, centroids, &pairs) {
        order.extend(block);
        offsets.push(order.len() as u64);
    }
    (order, offsets)
}

// ---- summaries
fn block_maximum(slip: Slip, d: &Documents, block: &[u64]) -> Terms {
    let mut found: Terms = Vec::new();
    let mut place = HashMap::new();
    for &i in block {
        for (c, v) in d.terms(i) {
            let Some(&at) = place.get(&c) else {
                place.insert(c, found.len());
                found.push((c, v));
                continue;
            };
            let m: &mut (u32, f32) = &mut found[at];
            let replaces = match slip {
                Slip::MaximumLaterEqual => v >= m.1,
                Slip::MaximumByTotalOrder => v.total_cmp(&m.1) == Ordering::Greater,
                _ => v > m.1,
            };
            if replaces {
                m.1 = v;
            }
        }
    }
    found
}

fn summary(slip: Slip, how: Summary, d: &Documents, block: &[u64]) -> Terms {
    let mut all = falling(slip, block_maximum(slip, d, block));
    match how {
        Summary::Fixed { size } => all.truncate(size.min(all.len() as u64) as usize),
        Summary::Energy { share } => {
            let mut summed = all.clone();
            if slip == Slip::EnergyTotalByComponent {
                summed.sort_by_key(|t| t.0);
            }
            let goal = summed.iter().fold(0.0_f32, |sum, t| sum + t.1) * share;
            let mut run = 0.0_f32;
            for i in 0..all.len() {
                run += all[i].1;
                let there = if slip == Slip::EnergyStrictly { run > goal } else { run >= goal };
                if there {
                    let more = if slip == Slip::EnergyOneLater { 2 } else { 1 };
                    all.truncate((i + more).min(all.len()));
                    break;
                }
            }
        }
    }
    all.sort_by_key(|t| t.0);
    all
}

/// Rising components; the entries of each in rising summary number.
fn layout(slip: Slip, summaries: &[Terms]) -> List {
    let mut l = List::default();
    let mut entries: Vec<(u32, u16, u8)> = Vec::new();
    for (b, s) in summaries.iter().enumerate() {
        let values: Vec<f32> = s.iter().map(|t| t.1).collect();
        let (low, step, codes) = quantized(slip, &values);
        l.minimums.push(low);
        l.steps.push(step);
        entries.extend(s.iter().zip(codes).map(|(t, code)| (t.0, b as u16, code)));
    }
    entries.sort_by_key(|e| (e.0, e.1));
    l.component_offsets.push(0);
    for (i, e) in entries.iter().enumerate() {
        if i == 0 || entries[i - 1].0 != e.0 {
            l.summary_components.push(e.0);
            l.component_offsets.push(i as u64);
        }
        *l.component_offsets.last_mut().unwrap() = i as u64 + 1;
        l.summary_ids.push(e.1);
        l.codes.push(e.2);
    }
    l
}

// ---- a build
/// The centroids that a build looks at: fixed blocking takes none.
fn used(slip: Slip, g: &BuildInput) -> &[u64] {
    match g.blocking {
        Blocking::Fixed { .. } if slip != Slip::UnusedCentroidsLookedAt => &[],
        _ => &g.centroids,
    }
}

/// Whether the terms of documents rise within the dimension, and every value keeps its bound.
fn terms_hold(g: &BuildInput, listed: &[u64]) -> bool {
    listed.iter().all(|&i| {
        let t = g.documents.terms(i);
        t.windows(2).all(|w| w[0].0 < w[1].0) && t.iter().all(|t| (t.0 as u64) < g.dimension && in_bound(t.1))
    })
}

/// What the input is refused for, before a buffer is looked at: 8, 6, 14, 1, 2, 3 or 5, 8.
fn input_refusal(slip: Slip, g: &BuildInput) -> Option<u64> {
    let d = &g.documents;
    let n = g.ids.len();
    if n > LIST_LIMIT || g.dimension == 0 || g.dimension > DIMENSION_LIMIT {
        return Some(8);
    }
    let mut listed = g.ids.clone();
    listed.extend(used(slip, g));
    let unknown = listed.iter().any(|&i| i >= d.count());
    if slip == Slip::TermsBeforeDocuments && !d.offsets_wrong() {
        let known: Vec<u64> = listed.iter().copied().filter(|&i| i < d.count()).collect();
        if !terms_hold(g, &known) {
            return Some(14);
        }
    }
    if d.offsets_wrong() || unknown {
        return Some(6);
    }
    if slip == Slip::AllDocumentsLookedAt {
        listed = (0..d.count()).collect();
    }
    if !terms_hold(g, &listed) {
        return Some(14);
    }
    if g.ids.iter().any(|&i| d.range(i).0 >= START_LIMIT) {
        return Some(1);
    }
    if g.ids.iter().any(|&i| d.range(i).1 - d.range(i).0 > LENGTH_LIMIT) {
        return Some(2);
    }
    match g.blocking {
        Blocking::Fixed { size: 0 } => Some(3),
        Blocking::Fixed { size } => (n as u64 / size > BLOCK_LIMIT).then_some(8),
        Blocking::Exact { fraction, .. } | Blocking::Approximate { fraction, .. } => {
            let count = centroid_count(slip, fraction, n);
            let asked = n > 0 || slip == Slip::CentroidsOfEmptyList;
            (asked && (count > BLOCK_LIMIT || g.centroids.len() as u64 != count.min(n as u64))).then_some(5)
        }
    }
}

/// The list that is built, or the number of the refusal; `scratch` says whether the scratch is long enough, and `room` whether a list
/// fits the output.
pub fn build(slip: Slip, g: &BuildInput, scratch: bool, room: impl Fn(&List) -> bool) -> Result<List, u64> {
    if let Some(n) = input_refusal(slip, g) {
        return Err(n);
    }
    if !scratch && slip != Slip::EmptySummaryBeforeScratch {
        return Err(4);
    }
    let d = &g.documents;
    let (order, offsets) = blocked(slip, d, &g.ids, &g.centroids, g.blocking);
    let summaries: Vec<Terms> =
        offsets.windows(2).map(|w| summary(slip, g.summary, d, &order[w[0] as usize..w[1] as usize])).collect();
    let empty = summaries.iter().any(|s| s.is_empty());
    if empty && slip != Slip::OutputBeforeEmptySummary {
        return Err(7);
    }
    if !scratch {
        return Err(4);
    }
    let some: Vec<Terms> = summaries.iter().filter(|s| !s.is_empty()).cloned().collect();
    let mut l = layout(slip, &some);
    l.postings = order.iter().map(|&i| pack(d.range(i).0, d.range(i).1).unwrap()).collect();
    l.block_offsets = offsets;
    if !room(&l) {
        return Err(4);
    }
    if empty {
        return Err(7);
    }
    Ok(l)
}

// ---- lent buffers
/// The scratch of a build, by role.
#[derive(Clone, Debug, Default)]
pub struct Scratch {
    pub order: Vec<u64>,
    pub blocks: Vec<u64>,
    pub sorted: Vec<u64>,
    pub known: Vec<u64>,
    pub taken: Vec<u64>,
    pub counts: Vec<u64>,
    pub starts: Vec<u64>,
    pub slots: Vec<u64>,
    pub weights: Vec<f32>,
    pub sums: Vec<f32>,
    pub keys: Vec<u64>,
}

/// How many numbers each scratch buffer needs, in the order of `Scratch`: docs/SCRATCH.md.
pub fn scratch_needs(g: &BuildInput) -> [usize; 11] {
    let n = g.ids.len();
    let used = used(Slip::None, g);
    let c = used.len();
    let d = g.dimension as usize;
    let t = used.iter().map(|&i| g.documents.terms(i).len()).sum();
    [n, n + 1, n, c, n, c.max(d), d + 1, t, t, c.max(d), d]
}

impl Scratch {
    pub fn lengths(&self) -> [usize; 11] {
        [
            self.order.len(),
            self.blocks.len(),
            self.sorted.len(),
            self.known.len(),
            self.taken.len(),
            self.counts.len(),
            self.starts.len(),
            self.slots.len(),
            self.weights.len(),
            self.sums.len(),
            self.keys.len(),
        ]
    }

    pub fn clear(&mut self) {
        for b in [
            &mut self.order,
            &mut self.blocks,
            &mut self.sorted,
            &mut self.known,
            &mut self.taken,
            &mut self.counts,
            &mut self.starts,
            &mut self.slots,
            &mut self.keys,
        ] {
            b.fill(0);
        }
        self.weights.fill(0.0);
        self.sums.fill(0.0);
    }
}

/// What a build changes: the output buffers, as long as a caller lends them, and the scratch.
#[derive(Clone, Debug, Default)]
pub struct BuildBuffers {
    pub output: List,
    pub scratch: Scratch,
}

/// How much of each output buffer an accepted build has written.
#[derive(Clone, Copy, Debug, Default, PartialEq, Eq)]
pub struct Written {
    pub postings: u64,
    pub block_offsets: u64,
    pub summary_components: u64,
    pub entries: u64,
    pub summaries: u64,
}

fn fits(l: &List, room: &List) -> bool {
    l.postings.len() <= room.postings.len()
        && l.block_offsets.len() <= room.block_offsets.len()
        && l.summary_components.len() <= room.summary_components.len()
        && l.component_offsets.len() <= room.component_offsets.len()
        && l.summary_ids.len() <= room.summary_ids.len()
        && l.codes.len() <= room.codes.len()
        && l.minimums.len() <= room.minimums.len()
        && l.steps.len() <= room.steps.len()
}

/// A result in front of a buffer; past it nothing changes.
fn lay<T: Copy + Default>(slip: Slip, result: &[T], buffer: &mut [T]) {
    buffer[..result.len()].copy_from_slice(result);
    if slip == Slip::AcceptedClearsRest {
        buffer[result.len()..].fill(T::default());
    }
}

fn clear_output(o: &mut List) {
    o.postings.fill(0);
    o.block_offsets.fill(0);
    o.summary_components.fill(0);
    o.component_offsets.fill(0);
    o.summary_ids.fill(0);
    o.codes.fill(0);
    o.minimums.fill(0.0);
    o.steps.fill(0.0);
}

/// A build over lent buffers: the sizes of its result, or the number of its refusal.
pub fn build_into(slip: Slip, g: &BuildInput, b: &mut BuildBuffers) -> Result<Written, u64> {
    let enough = input_refusal(slip, g).is_some() || scratch_needs(g).iter().zip(b.scratch.lengths()).all(|(need, lent)| *need <= lent);
    let built = build(slip, g, enough, |l| fits(l, &b.output));
    if !(built.is_ok() && slip == Slip::AcceptedLeavesScratch) {
        b.scratch.clear();
    }
    match built {
        Err(n) => {
            if slip != Slip::RefusedLeavesOutput {
                clear_output(&mut b.output);
            }
            Err(n)
        }
        Ok(l) => {
            let o = &mut b.output;
            lay(slip, &l.postings, &mut o.postings);
            lay(slip, &l.block_offsets, &mut o.block_offsets);
            lay(slip, &l.summary_components, &mut o.summary_components);
            lay(slip, &l.component_offsets, &mut o.component_offsets);
            lay(slip, &l.summary_ids, &mut o.summary_ids);
            lay(slip, &l.codes, &mut o.codes);
            lay(slip, &l.minimums, &mut o.minimums);
            lay(slip, &l.steps, &mut o.steps);
            Ok(Written {
                postings: l.postings.len() as u64,
                block_offsets: l.block_offsets.len() as u64,
                summary_components: l.summary_components.len() as u64,
                entries: l.summary_ids.len() as u64,
                summaries: l.minimums.len() as u64,
            })
        }
    }
}
