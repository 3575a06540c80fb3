//! A plain reading of document 01, written from the document alone: slow, with vectors, and with nothing in common with the proved
//! code. Each function takes what a call is given and answers what it must answer, refusals and buffers included.
//!
//! This file has the leaves, the kept list and searching; `model_build` has building. `Slip` makes one deliberate mistake.
use crate::slips::Slip;
use std::cmp::Ordering;

#[derive(Clone, Debug, Default)]
pub struct Documents {
    pub offsets: Vec<u64>,
    pub components: Vec<u32>,
    pub values: Vec<f32>,
}

#[derive(Clone, Copy, Debug, PartialEq)]
pub enum Blocking {
    Fixed { size: u64 },
    Exact { fraction: f32, minimum: u64 },
    Approximate { fraction: f32, minimum: u64, cut: u64 },
}

#[derive(Clone, Copy, Debug, PartialEq)]
pub enum Summary {
    Fixed { size: u64 },
    Energy { share: f32 },
}

/// A posting list, built or to be searched.
#[derive(Clone, Debug, Default)]
pub struct List {
    pub postings: Vec<u64>,
    pub block_offsets: Vec<u64>,
    pub summary_components: Vec<u32>,
    pub component_offsets: Vec<u64>,
    pub summary_ids: Vec<u16>,
    pub codes: Vec<u8>,
    pub minimums: Vec<f32>,
    pub steps: Vec<f32>,
}

pub const LIST_LIMIT: usize = 16_777_216;
pub const BLOCK_LIMIT: u64 = 65_535;
pub const DIMENSION_LIMIT: u64 = 1_048_575;
pub const START_LIMIT: u64 = 1 << 48;
pub const LENGTH_LIMIT: u64 = 65_535;

pub fn in_bound(v: f32) -> bool {
    v.is_finite() && v.abs() <= 4_294_967_296.0
}

pub fn rises(components: &[u32]) -> bool {
    components.windows(2).all(|w| w[0] < w[1])
}

// ---- packing
pub fn pack(start: u64, end: u64) -> Result<u64, u64> {
    let length = end.saturating_sub(start);
    if start >= START_LIMIT {
        return Err(1);
    }
    if length > LENGTH_LIMIT {
        return Err(2);
    }
    Ok(start * 65_536 + length)
}

pub fn start_of(packed: u64) -> u64 {
    packed / 65_536
}

pub fn length_of(packed: u64) -> u64 {
    packed % 65_536
}

// ---- the kept list
fn scores_order(slip: Slip, a: f32, b: f32) -> Ordering {
    if slip == Slip::ZerosEqualInOrder && a == b {
        return Ordering::Equal;
    }
    a.total_cmp(&b)
}

/// Whether an entry is strictly better than another.
pub fn better(slip: Slip, a: (u64, f32), b: (u64, f32)) -> bool {
    match scores_order(slip, a.1, b.1) {
        Ordering::Greater => true,
        Ordering::Less => false,
        Ordering::Equal if slip == Slip::GreaterPackedFirst => a.0 > b.0,
        Ordering::Equal => a.0 < b.0,
    }
}

/// The list with an entry more, cut to k.
pub fn keep(slip: Slip, k: u64, kept: &mut Vec<(u64, f32)>, entry: (u64, f32)) {
    if kept.len() as u64 == k {
        let worst = kept[kept.len() - 1];
        if !better(slip, entry, worst) {
            return;
        }
        kept.pop();
    }
    let at = kept.iter().position(|&f| better(slip, entry, f)).unwrap_or(kept.len());
    kept.insert(at, entry);
}

/// Refusal 12's part on what is kept.
pub fn kept_wrong(k: u64, length: u64, packed: &[u64], scores: &[f32]) -> bool {
    if length > k || length > packed.len() as u64 || length > scores.len() as u64 {
        return true;
    }
    let n = length as usize;
    scores[..n].iter().any(|s| s.is_nan())
        || (1..n).any(|i| better(Slip::None, (packed[i], scores[i]), (packed[i - 1], scores[i - 1])))
}

/// A push: 0 or the number of its refusal; the buffers change where it is accepted.
pub fn push(slip: Slip, k: u64, length: &mut u64, packed: &mut [u64], scores: &mut [f32], entry: (u64, f32)) -> u64 {
    if k == 0 {
        return 11;
    }
    if kept_wrong(k, *length, packed, scores) || entry.1.is_nan() {
        return 12;
    }
    let need = (*length + 1).min(k);
    if (packed.len() as u64) < need || (scores.len() as u64) < need {
        return 4;
    }
    let n = *length as usize;
    let mut kept: Vec<_> = packed[..n].iter().copied().zip(scores[..n].iter().copied()).collect();
    keep(slip, k, &mut kept, entry);
    for (i, &(p, s)) in kept.iter().enumerate() {
        packed[i] = p;
        scores[i] = s;
    }
    *length = kept.len() as u64;
    0
}

// ---- quantizing
fn least_and_greatest(slip: Slip, values: &[f32]) -> (f32, f32) {
    let mut low = values[0];
    let mut high = values[0];
    for &v in values {
        if slip == Slip::LeastNumeric {
            if v < low {
                low = v;
            }
        } else if v.total_cmp(&low) == Ordering::Less {
            low = v;
        }
        if v.total_cmp(&high) == Ordering::Greater {
            high = v;
        }
    }
    (low, high)
}

/// Ties away, then cut into a byte.
fn to_byte(slip: Slip, q: f32) -> u8 {
    if q.is_nan() {
        return 0;
    }
    // the whole part and what is left are exact
    let whole = match slip {
        Slip::RoundFloorOfHalf => (q + 0.5).floor(),
        Slip::RoundHalfDown => (q - 0.5).ceil(),
        _ => {
            let t = q.trunc();
            let rest = (q - t).abs();
            if rest >= 0.5 {
                t + 1.0_f32.copysign(q)
            } else {
                t
            }
        }
    };
    if whole <= 0.0 {
        0
    } else if whole >= 255.0 {
        255
    } else {
        whole as u8
    }
}

pub fn read_back(slip: Slip, least: f32, step: f32, code: u8) -> f32 {
    if slip == Slip::ReadBackWithoutLeast {
        return code as f32 * step;
    }
    code as f32 * step + least
}

/// Least, step and codes of values that are not empty.
pub fn quantized(slip: Slip, values: &[f32]) -> (f32, f32, Vec<u8>) {
    let (low, high) = least_and_greatest(slip, values);
    let step = (high - low) / if slip == Slip::StepOver256 { 256.0 } else { 255.0 };
    (low, step, values.iter().map(|&v| to_byte(slip, (v - low) / step)).collect())
}

pub fn quantize(slip: Slip, values: &[f32], codes: &mut [u8]) -> Result<(f32, f32), u64> {
    if values.is_empty() {
        return Err(7);
    }
    if values.iter().any(|&v| !in_bound(v)) {
        return Err(14);
    }
    if codes.len() < values.len() {
        return Err(4);
    }
    let (low, step, found) = quantized(slip, values);
    codes[..found.len()].copy_from_slice(&found);
    Ok((low, step))
}

// ---- blocking
pub fn fixed_offsets(slip: Slip, n: u64, size: u64) -> Vec<u64> {
    let blocks = if slip == Slip::BlocksRoundedUp { n.div_ceil(size) } else { n / size };
    let mut offsets: Vec<u64> = (0..blocks).map(|i| i * size).collect();
    if slip == Slip::ShortListOneBlock && offsets.is_empty() && n > 0 {
        offsets.push(0);
    }
    offsets.push(n);
    offsets
}

pub fn fixed_size_blocking(slip: Slip, n: u64, size: u64, buffer: &mut [u64]) -> Result<u64, u64> {
    if n > LIST_LIMIT as u64 {
        return Err(8);
    }
    if size == 0 {
        return Err(3);
    }
    if n / size > BLOCK_LIMIT {
        return Err(8);
    }
    let offsets = fixed_offsets(slip, n, size);
    if buffer.len() < offsets.len() {
        return Err(4);
    }
    buffer[..offsets.len()].copy_from_slice(&offsets);
    Ok(offsets.len() as u64)
}

pub fn centroid_count(slip: Slip, fraction: f32, n: usize) -> u64 {
    let product = if slip == Slip::CountInDouble { fraction as f64 * n as f64 } else { (fraction * n as f32) as f64 };
    let whole = if product.is_nan() || product < 0.0 { 0 } else { product as u64 };
    whole.max(1)
}

// ---- documents
pub type Terms = Vec<(u32, f32)>;

impl Documents {
    pub fn count(&self) -> u64 {
        self.offsets.len().saturating_sub(1) as u64
    }

    pub fn range(&self, id: u64) -> (u64, u64) {
        (self.offsets[id as usize], self.offsets[id as usize + 1])
    }

    pub fn terms(&self, id: u64) -> Terms {
        let (a, b) = self.range(id);
        (a as usize..b as usize).map(|i| (self.components[i], self.values[i])).collect()
    }

    pub fn offsets_wrong(&self) -> bool {
        self.offsets.first() != Some(&0)
            || self.offsets.windows(2).any(|w| w[0] > w[1])
            || self.offsets.last() != Some(&(self.components.len() as u64))
            || self.components.len() != self.values.len()
    }
}

/// Over the query's terms as they come, from +0.
pub fn dot(slip: Slip, query: &[(u32, f32)], terms: &[(u32, f32)]) -> f32 {
    let mut sum = 0.0_f32;
    if slip == Slip::SumsOverDocumentOrder {
        for &(c, v) in terms {
            for &(q, w) in query {
                if q == c {
                    sum += v * w;
                }
            }
        }
        return sum;
    }
    for &(q, w) in query {
        for &(c, v) in terms {
            if c == q {
                sum += v * w;
            }
        }
    }
    sum
}

// ---- searching
#[derive(Clone, Debug)]
pub struct SearchInput {
    pub query_components: Vec<u32>,
    pub query_values: Vec<f32>,
    pub k: u64,
    pub factor: f32,
    pub components: Vec<u32>,
    pub values: Vec<f32>,
    pub list: List,
    pub sorted: bool,
}

/// What a search changes.
#[derive(Clone, Debug)]
pub struct SearchBuffers {
    pub length: u64,
    pub packed: Vec<u64>,
    pub kept_scores: Vec<f32>,
    pub visits: Vec<u8>,
    pub block_scores: Vec<f32>,
    pub block_order: Vec<u64>,
}

#[derive(Clone, Copy, Debug, PartialEq, Eq)]
pub enum Found {
    Refused(u64),
    Stopped { refusal: u64, position: u64 },
    Done { kept: u64, evaluated: u64, skipped: u64 },
}

pub fn list_wrong(l: &List) -> bool {
    let summaries = l.minimums.len();
    if summaries > BLOCK_LIMIT as usize || l.postings.len() > LIST_LIMIT {
        return true;
    }
    if summaries > 0 {
        if l.block_offsets.len() != summaries + 1
            || l.block_offsets.windows(2).any(|w| w[0] > w[1])
            || l.block_offsets[summaries] > l.postings.len() as u64
        {
            return true;
        }
    }
    if l.steps.len() != summaries || l.summary_ids.len() != l.codes.len() || l.component_offsets.len() != l.summary_components.len() + 1 {
        return true;
    }
    if !rises(&l.summary_components)
        || l.component_offsets[0] != 0
        || l.component_offsets.windows(2).any(|w| w[0] > w[1])
        || *l.component_offsets.last().unwrap() != l.summary_ids.len() as u64
    {
        return true;
    }
    if l.summary_ids.iter().any(|&i| i as usize >= summaries) {
        return true;
    }
    for w in l.component_offsets.windows(2) {
        if l.summary_ids[w[0] as usize..w[1] as usize].windows(2).any(|p| p[0] >= p[1]) {
            return true;
        }
    }
    l.minimums.iter().any(|&m| !in_bound(m)) || l.steps.iter().any(|&s| !(s.is_finite() && (0.0..=4_294_967_296.0).contains(&s)))
}

pub fn block_scores(slip: Slip, l: &List, query_components: &[u32], query_values: &[f32]) -> Vec<f32> {
    let mut scores = vec![0.0_f32; l.minimums.len()];
    for (&q, &w) in query_components.iter().zip(query_values) {
        if let Ok(i) = l.summary_components.binary_search(&q) {
            for e in l.component_offsets[i] as usize..l.component_offsets[i + 1] as usize {
                let s = l.summary_ids[e] as usize;
                scores[s] += read_back(slip, l.minimums[s], l.steps[s], l.codes[e]) * w;
            }
        }
    }
    scores
}

pub fn search(slip: Slip, g: &SearchInput, b: &mut SearchBuffers) -> Found {
    let l = &g.list;
    if g.k == 0 {
        return Found::Refused(11);
    }
    if g.query_components.len() != g.query_values.len() || !rises(&g.query_components) || g.query_values.iter().any(|&v| !in_bound(v)) {
        return Found::Refused(10);
    }
    if g.components.len() != g.values.len() {
        return Found::Refused(6);
    }
    if list_wrong(l) {
        return Found::Refused(9);
    }
    if kept_wrong(g.k, b.length, &b.packed, &b.kept_scores) {
        return Found::Refused(12);
    }
    let terms = g.components.len();
    let n = l.minimums.len();
    if (b.packed.len() as u64) < g.k
        || (b.kept_scores.len() as u64) < g.k
        || b.visits.len() < terms + 1
        || b.block_scores.len() < n
        || (g.sorted && b.block_order.len() < n)
    {
        return Found::Refused(4);
    }
    let scores = block_scores(slip, l, &g.query_components, &g.query_values);
    b.block_scores[..n].copy_from_slice(&scores);
    let mut order: Vec<usize> = (0..n).collect();
    if g.sorted {
        order.sort_by(|&i, &j| {
            let tie = if slip == Slip::LastOfEqualScoresFirst { j.cmp(&i) } else { i.cmp(&j) };
            scores[j].total_cmp(&scores[i]).then(tie)
        });
        for (place, &block) in b.block_order.iter_mut().zip(&order) {
            *place = block as u64;
        }
    }
    let m = b.length as usize;
    let mut kept: Vec<(u64, f32)> = b.packed[..m].iter().copied().zip(b.kept_scores[..m].iter().copied()).collect();
    let (mut evaluated, mut skipped) = (0, 0);
    let mut stopped = None;
    let worst_at_first = kept.last().map(|e| e.1);
    let full_at_first = kept.len() as u64 == g.k;
    let query: Terms = g.query_components.iter().copied().zip(g.query_values.iter().copied()).collect();
    'blocks: for &block in &order {
        let (from, to) = (l.block_offsets[block] as usize, l.block_offsets[block + 1] as usize);
        let worst = if slip == Slip::WorstOncePerList { worst_at_first } else { kept.last().map(|e| e.1) };
        let full = match slip {
            Slip::WorstOncePerList => full_at_first,
            Slip::SkipBeforeFull => !kept.is_empty(),
            _ => kept.len() as u64 == g.k,
        };
        if let (true, Some(worst)) = (full, worst) {
            let bar = g.factor * worst;
            if scores[block] < bar || (slip == Slip::SkipAtMost && scores[block] == bar) {
                skipped += 1;
                if slip == Slip::MarkSkipped {
                    for p in &l.postings[from..to] {
                        if let Some(v) = b.visits.get_mut(start_of(*p) as usize) {
                            *v = 1;
                        }
                    }
                }
                continue;
            }
        }
        for position in from..to {
            let packed = l.postings[position];
            let (start, length) = (start_of(packed) as usize, length_of(packed) as usize);
            if start <= terms && b.visits[start] != 0 {
                if slip == Slip::CountVisited {
                    evaluated += 1;
                }
                if slip != Slip::MarkByPosting || length > 0 {
                    continue;
                }
            }
            if start > terms || start + length > terms {
                stopped = Some((13, position as u64));
                break 'blocks;
            }
            let (cs, vs) = (&g.components[start..start + length], &g.values[start..start + length]);
            if !rises(cs) || vs.iter().any(|&v| !in_bound(v)) {
                stopped = Some((14, position as u64));
                break 'blocks;
            }
            let page: Terms = cs.iter().copied().zip(vs.iter().copied()).collect();
            let score = dot(Slip::None, &query, &page);
            evaluated += 1;
            if slip != Slip::NoVisit {
                b.visits[start] = 1;
            }
            keep(slip, g.k, &mut kept, (packed, score));
        }
    }
    for (i, &(p, s)) in kept.iter().enumerate() {
        b.packed[i] = p;
        b.kept_scores[i] = s;
    }
    b.length = kept.len() as u64;
    match stopped {
        Some((refusal, position)) => Found::Stopped { refusal, position },
        None => Found::Done { kept: b.length, evaluated, skipped },
    }
}
