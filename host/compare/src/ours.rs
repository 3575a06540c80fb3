//! The proved functions, called as a C host calls them, with a guard on both sides of every buffer that they may write.
use crate::model::{Found, SearchBuffers, SearchInput};
use crate::model::{Blocking, List, Summary};
use crate::model_build::Scratch;
use crate::model_build::{BuildBuffers, BuildInput, Written};
use merino::raw::{merino_push, merino_search};

const GUARD: usize = 8;

/// A copy of a buffer between two guards.
struct Guarded<T> {
    all: Vec<T>,
    fill: T,
}

impl<T: Copy + PartialEq> Guarded<T> {
    fn new(data: &[T], fill: T) -> Self {
        let mut all = vec![fill; GUARD];
        all.extend_from_slice(data);
        all.extend(std::iter::repeat(fill).take(GUARD));
        Guarded { all, fill }
    }
    fn at(&mut self) -> *mut T {
        self.all[GUARD..].as_mut_ptr()
    }
    fn len(&self) -> usize {
        self.all.len() - 2 * GUARD
    }
    /// What lies between the guards, which must be as they were.
    fn back(self) -> Vec<T> {
        let n = self.len();
        assert!(self.all[..GUARD].iter().chain(&self.all[GUARD + n..]).all(|x| *x == self.fill), "a guard was written");
        self.all[GUARD..GUARD + n].to_vec()
    }
}

pub fn push(k: u64, length: &mut u64, packed: &mut Vec<u64>, scores: &mut Vec<f32>, entry: (u64, f32)) -> u64 {
    let mut p = Guarded::new(packed, 0xdead_beef);
    let mut s = Guarded::new(scores, -7.5);
    let n = unsafe { merino_push(k, length, p.at(), p.len(), s.at(), s.len(), entry.0, entry.1) };
    *packed = p.back();
    *scores = s.back();
    n
}

pub fn search(g: &SearchInput, b: &mut SearchBuffers) -> Found {
    let mut packed = Guarded::new(&b.packed, 0xdead_beef);
    let mut scores = Guarded::new(&b.kept_scores, -7.5);
    let mut visits = Guarded::new(&b.visits, 0xaa);
    let mut block_scores = Guarded::new(&b.block_scores, -7.5);
    let mut block_order = Guarded::new(&b.block_order, 0xdead_beef);
    let (mut position, mut evaluated, mut skipped) = (77, 77, 77);
    let l = &g.list;
    let number = unsafe {
        merino_search(
            g.sorted as u64,
            g.query_components.as_ptr(), g.query_components.len(),
            g.query_values.as_ptr(), g.query_values.len(),
            g.k,
            g.factor,
            g.components.as_ptr(), g.components.len(),
            g.values.as_ptr(), g.values.len(),
            l.postings.as_ptr(), l.postings.len(),
            l.block_offsets.as_ptr(), l.block_offsets.len(),
            l.summary_components.as_ptr(), l.summary_components.len(),
            l.component_offsets.as_ptr(), l.component_offsets.len(),
            l.summary_ids.as_ptr(), l.summary_ids.len(),
            l.codes.as_ptr(), l.codes.len(),
            l.minimums.as_ptr(), l.minimums.len(),
            l.steps.as_ptr(), l.steps.len(),
            &mut b.length,
            packed.at(), packed.len(),
            scores.at(), scores.len(),
            visits.at(), visits.len(),
            block_scores.at(), block_scores.len(),
            block_order.at(), block_order.len(),
            &mut position,
            &mut evaluated,
            &mut skipped,
        )
    };
    b.packed = packed.back();
    b.kept_scores = scores.back();
    b.visits = visits.back();
    b.block_scores = block_scores.back();
    b.block_order = block_order.back();
    match number {
        0 => {
            assert_eq!(position, 0);
            Found::Done { kept: b.length, evaluated, skipped }
        }
        13 | 14 => {
            assert_eq!((evaluated, skipped), (0, 0));
            Found::Stopped { refusal: number, position }
        }
        n => {
            assert_eq!((position, evaluated, skipped), (0, 0, 0));
            Found::Refused(n)
        }
    }
}

/// The same without guards, and how many seconds the call took.
pub fn timed_search(g: &SearchInput, b: &mut SearchBuffers) -> (Found, f64) {
    let (mut position, mut evaluated, mut skipped) = (0, 0, 0);
    let l = &g.list;
    let start = std::time::Instant::now();
    let number = unsafe {
        merino_search(
            g.sorted as u64,
            g.query_components.as_ptr(), g.query_components.len(),
            g.query_values.as_ptr(), g.query_values.len(),
            g.k,
            g.factor,
            g.components.as_ptr(), g.components.len(),
            g.values.as_ptr(), g.values.len(),
            l.postings.as_ptr(), l.postings.len(),
            l.block_offsets.as_ptr(), l.block_offsets.len(),
            l.summary_components.as_ptr(), l.summary_components.len(),
            l.component_offsets.as_ptr(), l.component_offsets.len(),
            l.summary_ids.as_ptr(), l.summary_ids.len(),
            l.codes.as_ptr(), l.codes.len(),
            l.minimums.as_ptr(), l.minimums.len(),
            l.steps.as_ptr(), l.steps.len(),
            &mut b.length,
            b.packed.as_mut_ptr(), b.packed.len(),
            b.kept_scores.as_mut_ptr(), b.kept_scores.len(),
            b.visits.as_mut_ptr(), b.visits.len(),
            b.block_scores.as_mut_ptr(), b.block_scores.len(),
            b.block_order.as_mut_ptr(), b.block_order.len(),
            &mut position,
            &mut evaluated,
            &mut skipped,
        )
    };
    let took = start.elapsed().as_secs_f64();
    assert_eq!(number, 0);
    (Found::Done { kept: b.length, evaluated, skipped }, took)
}

/// A choice's numbers: blocking, block size, fraction, minimum size, cut. What a choice does not look at is noise.
fn blocking_numbers(b: Blocking, noise: u64) -> (u64, u64, f32, u64, u64) {
    let float = f32::from_bits(noise as u32);
    match b {
        Blocking::Fixed { size } => (0, size, float, noise, noise),
        Blocking::Exact { fraction, minimum } => (1, noise, fraction, minimum, noise),
        Blocking::Approximate { fraction, minimum, cut } => (noise.max(2), noise, fraction, minimum, cut),
    }
}
fn summary_numbers(s: Summary, noise: u64) -> (u64, u64, f32) {
    match s {
        Summary::Fixed { size } => (0, size, f32::from_bits(noise as u32)),
        Summary::Energy { share } => (noise.max(1), noise, share),
    }
}

/// A build with guards.
pub fn build(g: &BuildInput, b: &mut BuildBuffers, noise: u64) -> Option<Result<Written, u64>> {
    const N: u64 = 0xdead_beef;
    const F: f32 = -7.5;
    let (blocking, block_size, fraction, minimum, cut) = blocking_numbers(g.blocking, noise);
    let (summarization, n_components, energy) = summary_numbers(g.summary, noise);
    let (o, s) = (&b.output, &b.scratch);
    let mut postings = Guarded::new(&o.postings, N);
    let mut block_offsets = Guarded::new(&o.block_offsets, N);
    let mut components = Guarded::new(&o.summary_components, N as u32);
    let mut component_offsets = Guarded::new(&o.component_offsets, N);
    let mut ids = Guarded::new(&o.summary_ids, 0xbeef);
    let mut codes = Guarded::new(&o.codes, 0xaa);
    let mut minimums = Guarded::new(&o.minimums, F);
    let mut steps = Guarded::new(&o.steps, F);
    let mut order = Guarded::new(&s.order, N);
    let mut blocks = Guarded::new(&s.blocks, N);
    let mut sorted = Guarded::new(&s.sorted, N);
    let mut known = Guarded::new(&s.known, N);
    let mut taken = Guarded::new(&s.taken, N);
    let mut counts = Guarded::new(&s.counts, N);
    let mut starts = Guarded::new(&s.starts, N);
    let mut slots = Guarded::new(&s.slots, N);
    let mut weights = Guarded::new(&s.weights, F);
    let mut sums = Guarded::new(&s.sums, F);
    let mut keys = Guarded::new(&s.keys, N);
    let mut w = [77u64; 5];
    let [w0, w1, w2, w3, w4] = &mut w;
    let d = &g.documents;
    let number = unsafe {
        merino::raw::merino_build(
            g.dimension, blocking, block_size, fraction, minimum, cut, summarization, n_components, energy,
            d.offsets.as_ptr(), d.offsets.len(),
            d.components.as_ptr(), d.components.len(),
            d.values.as_ptr(), d.values.len(),
            g.ids.as_ptr(), g.ids.len(),
            g.centroids.as_ptr(), g.centroids.len(),
            postings.at(), postings.len(),
            block_offsets.at(), block_offsets.len(),
            components.at(), components.len(),
            component_offsets.at(), component_offsets.len(),
            ids.at(), ids.len(),
            codes.at(), codes.len(),
            minimums.at(), minimums.len(),
            steps.at(), steps.len(),
            order.at(), order.len(),
            blocks.at(), blocks.len(),
            sorted.at(), sorted.len(),
            known.at(), known.len(),
            taken.at(), taken.len(),
            counts.at(), counts.len(),
            starts.at(), starts.len(),
            slots.at(), slots.len(),
            weights.at(), weights.len(),
            sums.at(), sums.len(),
            keys.at(), keys.len(),
            w0, w1, w2, w3, w4,
        )
    };
    b.output = List {
        postings: postings.back(),
        block_offsets: block_offsets.back(),
        summary_components: components.back(),
        component_offsets: component_offsets.back(),
        summary_ids: ids.back(),
        codes: codes.back(),
        minimums: minimums.back(),
        steps: steps.back(),
    };
    b.scratch = Scratch {
        order: order.back(),
        blocks: blocks.back(),
        sorted: sorted.back(),
        known: known.back(),
        taken: taken.back(),
        counts: counts.back(),
        starts: starts.back(),
        slots: slots.back(),
        weights: weights.back(),
        sums: sums.back(),
        keys: keys.back(),
    };
    let [postings, block_offsets, summary_components, entries, summaries] = w;
    let written = Written { postings, block_offsets, summary_components, entries, summaries };
    Some(if number == 0 {
        Ok(written)
    } else {
        assert_eq!(written, Written::default(), "a refused build writes no numbers");
        Err(number)
    })
}
