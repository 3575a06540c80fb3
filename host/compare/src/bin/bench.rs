//! bench [SECONDS [SIZE ..]]: the original and the proved functions in one run, on the same inputs, as ratios ours / original; results
//! must be equal before a time counts.
//! bench instructions SIZE: one build and one search of each kind on both sides, for callgrind; the original fetches ahead.
//!
//! The original is the source as it stands, its ties as document 01 has them, on stand-ins for the crates it uses; a search is timed once
//! without and once with the fetching ahead that it asks for. What is inside the time is the same on both sides: of a build the
//! allocation of all buffers; of a search the query laid out and no allocation of anything that a host keeps from query to query (kept
//! list, visited starts, block scores). The sides take turns, and the first turn of each three goes round; a time is the median of the
//! turns. Each turn has a query of its own. Before a warm turn nothing is done: the pages are where the last turns left them. Before a
//! cold one each cache line of the listed pages is thrown out of all caches, on each side.
#[cfg(source)]
mod sides {
    use compare::cases::Random;
    use compare::model::{length_of, start_of, Documents, Found, List, SearchBuffers, SearchInput};
    use compare::ours;
    use std::time::Instant;

    const DIMENSION: u64 = 30_000;
    const DOCUMENTS: u64 = 100_000;
    const FRACTION: f32 = 0.1;
    const MINIMUM: u64 = 2;
    const CUT: u64 = 15;
    const ENERGY: f32 = 0.4;
    const FACTOR: f32 = 0.8;
    const QUERY_TERMS: u64 = 43;
    const FEWEST_TURNS: usize = 5;
    pub const SIZES: &[u64] = &[10, 100, 1_000, 3_500, 10_000, 20_000, 100_000];

    /// Terms that are common like words are: the n-th most frequent has a share of about 1 / n.
    fn vector(r: &mut Random, terms: u64) -> Vec<(u32, f32)> {
        let mut found = std::collections::BTreeMap::new();
        while (found.len() as u64) < terms {
            let u = (r.next() >> 11) as f64 / (1u64 << 53) as f64;
            let c = ((DIMENSION as f64).powf(u) - 1.0) as u32;
            let c = (c as u64 * 7919 % DIMENSION) as u32;
            let v = 0.05 + (r.below(1 << 20) as f32 / (1 << 20) as f32).powi(3) * 3.0;
            found.entry(c).or_insert(v);
        }
        found.into_iter().collect()
    }

    /// The documents, as both sides hold them.
    struct Store {
        ours: Documents,
        theirs: original::Documents,
    }

    fn store(r: &mut Random, documents: u64) -> Store {
        let mut d = Documents { offsets: vec![0], ..Default::default() };
        for _ in 0..documents {
            let m = 76 + r.below(81);
            for (c, v) in vector(r, m) {
                d.components.push(c);
                d.values.push(v);
            }
            d.offsets.push(d.components.len() as u64);
        }
        println!("{documents} documents, {} terms, dimension {DIMENSION}", d.components.len());
        let theirs = original::Documents::new(DIMENSION as usize, &d.offsets, &d.components, &d.values);
        Store { ours: d, theirs }
    }

    /// So many of the documents, each once, in random order.
    fn listed(r: &mut Random, documents: u64, size: u64) -> Vec<u64> {
        let mut all: Vec<u64> = (0..documents).collect();
        for i in 0..size as usize {
            all.swap(i, i + r.below(documents - i as u64) as usize);
        }
        all.truncate(size as usize);
        all
    }

    fn of_original(l: original::List) -> List {
        List {
            postings: l.packed,
            block_offsets: l.block_offsets,
            summary_components: l.components,
            component_offsets: l.component_offsets,
            summary_ids: l.ids,
            codes: l.codes,
            minimums: l.minimums,
            steps: l.steps,
        }
    }

    fn seconds_of<T>(what: impl FnOnce() -> T) -> (f64, T) {
        let start = Instant::now();
        let result = what();
        (start.elapsed().as_secs_f64(), result)
    }

    fn median(times: &mut [f64]) -> f64 {
        times.sort_unstable_by(f64::total_cmp);
        times[times.len() / 2]
    }

    fn our_build(s: &Store, ids: &[u64], centroids: &[u64]) -> (f64, List) {
        use merino::*;
        let documents = merino::Documents { offsets: &s.ours.offsets, components: &s.ours.components, values: &s.ours.values };
        let configuration = Configuration {
            blocking: BlockingStrategy::RandomKmeans {
                centroid_fraction: FRACTION,
                min_cluster_size: MINIMUM,
                clustering_algorithm: ClusteringAlgorithm::RandomKmeansInvertedIndexApprox { doc_cut: CUT },
            },
            summarization: SummarizationStrategy::EnergyPreserving { summary_energy: ENERGY },
        };
        let (took, l) = seconds_of(|| PostingList::build(documents, DIMENSION, ids, centroids, &configuration).unwrap());
        let list = List {
            postings: l.postings,
            block_offsets: l.block_offsets,
            summary_components: l.summary_components,
            component_offsets: l.component_offsets,
            summary_ids: l.summary_ids,
            codes: l.codes,
            minimums: l.minimums,
            steps: l.steps,
        };
        (took, list)
    }

    fn their_build(s: &Store, ids: &[u64], centroids: &[u64]) -> (f64, original::Built) {
        let blocking = original::Blocking::Approximate { fraction: FRACTION, minimum: MINIMUM, cut: CUT };
        seconds_of(|| original::build(&s.theirs, ids, centroids, blocking, original::Summary::Energy { share: ENERGY }))
    }

    /// Builds a list of so many postings on both sides, turn about, until the seconds are over and so many turns were taken.
    fn build(r: &mut Random, s: &Store, size: u64, seconds: f64, fewest: usize) -> (List, original::Built) {
        let documents = s.ours.offsets.len() as u64 - 1;
        let ids = listed(r, documents, size);
        let count = compare::model::centroid_count(compare::slips::Slip::None, FRACTION, ids.len());
        let centroids: Vec<u64> = (0..count).map(|_| r.pick(&ids)).collect();
        let (mut ours, mut theirs) = (vec![], vec![]);
        let begun = Instant::now();
        loop {
            let first = if ours.len() % 2 == 0 { Some(our_build(s, &ids, &centroids)) } else { None };
            let (t, built) = their_build(s, &ids, &centroids);
            theirs.push(t);
            let (t, l) = first.unwrap_or_else(|| our_build(s, &ids, &centroids));
            ours.push(t);
            let list = of_original(built.list());
            assert!(compare::any::same_output(&l, &list), "the two builds differ");
            if begun.elapsed().as_secs_f64() >= seconds && ours.len() >= fewest {
                let (a, b) = (median(&mut ours) * 1e3, median(&mut theirs) * 1e3);
                println!("{size} postings, {} blocks, {} entries", list.minimums.len(), list.summary_ids.len());
                println!("  build              : ours {a:>9.3} ms, original {b:>9.3} ms, ratio {:.2}  ({} turns)", a / b, ours.len());
                return (list, built);
            }
        }
    }

    fn kept_equal(kept: &original::Kept, b: &SearchBuffers) -> bool {
        let found = kept.entries();
        found.len() as u64 == b.length
            && found.iter().enumerate().all(|(i, e)| e.0 == b.packed[i] && e.1.to_bits() == b.kept_scores[i].to_bits())
    }

    fn range_of(packed: u64) -> std::ops::Range<usize> {
        start_of(packed) as usize..(start_of(packed) + length_of(packed)) as usize
    }

    #[derive(Clone, Copy)]
    struct Kind {
        k: u64,
        sorted: bool,
        cold: bool,
    }

    /// One search on both sides, the original's without and with its prefetch.
    struct Searching<'a> {
        s: &'a Store,
        built: &'a original::Built,
        input: SearchInput,
        buffers: SearchBuffers,
        kind: Kind,
    }

    impl<'a> Searching<'a> {
        fn new(s: &'a Store, list: &List, built: &'a original::Built, kind: Kind) -> Self {
            let input = SearchInput {
                query_components: vec![],
                query_values: vec![],
                k: kind.k,
                factor: FACTOR,
                components: s.ours.components.clone(),
                values: s.ours.values.clone(),
                list: list.clone(),
                sorted: kind.sorted,
            };
            let buffers = SearchBuffers {
                length: 0,
                packed: vec![0; kind.k as usize],
                kept_scores: vec![0.0; kind.k as usize],
                visits: vec![0; s.ours.components.len() + 1],
                block_scores: vec![0.0; list.minimums.len()],
                block_order: vec![0; list.minimums.len()],
            };
            Searching { s, built, input, buffers, kind }
        }

        fn ask(&mut self, r: &mut Random) {
            let q = vector(r, QUERY_TERMS);
            self.input.query_components = q.iter().map(|t| t.0).collect();
            self.input.query_values = q.iter().map(|t| t.1).collect();
        }

        fn ours(&mut self) -> (f64, Found) {
            self.buffers.length = 0;
            let visits = &mut self.buffers.visits;
            self.input.list.postings.iter().for_each(|p| visits[start_of(*p) as usize] = 0);
            if self.kind.cold {
                self.input.list.postings.iter().for_each(|p| {
                    let range = range_of(*p);
                    cold::throw_out(&self.input.components[range.clone()]);
                    cold::throw_out(&self.input.values[range.clone()]);
                    cold::throw_out(&visits[range.start..=range.start]);
                });
            }
            let (found, took) = ours::timed_search(&self.input, &mut self.buffers);
            (took, found)
        }

        fn theirs(&self, prefetch: bool) -> (f64, original::Kept) {
            let q = &self.input;
            original::turn_prefetch(prefetch);
            let mut kept = original::Kept::roomy(q.k, q.list.postings.len());
            if self.kind.cold {
                let d = &self.s.theirs.0;
                q.list.postings.iter().for_each(|p| {
                    let range = range_of(*p);
                    cold::throw_out(&d.components[range.clone()]);
                    cold::throw_out(&d.values[range]);
                });
            }
            let (took, ()) = seconds_of(|| {
                let mut evaluator = original::evaluator(&self.s.theirs, &q.query_components, &q.query_values);
                original::search(self.built, &self.s.theirs, &mut evaluator, &q.query_components, &q.query_values, q.k, q.factor, &mut kept, q.sorted)
            });
            (took, kept)
        }
    }

    /// Searches with other queries each time, the sides turn about.
    fn search(r: &mut Random, s: &Store, list: &List, built: &original::Built, kind: Kind, seconds: f64) {
        let mut side = Searching::new(s, list, built, kind);
        let mut times: [Vec<f64>; 3] = Default::default();
        let (mut evaluated, mut skipped, mut round) = (0, 0, 0);
        let begun = Instant::now();
        while begun.elapsed().as_secs_f64() < seconds || round < FEWEST_TURNS {
            side.ask(r);
            let mut kept = vec![];
            for turn in 0..3 {
                let which = (turn + round) % 3;
                if which == 0 {
                    let (t, found) = side.ours();
                    times[0].push(t);
                    if let Found::Done { evaluated: e, skipped: s, .. } = found {
                        evaluated += e;
                        skipped += s;
                    }
                } else {
                    let (t, k) = side.theirs(which == 2);
                    times[which].push(t);
                    kept.push(k);
                }
            }
            assert!(kept.iter().all(|k| kept_equal(k, &side.buffers)), "the searches differ");
            round += 1;
        }
        let turns = times[0].len() as u64;
        let [a, b, c] = times.map(|mut t| median(&mut t) * 1e6);
        println!(
            "  k {:>5} {} {}: ours {a:>9.1} us, original {b:>9.1} us, with prefetch {c:>9.1} us, ratios {:.2} {:.2}  ({} evaluated, {} skipped, {turns} turns)",
            kind.k,
            if kind.sorted { "sorted" } else { "plain " },
            if kind.cold { "cold" } else { "warm" },
            a / b,
            a / c,
            evaluated / turns,
            skipped / turns
        );
    }

    pub fn run(seconds: f64, sizes: &[u64]) {
        let mut r = Random::new(7);
        let s = store(&mut r, DOCUMENTS);
        for &size in sizes {
            let (list, built) = build(&mut r, &s, size, seconds, FEWEST_TURNS);
            for k in [10, 1_000] {
                for sorted in [false, true] {
                    for cold in [false, true] {
                        search(&mut r, &s, &list, &built, Kind { k, sorted, cold }, seconds);
                    }
                }
            }
        }
    }

    /// Each side's work once, under names that a profile shows: `merino_build`, `merino_search`, `original::plain::build` and `search`.
    pub fn instructions(size: u64) {
        let mut r = Random::new(7);
        let s = store(&mut r, size.max(10_000));
        let (list, built) = build(&mut r, &s, size, 0.0, 1);
        for k in [10, 1_000] {
            for sorted in [false, true] {
                let mut side = Searching::new(&s, &list, &built, Kind { k, sorted, cold: false });
                side.ask(&mut r);
                side.ours();
                assert!(kept_equal(&side.theirs(true).1, &side.buffers), "the searches differ");
            }
        }
    }

    mod cold {
        /// Throws each cache line of a slice out of all caches.
        #[cfg(target_arch = "x86_64")]
        pub fn throw_out<T>(slice: &[T]) {
            let end = slice.as_ptr() as usize + std::mem::size_of_val(slice);
            let mut at = slice.as_ptr() as usize / 64 * 64;
            while at < end {
                // sound: the line has some of the slice in it
                unsafe { std::arch::x86_64::_mm_clflush(at as *const u8) };
                at += 64;
            }
        }

        #[cfg(not(target_arch = "x86_64"))]
        pub fn throw_out<T>(_: &[T]) {}
    }
}

#[cfg(source)]
fn main() {
    let words: Vec<String> = std::env::args().skip(1).collect();
    if words.first().is_some_and(|w| w == "instructions") {
        return sides::instructions(words[1].parse().unwrap());
    }
    let seconds: f64 = words.first().map_or(1.0, |s| s.parse().unwrap());
    let sizes: Vec<u64> = words.iter().skip(1).map(|s| s.parse().unwrap()).collect();
    sides::run(seconds, if sizes.is_empty() { sides::SIZES } else { &sizes });
}

#[cfg(not(source))]
fn main() {
    println!("the original's source is not here: nothing to compare with");
}
