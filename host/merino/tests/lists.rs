//! Lists built and searched through the safe functions, beside a search that looks at every document.
use merino::*;

/// Small numbers that repeat from run to run.
struct Numbers(u64);

impl Numbers {
    fn below(&mut self, n: u64) -> u64 {
        self.0 = self.0.wrapping_mul(6_364_136_223_846_793_005).wrapping_add(1_442_695_040_888_963_407);
        (self.0 >> 33) % n
    }
}

struct Store {
    offsets: Vec<u64>,
    components: Vec<u32>,
    values: Vec<f32>,
}

impl Store {
    fn new(r: &mut Numbers, documents: u64, dimension: u64) -> Self {
        let mut s = Store { offsets: vec![0], components: Vec::new(), values: Vec::new() };
        for _ in 0..documents {
            for c in 0..dimension {
                if r.below(3) == 0 {
                    s.components.push(c as u32);
                    s.values.push(1.0 + r.below(50) as f32);
                }
            }
            s.offsets.push(s.components.len() as u64);
        }
        s
    }

    fn lent(&self) -> Documents<'_> {
        Documents { offsets: &self.offsets, components: &self.components, values: &self.values }
    }

    /// The dot products of all documents that have a term, greatest first.
    fn scores(&self, query: Query) -> Vec<f32> {
        let mut all: Vec<f32> = self
            .offsets
            .windows(2)
            .filter(|w| w[0] < w[1])
            .map(|w| {
                let mut sum = 0.0;
                for (c, v) in query.components.iter().zip(query.values) {
                    if let Ok(at) = self.components[w[0] as usize..w[1] as usize].binary_search(c) {
                        sum += v * self.values[w[0] as usize + at];
                    }
                }
                sum
            })
            .collect();
        all.sort_by(|a, b| b.total_cmp(a));
        all
    }
}

fn blockings() -> [BlockingStrategy; 3] {
    let clusters = |clustering_algorithm| BlockingStrategy::RandomKmeans { centroid_fraction: 0.2, min_cluster_size: 2, clustering_algorithm };
    [
        BlockingStrategy::FixedSize { block_size: 7 },
        clusters(ClusteringAlgorithm::RandomKmeans),
        clusters(ClusteringAlgorithm::RandomKmeansInvertedIndexApprox { doc_cut: 5 }),
    ]
}

#[test]
fn a_search_that_skips_nothing_finds_the_best() {
    let mut r = Numbers(1);
    let dimension = 24;
    let store = Store::new(&mut r, 60, dimension);
    let documents = store.lent();
    // an empty document shares its start with the next and would hide it
    let ids: Vec<u64> = (0..60).filter(|&i| documents.offsets[i as usize] < documents.offsets[i as usize + 1]).collect();
    let query = Query { components: &[1, 5, 8, 20], values: &[1.0, 2.0, 0.5, 3.0] };
    for blocking in blockings() {
        for summarization in [SummarizationStrategy::default(), SummarizationStrategy::FixedSize { n_components: 3 }] {
            let centroids: Vec<u64> = ids.iter().copied().step_by(5).take(blocking.centroids_asked(ids.len())).collect();
            let list = PostingList::build(documents, dimension, &ids, &centroids, &Configuration { blocking, summarization }).unwrap();
            assert_eq!(list.postings.len(), ids.len());
            let mut kept = KeptList::new(5);
            let mut visits = Visits::new(documents);
            let found = list.search(documents, query, 0.0, &mut kept, &mut visits).unwrap();
            assert_eq!((found.evaluated, found.skipped), (ids.len() as u64, 0));
            let best: Vec<f32> = kept.entries().map(|e| e.score).collect();
            assert_eq!(best, store.scores(query)[..5]);
            // all is visited, so a second search evaluates nothing more
            let again = list.sort_and_search(documents, query, 0.0, &mut kept, &mut visits).unwrap();
            assert_eq!(again.evaluated, 0);
            visits.clear_list(&list);
            let (mut kept, again) = (KeptList::new(u64::MAX), list.sort_and_search(documents, query, 0.0, &mut kept, &mut visits).unwrap());
            assert_eq!(again.evaluated, ids.len() as u64);
            list.search(documents, query, 1.0, &mut kept, &mut Visits::new(documents)).unwrap();
            assert_eq!(kept.len(), ids.len());
        }
    }
}

#[test]
fn refusals_of_a_build_have_their_numbers() {
    let mut r = Numbers(2);
    let store = Store::new(&mut r, 10, 8);
    let documents = store.lent();
    let ids: Vec<u64> = (0..10).collect();
    let fixed = |block_size| Configuration::default().blocking_strategy(BlockingStrategy::FixedSize { block_size });
    let build = |d: Documents, dimension: u64, ids: &[u64], centroids: &[u64], c: &Configuration| {
        PostingList::build(d, dimension, ids, centroids, c).err().map(Refusal::number)
    };
    assert_eq!(build(documents, 0, &ids, &[], &fixed(1)), Some(8));
    assert_eq!(build(documents, u64::MAX, &ids, &[], &fixed(1)), Some(8));
    assert_eq!(build(documents, 8, &[10], &[], &fixed(1)), Some(6));
    assert_eq!(build(Documents { values: &[], ..documents }, 8, &ids, &[], &fixed(1)), Some(6));
    assert_eq!(build(documents, 3, &ids, &[], &fixed(1)), Some(14));
    assert_eq!(build(documents, 8, &ids, &[], &fixed(0)), Some(3));
    assert_eq!(build(documents, 8, &ids, &[], &Configuration::default()), Some(5));
    let nothing = fixed(10).summarization_strategy(SummarizationStrategy::FixedSize { n_components: 0 });
    assert_eq!(build(documents, 8, &ids, &[], &nothing), Some(7));
    assert_eq!(build(documents, 8, &[], &[], &Configuration::default()), None);
    assert_eq!(PostingList::build(documents, 8, &[], &[], &Configuration::default()), Ok(PostingList::default()));
}
