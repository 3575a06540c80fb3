use crate::configurations::{BlockingStrategy, ClusteringAlgorithm, Configuration, SummarizationStrategy};
use crate::posting_list::{PackedPostingBlock, PostingList};
use crate::quantized_summary::SummaryParts;
use crate::utils::KHeap;
use crate::QuantizedSummary;
use rustc_hash::FxHashSet;
use vectorium::dataset::ScoredRange;
use vectorium::{Dataset, DenseEvaluator, Distance, DotProduct, PlainSparseQuantizer, SparseDataset, SparseVectorView};

pub type Plain = PlainSparseQuantizer<u32, f32, DotProduct>;

pub struct Documents(pub SparseDataset<Plain>);

impl Documents {
    pub fn new(dim: usize, offsets: &[u64], components: &[u32], values: &[f32]) -> Self {
        Documents(SparseDataset {
            encoder: Plain::new(dim, dim),
            dim,
            offsets: offsets.iter().map(|&o| o as usize).collect(),
            components: components.to_vec(),
            values: values.to_vec(),
        })
    }
}

#[derive(Clone, Copy, Debug, PartialEq)]
pub enum Blocking {
    Fixed { size: u64 },
    Exact { fraction: f32, minimum: u64 },
    Approximate { fraction: f32, minimum: u64, cut: u64 },
}

#[derive(Clone, Copy, Debug, PartialEq)]
pub enum Summary {
    Fixed { size: u64 },
    Energy { share: f32 },
}

/// A built list in plain vectors.
#[derive(Clone, Debug, Default)]
pub struct List {
    pub packed: Vec<u64>,
    pub block_offsets: Vec<u64>,
    pub components: Vec<u32>,
    pub component_offsets: Vec<u64>,
    pub ids: Vec<u16>,
    pub codes: Vec<u8>,
    pub minimums: Vec<f32>,
    pub steps: Vec<f32>,
}

fn configuration(blocking: Blocking, summary: Summary) -> Configuration {
    let blocking = match blocking {
        Blocking::Fixed { size } => BlockingStrategy::FixedSize { block_size: size as usize },
        Blocking::Exact { fraction, minimum } => BlockingStrategy::RandomKmeans {
            centroid_fraction: fraction,
            min_cluster_size: minimum as usize,
            clustering_algorithm: ClusteringAlgorithm::RandomKmeans {},
        },
        Blocking::Approximate { fraction, minimum, cut } => BlockingStrategy::RandomKmeans {
            centroid_fraction: fraction,
            min_cluster_size: minimum as usize,
            clustering_algorithm: ClusteringAlgorithm::RandomKmeansInvertedIndexApprox { doc_cut: cut as usize },
        },
    };
    let summary = match summary {
        Summary::Fixed { size } => SummarizationStrategy::FixedSize { n_components: size as usize },
        Summary::Energy { share } => SummarizationStrategy::EnergyPreserving { summary_energy: share },
    };
    Configuration::default().blocking_strategy(blocking).summarization_strategy(summary)
}

/// The original's own list, as it is searched.
pub struct Built(PostingList<u32>);

/// Whether the source's prefetch fetches anything.
pub fn turn_prefetch(on: bool) {
    vectorium::prefetch::turn(on);
}

#[inline(never)]
pub fn build(documents: &Documents, ids: &[u64], centroids: &[u64], blocking: Blocking, summary: Summary) -> Built {
    rand::set_centroids(&centroids.iter().map(|&c| c as usize).collect::<Vec<_>>());
    let postings: Vec<(f32, usize)> = ids.iter().map(|&i| (0.0, i as usize)).collect();
    Built(PostingList::build(&documents.0, &postings, &configuration(blocking, summary)))
}

impl Built {
    pub fn list(&self) -> List {
        let s = self.0.summaries().parts();
        List {
            packed: self.0.packed_postings().iter().map(|p| p.number()).collect(),
            block_offsets: self.0.block_offsets().iter().map(|&o| o as u64).collect(),
            components: s.components,
            component_offsets: s.offsets,
            ids: s.ids,
            codes: s.codes,
            minimums: s.minimums,
            steps: s.steps,
        }
    }

    pub fn of_list(dim: usize, l: &List) -> Self {
        Built(PostingList::of_parts(
            l.packed.clone(),
            l.block_offsets.iter().map(|&o| o as usize).collect(),
            QuantizedSummary::of_parts(
                dim,
                SummaryParts {
                    components: l.components.clone(),
                    offsets: l.component_offsets.clone(),
                    ids: l.ids.clone(),
                    codes: l.codes.clone(),
                    minimums: l.minimums.clone(),
                    steps: l.steps.clone(),
                },
            ),
        ))
    }

    pub fn scores(&self, query_components: &[u32], query_values: &[f32]) -> Vec<f32> {
        self.0.summaries().distances(&SparseVectorView::new(query_components, query_values))
    }
}

/// A kept list and the visited starts, as the original holds them.
pub struct Kept {
    pub heap: KHeap<ScoredRange<DotProduct>>,
    pub visited: FxHashSet<usize>,
}

fn scored(packed: u64, score: f32) -> ScoredRange<DotProduct> {
    ScoredRange {
        distance: DotProduct(score),
        range: PackedPostingBlock::of_number(packed).unpack(),
    }
}

impl Kept {
    /// Nothing kept yet, with room for as many starts as a list has postings, as the source makes room before it searches.
    pub fn roomy(k: u64, postings: usize) -> Self {
        Kept {
            heap: KHeap::new(k as usize),
            visited: FxHashSet::with_capacity_and_hasher(postings, Default::default()),
        }
    }

    pub fn new(k: u64, entries: &[(u64, f32)], visited: &[u64]) -> Self {
        let mut heap = KHeap::new(k as usize);
        for &(p, s) in entries {
            heap.push(scored(p, s));
        }
        Kept {
            heap,
            visited: visited.iter().map(|&v| v as usize).collect(),
        }
    }

    pub fn push(&mut self, packed: u64, score: f32) {
        self.heap.push(scored(packed, score));
    }

    /// Best first.
    pub fn entries(&self) -> Vec<(u64, f32)> {
        self.heap
            .clone()
            .into_sorted_vec()
            .into_iter()
            .map(|e| (PackedPostingBlock::pack(e.range).number(), e.distance.distance()))
            .collect()
    }
}

pub type Evaluator<'a> = DenseEvaluator<'a, u32, f32>;

pub fn evaluator<'a>(documents: &Documents, query_components: &[u32], query_values: &[f32]) -> Evaluator<'a> {
    DenseEvaluator::new(documents.0.input_dim(), SparseVectorView::new(query_components, query_values))
}

#[allow(clippy::too_many_arguments)]
#[inline(never)]
pub fn search<'a>(
    list: &Built,
    documents: &'a Documents,
    evaluator: &mut Evaluator<'a>,
    query_components: &[u32],
    query_values: &[f32],
    k: u64,
    factor: f32,
    kept: &mut Kept,
    sorted: bool,
) {
    let query = SparseVectorView::new(query_components, query_values);
    if sorted {
        list.0.sort_and_search(evaluator, &query, k as usize, factor, &mut kept.heap, &mut kept.visited, &documents.0);
    } else {
        list.0.search(evaluator, &query, k as usize, factor, &mut kept.heap, &mut kept.visited, &documents.0);
    }
}

pub fn quantize(values: &[f32]) -> (f32, f32, Vec<u8>) {
    crate::utils::quantize_f32(values)
}

pub fn pack(start: u64, end: u64) -> u64 {
    PackedPostingBlock::pack(start as usize..end as usize).number()
}

pub fn fixed_offsets(n: u64, block_size: u64) -> Vec<u64> {
    PostingList::<u32>::fixed_offsets(n as usize, block_size as usize).into_iter().map(|o| o as u64).collect()
}
