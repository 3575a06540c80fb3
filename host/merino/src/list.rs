//! A posting list, built and searched.
use crate::raw;
use crate::{BlockingStrategy, ClusteringAlgorithm, Configuration, ScratchNeeds, SummarizationStrategy};
use crate::{Documents, KeptList, Query, Refusal, SearchError};

/// One posting list with the summaries of its blocks. The fields are free to be stored and loaded: every search looks whether they are
/// sound, and refuses the list (9) where they are not.
///
/// ```
/// use merino::{Documents, KeptList, PostingList, Query, Refusal, Visits};
/// let documents = Documents { offsets: &[0, 1], components: &[0], values: &[1.0] };
/// let list = PostingList { minimums: vec![f32::NAN], ..PostingList::default() };
/// let query = Query { components: &[0], values: &[1.0] };
/// let refused = list.search(documents, query, 1.0, &mut KeptList::new(1), &mut Visits::new(documents)).unwrap_err();
/// assert_eq!(refused.refusal(), Refusal::MalformedList);
/// ```
#[derive(Clone, Debug, PartialEq)]
pub struct PostingList {
    /// The documents' ranges in the order of the list: start times 65,536 plus length.
    pub postings: Vec<u64>,
    /// Where each block starts among the postings, and where the last one ends.
    pub block_offsets: Vec<u64>,
    /// The components that some summary has, strictly rising.
    pub summary_components: Vec<u32>,
    /// Where the entries of each component start, and where the last one's end.
    pub component_offsets: Vec<u64>,
    /// The summary of each entry, strictly rising within a component.
    pub summary_ids: Vec<u16>,
    /// The code of each entry.
    pub codes: Vec<u8>,
    /// The least value of each summary.
    pub minimums: Vec<f32>,
    /// What one more in a code is worth in each summary.
    pub steps: Vec<f32>,
}

impl Default for PostingList {
    /// The list of no documents.
    fn default() -> Self {
        PostingList {
            postings: Vec::new(),
            block_offsets: Vec::new(),
            summary_components: Vec::new(),
            component_offsets: vec![0],
            summary_ids: Vec::new(),
            codes: Vec::new(),
            minimums: Vec::new(),
            steps: Vec::new(),
        }
    }
}

/// What a search has done, beside the kept list.
///
/// ```
/// use merino::{Documents, KeptList, PostingList, Query, Visits};
/// let documents = Documents { offsets: &[0, 1], components: &[0], values: &[1.0] };
/// let query = Query { components: &[0], values: &[1.0] };
/// let found = PostingList::default().search(documents, query, 1.0, &mut KeptList::new(1), &mut Visits::new(documents))?;
/// assert_eq!((found.evaluated, found.skipped, found.block_scores.len()), (0, 0, 0));
/// # Ok::<(), merino::SearchError>(())
/// ```
#[derive(Clone, Debug, PartialEq)]
pub struct Found {
    /// How many postings were evaluated.
    pub evaluated: u64,
    /// How many blocks were skipped.
    pub skipped: u64,
    /// The score of each block.
    pub block_scores: Vec<f32>,
    /// The blocks in the order of their turns; empty where that is their own order.
    pub block_order: Vec<u64>,
}

/// Which starts were visited: one byte for each start from 0 to the number of terms, kept from search to search.
///
/// ```
/// use merino::{Documents, Visits};
/// let documents = Documents { offsets: &[0, 2], components: &[0, 4], values: &[1.0, 1.0] };
/// assert!(!Visits::new(documents).is_visited(0));
/// ```
#[derive(Clone, Debug, PartialEq, Eq)]
pub struct Visits {
    bytes: Vec<u8>,
}

impl Visits {
    /// None visited yet.
    ///
    /// ```
    /// use merino::{Documents, Visits};
    /// let documents = Documents { offsets: &[0], components: &[], values: &[] };
    /// assert!(!Visits::new(documents).is_visited(0));
    /// ```
    pub fn new(documents: Documents) -> Self {
        Visits { bytes: vec![0; documents.components.len() + 1] }
    }

    /// Whether a start was visited.
    ///
    /// ```
    /// use merino::{Documents, Visits};
    /// let documents = Documents { offsets: &[0], components: &[], values: &[] };
    /// assert!(!Visits::new(documents).is_visited(5));
    /// ```
    pub fn is_visited(&self, start: u64) -> bool {
        self.bytes.get(start as usize).is_some_and(|&b| b != 0)
    }

    /// Forgets all visits.
    ///
    /// ```
    /// # use merino::{Documents, Visits};
    /// # let documents = Documents { offsets: &[0], components: &[], values: &[] };
    /// let mut visits = Visits::new(documents);
    /// visits.clear();
    /// assert!(!visits.is_visited(0));
    /// ```
    pub fn clear(&mut self) {
        self.bytes.fill(0);
    }

    /// Forgets the visits that a list's postings can have made: quicker than `clear` where the list is short.
    ///
    /// ```
    /// # use merino::{Documents, PostingList, Visits};
    /// # let documents = Documents { offsets: &[0], components: &[], values: &[] };
    /// let mut visits = Visits::new(documents);
    /// visits.clear_list(&PostingList::default());
    /// ```
    pub fn clear_list(&mut self, list: &PostingList) {
        for packed in &list.postings {
            if let Some(b) = self.bytes.get_mut((packed / 65_536) as usize) {
                *b = 0;
            }
        }
    }
}

impl PostingList {
    /// Builds the list of these documents' ids. `dimension` is 1 to 1,048,575, above every component. Cluster blocking takes as many
    /// centroids, by document id, as [`crate::BlockingStrategy::centroids_asked`] says; fixed blocking looks at none.
    ///
    /// Refused, in this order: 8, 6, 14, 1, 2, 3 or 5, 8, 7.
    ///
    /// ```
    /// use merino::{BlockingStrategy, Configuration, Documents, PostingList, Refusal, SummarizationStrategy};
    /// let documents = Documents { offsets: &[0, 1, 2, 4], components: &[0, 0, 0, 1], values: &[1.0, 2.0, 1.0, 1.0] };
    /// let fixed = Configuration {
    ///     blocking: BlockingStrategy::FixedSize { block_size: 1 },
    ///     summarization: SummarizationStrategy::FixedSize { n_components: 1 },
    /// };
    /// let list = PostingList::build(documents, 2, &[0, 2], &[], &fixed)?;
    /// assert_eq!(list.postings, [0 * 65_536 + 1, 2 * 65_536 + 2]);
    /// assert_eq!(list.block_offsets, [0, 1, 2]);
    /// assert_eq!(list.summary_components, [0]);
    /// assert_eq!(list.minimums, [1.0, 1.0]);
    /// // a dimension that some component reaches
    /// assert_eq!(PostingList::build(documents, 1, &[0, 2], &[], &fixed), Err(Refusal::WrongTerms));
    /// # Ok::<(), Refusal>(())
    /// ```
    pub fn build(documents: Documents, dimension: u64, ids: &[u64], centroids: &[u64], configuration: &Configuration) -> Result<Self, Refusal> {
        let (blocking, block_size, fraction, minimum, cut) = match configuration.blocking {
            BlockingStrategy::FixedSize { block_size } => (0, block_size, 0.0, 0, 0),
            BlockingStrategy::RandomKmeans { centroid_fraction, min_cluster_size, clustering_algorithm } => match clustering_algorithm {
                ClusteringAlgorithm::RandomKmeans => (1, 0, centroid_fraction, min_cluster_size, 0),
                ClusteringAlgorithm::RandomKmeansInvertedIndexApprox { doc_cut } => (2, 0, centroid_fraction, min_cluster_size, doc_cut),
            },
        };
        let (summarization, n_components, energy) = match configuration.summarization {
            SummarizationStrategy::FixedSize { n_components } => (0, n_components, 0.0),
            SummarizationStrategy::EnergyPreserving { summary_energy } => (1, 0, summary_energy),
        };
        // outside its limit a dimension is refused (8) whatever is lent
        let within = if dimension <= DIMENSION_LIMIT { dimension } else { 0 };
        let mut list = PostingList::roomy(documents, within, ids, centroids, configuration);
        let needs = ScratchNeeds::of(documents, within, &configuration.blocking, ids, centroids);
        let mut order = vec![0u64; needs.order];
        let mut blocks = vec![0u64; needs.blocks];
        let mut sorted = vec![0u64; needs.sorted];
        let mut known = vec![0u64; needs.known];
        let mut taken = vec![0u64; needs.taken];
        let mut counts = vec![0u64; needs.counts];
        let mut starts = vec![0u64; needs.starts];
        let mut slots = vec![0u64; needs.slots];
        let mut weights = vec![0f32; needs.weights];
        let mut sums = vec![0f32; needs.sums];
        let mut keys = vec![0u64; needs.keys];
        let mut written = [0u64; 5];
        let [postings_written, block_offsets_written, summary_components_written, entries_written, summaries_written] = &mut written;
        // sound: every buffer that is written was made here, and each pointer goes with its own length
        let number = unsafe {
            raw::merino_build(
                dimension,
                blocking,
                block_size,
                fraction,
                minimum,
                cut,
                summarization,
                n_components,
                energy,
                documents.offsets.as_ptr(),
                documents.offsets.len(),
                documents.components.as_ptr(),
                documents.components.len(),
                documents.values.as_ptr(),
                documents.values.len(),
                ids.as_ptr(),
                ids.len(),
                centroids.as_ptr(),
                centroids.len(),
                list.postings.as_mut_ptr(),
                list.postings.len(),
                list.block_offsets.as_mut_ptr(),
                list.block_offsets.len(),
                list.summary_components.as_mut_ptr(),
                list.summary_components.len(),
                list.component_offsets.as_mut_ptr(),
                list.component_offsets.len(),
                list.summary_ids.as_mut_ptr(),
                list.summary_ids.len(),
                list.codes.as_mut_ptr(),
                list.codes.len(),
                list.minimums.as_mut_ptr(),
                list.minimums.len(),
                list.steps.as_mut_ptr(),
                list.steps.len(),
                order.as_mut_ptr(),
                order.len(),
                blocks.as_mut_ptr(),
                blocks.len(),
                sorted.as_mut_ptr(),
                sorted.len(),
                known.as_mut_ptr(),
                known.len(),
                taken.as_mut_ptr(),
                taken.len(),
                counts.as_mut_ptr(),
                counts.len(),
                starts.as_mut_ptr(),
                starts.len(),
                slots.as_mut_ptr(),
                slots.len(),
                weights.as_mut_ptr(),
                weights.len(),
                sums.as_mut_ptr(),
                sums.len(),
                keys.as_mut_ptr(),
                keys.len(),
                postings_written,
                block_offsets_written,
                summary_components_written,
                entries_written,
                summaries_written,
            )
        };
        Refusal::verdict(number)?;
        list.shrink(written.map(|n| n as usize));
        Ok(list)
    }

    /// A list with room for whatever a build can write. No entry is without its term, so there are no more of them than terms listed.
    fn roomy(documents: Documents, dimension: u64, ids: &[u64], centroids: &[u64], configuration: &Configuration) -> Self {
        let n = ids.len();
        let all = documents.components.len() as u64;
        let terms = ids.iter().map(|&i| documents.length_of(i).min(all) as usize).fold(0, usize::saturating_add);
        let blocks = match configuration.blocking {
            BlockingStrategy::FixedSize { block_size } => n / (block_size as usize).max(1),
            BlockingStrategy::RandomKmeans { .. } => n.min(centroids.len()),
        };
        let kept = match configuration.summarization {
            SummarizationStrategy::FixedSize { n_components } => n_components.min(dimension) as usize,
            SummarizationStrategy::EnergyPreserving { .. } => dimension as usize,
        };
        let entries = terms.min(blocks.saturating_mul(kept));
        let components = entries.min(dimension as usize);
        PostingList {
            postings: vec![0; n],
            block_offsets: vec![0; blocks + 1],
            summary_components: vec![0; components],
            component_offsets: vec![0; components + 1],
            summary_ids: vec![0; entries],
            codes: vec![0; entries],
            minimums: vec![0.0; blocks],
            steps: vec![0.0; blocks],
        }
    }

    /// What was written, without the rest.
    fn shrink(&mut self, [postings, block_offsets, summary_components, entries, summaries]: [usize; 5]) {
        fn cut<T>(v: &mut Vec<T>, n: usize) {
            v.truncate(n);
            v.shrink_to_fit();
        }
        cut(&mut self.postings, postings);
        cut(&mut self.block_offsets, block_offsets);
        cut(&mut self.summary_components, summary_components);
        cut(&mut self.component_offsets, summary_components + 1);
        cut(&mut self.summary_ids, entries);
        cut(&mut self.codes, entries);
        cut(&mut self.minimums, summaries);
        cut(&mut self.steps, summaries);
    }

    /// Searches the list, its blocks in their own order, and goes on from what the kept list holds. A block is skipped at its turn if k
    /// are kept and its score is below `heap_factor` times the worst kept score; in any other every start that was not visited is
    /// evaluated, marked and pushed.
    ///
    /// Refused, with nothing changed, in this order: 11, 10, 6 (terms differ in number), 9, 4 (fewer visit bytes than starts). Stopped
    /// at a posting by 13 (its range reaches past the terms) or 14 (its terms are wrong).
    ///
    /// ```
    /// use merino::{Documents, KeptList, PostingList, Query, Visits};
    /// let documents = Documents { offsets: &[0, 1, 3], components: &[0, 0, 1], values: &[1.0, 2.0, 1.0] };
    /// // both documents in one block, whose summary says: component 0 with 2
    /// let list = PostingList {
    ///     postings: vec![1, 65_536 + 2],
    ///     block_offsets: vec![0, 2],
    ///     summary_components: vec![0],
    ///     component_offsets: vec![0, 1],
    ///     summary_ids: vec![0],
    ///     codes: vec![0],
    ///     minimums: vec![2.0],
    ///     steps: vec![0.0],
    /// };
    /// let mut kept = KeptList::new(1);
    /// let mut visits = Visits::new(documents);
    /// let query = Query { components: &[0], values: &[3.0] };
    /// let found = list.search(documents, query, 0.9, &mut kept, &mut visits)?;
    /// assert_eq!((found.evaluated, found.skipped, &found.block_scores[..]), (2, 0, &[6.0][..]));
    /// let best = kept.entries().next().unwrap();
    /// assert_eq!((best.start(), best.score), (1, 6.0));
    /// assert_eq!(documents.page_number(best.start()), Ok(1));
    /// assert!(visits.is_visited(1));
    /// # Ok::<(), merino::SearchError>(())
    /// ```
    pub fn search(&self, documents: Documents, query: Query, heap_factor: f32, kept: &mut KeptList, visits: &mut Visits) -> Result<Found, SearchError> {
        self.probe(false, documents, query, heap_factor, kept, visits)
    }

    /// The same, with the blocks by greater score first, equal ones by the smaller number; [`Found::block_order`] then has that order.
    ///
    /// ```
    /// use merino::{Documents, KeptList, PostingList, Query, Visits};
    /// let documents = Documents { offsets: &[0, 1, 2], components: &[0, 0], values: &[1.0, 2.0] };
    /// let list = PostingList {
    ///     postings: vec![1, 65_536 + 1],
    ///     block_offsets: vec![0, 1, 2],
    ///     summary_components: vec![0],
    ///     component_offsets: vec![0, 2],
    ///     summary_ids: vec![0, 1],
    ///     codes: vec![0, 0],
    ///     minimums: vec![1.0, 2.0],
    ///     steps: vec![0.0, 0.0],
    /// };
    /// let mut kept = KeptList::new(1);
    /// let query = Query { components: &[0], values: &[1.0] };
    /// let found = list.sort_and_search(documents, query, 1.0, &mut kept, &mut Visits::new(documents))?;
    /// assert_eq!(found.block_order, [1, 0]);
    /// assert_eq!((found.evaluated, found.skipped), (1, 1));
    /// # Ok::<(), merino::SearchError>(())
    /// ```
    pub fn sort_and_search(
        &self,
        documents: Documents,
        query: Query,
        heap_factor: f32,
        kept: &mut KeptList,
        visits: &mut Visits,
    ) -> Result<Found, SearchError> {
        self.probe(true, documents, query, heap_factor, kept, visits)
    }

    fn probe(
        &self,
        by_score: bool,
        documents: Documents,
        query: Query,
        heap_factor: f32,
        kept: &mut KeptList,
        visits: &mut Visits,
    ) -> Result<Found, SearchError> {
        // no more can be kept than are kept now and are listed, so a greater k is never reached, and one above these does as well
        let k = kept.k().min(kept.length + self.postings.len() as u64 + 1);
        kept.grow(k);
        let blocks = self.minimums.len();
        let mut block_scores = vec![0f32; blocks];
        let mut block_order = vec![0u64; if by_score { blocks } else { 0 }];
        let (mut position, mut evaluated, mut skipped) = (0, 0, 0);
        // sound: what is written is this call's own or exclusively borrowed, and each pointer goes with its own length
        let number = unsafe {
            raw::merino_search(
                by_score as u64,
                query.components.as_ptr(),
                query.components.len(),
                query.values.as_ptr(),
                query.values.len(),
                k,
                heap_factor,
                documents.components.as_ptr(),
                documents.components.len(),
                documents.values.as_ptr(),
                documents.values.len(),
                self.postings.as_ptr(),
                self.postings.len(),
                self.block_offsets.as_ptr(),
                self.block_offsets.len(),
                self.summary_components.as_ptr(),
                self.summary_components.len(),
                self.component_offsets.as_ptr(),
                self.component_offsets.len(),
                self.summary_ids.as_ptr(),
                self.summary_ids.len(),
                self.codes.as_ptr(),
                self.codes.len(),
                self.minimums.as_ptr(),
                self.minimums.len(),
                self.steps.as_ptr(),
                self.steps.len(),
                &mut kept.length,
                kept.packed.as_mut_ptr(),
                kept.packed.len(),
                kept.scores.as_mut_ptr(),
                kept.scores.len(),
                visits.bytes.as_mut_ptr(),
                visits.bytes.len(),
                block_scores.as_mut_ptr(),
                block_scores.len(),
                block_order.as_mut_ptr(),
                block_order.len(),
                &mut position,
                &mut evaluated,
                &mut skipped,
            )
        };
        match Refusal::verdict(number) {
            Ok(()) => Ok(Found { evaluated, skipped, block_scores, block_order }),
            Err(refusal @ (Refusal::PastTheTerms | Refusal::WrongTerms)) => Err(SearchError::Stopped { refusal, position }),
            Err(refusal) => Err(SearchError::Refused(refusal)),
        }
    }
}
const DIMENSION_LIMIT: u64 = 1_048_575;
