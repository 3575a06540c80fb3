//! How a list is built: the names and the defaults are the original's.

/// The settings of a build.
///
/// ```
/// use merino::{BlockingStrategy, Configuration};
/// let fixed = Configuration::default().blocking_strategy(BlockingStrategy::FixedSize { block_size: 10 });
/// assert_eq!(fixed.blocking, BlockingStrategy::FixedSize { block_size: 10 });
/// ```
#[derive(Clone, Copy, Debug, Default, PartialEq)]
pub struct Configuration {
    /// How the list is cut into blocks.
    pub blocking: BlockingStrategy,
    /// What a block's summary keeps.
    pub summarization: SummarizationStrategy,
}

impl Configuration {
    /// The same settings with another way of blocking.
    ///
    /// ```
    /// use merino::{BlockingStrategy, Configuration};
    /// let c = Configuration::default().blocking_strategy(BlockingStrategy::FixedSize { block_size: 64 });
    /// assert_eq!(c.summarization, Configuration::default().summarization);
    /// ```
    pub fn blocking_strategy(mut self, blocking: BlockingStrategy) -> Self {
        self.blocking = blocking;
        self
    }

    /// The same settings with another kind of summary.
    ///
    /// ```
    /// use merino::{Configuration, SummarizationStrategy};
    /// let c = Configuration::default().summarization_strategy(SummarizationStrategy::FixedSize { n_components: 8 });
    /// assert_eq!(c.blocking, Configuration::default().blocking);
    /// ```
    pub fn summarization_strategy(mut self, summarization: SummarizationStrategy) -> Self {
        self.summarization = summarization;
        self
    }
}

/// How a list is cut into blocks.
///
/// ```
/// use merino::{BlockingStrategy, ClusteringAlgorithm};
/// let default = BlockingStrategy::RandomKmeans {
///     centroid_fraction: 0.1,
///     min_cluster_size: 2,
///     clustering_algorithm: ClusteringAlgorithm::RandomKmeansInvertedIndexApprox { doc_cut: 15 },
/// };
/// assert_eq!(BlockingStrategy::default(), default);
/// ```
#[derive(Clone, Copy, Debug, PartialEq)]
pub enum BlockingStrategy {
    /// Blocks of one size, the last one with what is left too. A list shorter than the block size has no blocks: none of it is searched.
    FixedSize {
        /// How many postings a block has, at least 1.
        block_size: u64,
    },
    /// A block for each centroid that draws documents.
    RandomKmeans {
        /// How many centroids there are for each posting; their number is cut to a whole number and at least 1.
        centroid_fraction: f32,
        /// Groups of at most this size dissolve, and their documents are assigned again.
        min_cluster_size: u64,
        /// How a document finds its centroid.
        clustering_algorithm: ClusteringAlgorithm,
    },
}

impl Default for BlockingStrategy {
    fn default() -> Self {
        BlockingStrategy::RandomKmeans {
            centroid_fraction: 0.1,
            min_cluster_size: 2,
            clustering_algorithm: ClusteringAlgorithm::default(),
        }
    }
}

impl BlockingStrategy {
    /// How many centroids a build of so many ids has to be given: the smaller of the ids and of fraction x ids as one f32 product,
    /// cut to a whole number and at least 1; none for an empty list or blocks of a fixed size.
    ///
    /// ```
    /// use merino::BlockingStrategy;
    /// assert_eq!(BlockingStrategy::default().centroids_asked(35), 3);
    /// assert_eq!(BlockingStrategy::default().centroids_asked(5), 1);
    /// assert_eq!(BlockingStrategy::default().centroids_asked(0), 0);
    /// ```
    pub fn centroids_asked(&self, ids: usize) -> usize {
        match *self {
            // `as` cuts to a whole number, and a NaN or a negative number to 0
            BlockingStrategy::RandomKmeans { centroid_fraction, .. } => ((centroid_fraction * ids as f32) as usize).max(1).min(ids),
            BlockingStrategy::FixedSize { .. } => 0,
        }
    }
}

/// How a document finds its centroid.
///
/// ```
/// use merino::ClusteringAlgorithm;
/// assert_eq!(ClusteringAlgorithm::default(), ClusteringAlgorithm::RandomKmeansInvertedIndexApprox { doc_cut: 15 });
/// ```
#[derive(Clone, Copy, Debug, PartialEq, Eq)]
pub enum ClusteringAlgorithm {
    /// By the greatest dot product.
    RandomKmeans,
    /// By the dot product of the document's largest terms.
    RandomKmeansInvertedIndexApprox {
        /// How many of its largest terms count.
        doc_cut: u64,
    },
}

impl Default for ClusteringAlgorithm {
    fn default() -> Self {
        ClusteringAlgorithm::RandomKmeansInvertedIndexApprox { doc_cut: 15 }
    }
}

/// What a block's summary keeps of its greatest values.
///
/// ```
/// use merino::SummarizationStrategy;
/// assert_eq!(SummarizationStrategy::default(), SummarizationStrategy::EnergyPreserving { summary_energy: 0.4 });
/// ```
#[derive(Clone, Copy, Debug, PartialEq)]
pub enum SummarizationStrategy {
    /// So many components.
    FixedSize {
        /// How many.
        n_components: u64,
    },
    /// The greatest, up to this share of their sum.
    EnergyPreserving {
        /// The share; any number, a NaN too, which keeps all.
        summary_energy: f32,
    },
}

impl Default for SummarizationStrategy {
    fn default() -> Self {
        SummarizationStrategy::EnergyPreserving { summary_energy: 0.4 }
    }
}
