//! The working memory of a build.
use crate::{BlockingStrategy, Documents};

/// How many numbers a build needs to work in, by role: the one formula of docs/SCRATCH.md. [`crate::PostingList::build`] allocates them
/// itself; a caller of [`crate::raw`] lends them.
///
/// ```
/// use merino::{BlockingStrategy, Documents, ScratchNeeds};
/// let documents = Documents { offsets: &[0, 2, 3], components: &[1, 5, 2], values: &[0.5, 1.0, 2.0] };
/// let needs = ScratchNeeds::of(documents, 8, &BlockingStrategy::default(), &[0, 1, 1], &[0]);
/// assert_eq!((needs.order, needs.known, needs.slots, needs.starts), (3, 1, 2, 9));
/// ```
#[derive(Clone, Copy, Debug, PartialEq, Eq)]
pub struct ScratchNeeds {
    /// The documents in list order: one for each id.
    pub order: usize,
    /// Block offsets: one more than ids.
    pub blocks: usize,
    /// Ids sorted: one for each.
    pub sorted: usize,
    /// Centroids known: one for each.
    pub known: usize,
    /// What each id is taken by.
    pub taken: usize,
    /// Counts by centroid, later by component: the greater of the two.
    pub counts: usize,
    /// Where the centroids' entries of each component start: one more than the dimension.
    pub starts: usize,
    /// The slots of these entries: one for each term of a centroid.
    pub slots: usize,
    /// Their weights, likewise.
    pub weights: usize,
    /// Scores by centroid, later maxima by component: the greater of the two.
    pub sums: usize,
    /// A block's keys: one for each component.
    pub keys: usize,
}

impl ScratchNeeds {
    /// What a build of these ids and centroids needs. Total: where the documents are wrong a build is refused, whatever it is lent.
    ///
    /// ```
    /// use merino::{BlockingStrategy, Documents, ScratchNeeds};
    /// let documents = Documents { offsets: &[0, 1], components: &[0], values: &[1.0] };
    /// let needs = ScratchNeeds::of(documents, 4, &BlockingStrategy::FixedSize { block_size: 1 }, &[0, 0], &[]);
    /// assert_eq!((needs.blocks, needs.known, needs.counts, needs.keys), (3, 0, 4, 4));
    /// ```
    pub fn of(documents: Documents, dimension: u64, blocking: &BlockingStrategy, ids: &[u64], centroids: &[u64]) -> Self {
        let used = match blocking {
            BlockingStrategy::FixedSize { .. } => &[],
            BlockingStrategy::RandomKmeans { .. } => centroids,
        };
        let n = ids.len();
        let most = used.len().max(dimension as usize);
        // a document has no more terms than there are, so what is wrong with the offsets cannot make the sum long
        let all = documents.components.len() as u64;
        let terms = used.iter().map(|&c| documents.length_of(c).min(all) as usize).fold(0, usize::saturating_add);
        ScratchNeeds {
            order: n,
            blocks: n + 1,
            sorted: n,
            known: used.len(),
            taken: n,
            counts: most,
            starts: (dimension as usize).saturating_add(1),
            slots: terms,
            weights: terms,
            sums: most,
            keys: dimension as usize,
        }
    }
}
