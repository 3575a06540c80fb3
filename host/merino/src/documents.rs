//! Documents and queries, borrowed from whoever has them.
use crate::Refusal;

/// Sparse documents side by side, as they lie in memory. Whether they are sound is looked at by each call that uses them.
///
/// ```
/// use merino::Documents;
/// // a document of two terms, one of none, and one of one term
/// let documents = Documents { offsets: &[0, 2, 2, 3], components: &[1, 5, 2], values: &[0.5, 1.0, 2.0] };
/// assert_eq!(documents.count(), 3);
/// ```
#[derive(Clone, Copy, Debug, PartialEq)]
pub struct Documents<'a> {
    /// Where each document's terms start, and then where the last one's end: first 0, never falling, last the number of terms.
    pub offsets: &'a [u64],
    /// The component of each term, strictly rising within a document.
    pub components: &'a [u32],
    /// The value of each term: finite, magnitude at most 2^32.
    pub values: &'a [f32],
}

impl Documents<'_> {
    /// How many documents there are.
    ///
    /// ```
    /// let documents = merino::Documents { offsets: &[0, 1], components: &[3], values: &[1.0] };
    /// assert_eq!(documents.count(), 1);
    /// ```
    pub fn count(&self) -> u64 {
        self.offsets.len().saturating_sub(1) as u64
    }

    /// The id of the page that a kept range stands for: the smallest document with this start. Refuses offsets that do not start at 0
    /// or that fall (6), and a start that no document has (15). Plain Rust, two passes over the offsets.
    ///
    /// ```
    /// use merino::{Documents, Refusal};
    /// let documents = Documents { offsets: &[0, 2, 2, 3], components: &[1, 5, 2], values: &[0.5, 1.0, 2.0] };
    /// assert_eq!(documents.page_number(2), Ok(1));
    /// assert_eq!(documents.page_number(1), Err(Refusal::NoSuchStart));
    /// ```
    pub fn page_number(&self, start: u64) -> Result<u64, Refusal> {
        if self.offsets.first() != Some(&0) || self.offsets.windows(2).any(|w| w[0] > w[1]) {
            return Err(Refusal::WrongDocuments);
        }
        let starts = &self.offsets[..self.offsets.len() - 1];
        let at = starts.partition_point(|&s| s < start);
        match starts.get(at) {
            Some(&s) if s == start => Ok(at as u64),
            _ => Err(Refusal::NoSuchStart),
        }
    }

    /// How many terms a document has; 0 where the offsets do not say.
    pub(crate) fn length_of(&self, id: u64) -> u64 {
        let at = id as usize;
        match (self.offsets.get(at), at.checked_add(1).and_then(|next| self.offsets.get(next))) {
            (Some(&from), Some(&to)) => to.saturating_sub(from),
            _ => 0,
        }
    }
}

/// A sparse query.
///
/// ```
/// let query = merino::Query { components: &[2, 7], values: &[1.0, 0.25] };
/// assert_eq!(query.components.len(), query.values.len());
/// ```
#[derive(Clone, Copy, Debug, PartialEq)]
pub struct Query<'a> {
    /// The components asked for, strictly rising.
    pub components: &'a [u32],
    /// Their values: finite, magnitude at most 2^32.
    pub values: &'a [f32],
}
