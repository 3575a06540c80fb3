//! The k best ranges found so far.
use crate::raw;
use crate::Refusal;

/// A range with its score.
///
/// ```
/// let entry = merino::Entry { packed: 3 * 65_536 + 4, score: 0.5 };
/// assert_eq!((entry.start(), entry.length()), (3, 4));
/// ```
#[derive(Clone, Copy, Debug, PartialEq)]
pub struct Entry {
    /// Start times 65,536 plus length.
    pub packed: u64,
    /// The dot product with the query.
    pub score: f32,
}

impl Entry {
    /// Where the range starts among the terms.
    ///
    /// ```
    /// assert_eq!(merino::Entry { packed: 196_612, score: 0.0 }.start(), 3);
    /// ```
    pub fn start(&self) -> u64 {
        self.packed / 65_536
    }

    /// How many terms the range has.
    ///
    /// ```
    /// assert_eq!(merino::Entry { packed: 196_612, score: 0.0 }.length(), 4);
    /// ```
    pub fn length(&self) -> u64 {
        self.packed % 65_536
    }
}

/// The k best entries so far, best first: greater score first, equal scores by the smaller packed number.
///
/// ```
/// use merino::KeptList;
/// let mut kept = KeptList::new(2);
/// for (start, score) in [(10, 5.0), (0, 3.0), (20, 3.0), (30, 4.0)] {
///     kept.push(start * 65_536, score)?;
/// }
/// let scores: Vec<f32> = kept.entries().map(|e| e.score).collect();
/// assert_eq!(scores, [5.0, 4.0]);
/// # Ok::<(), merino::Refusal>(())
/// ```
#[derive(Clone, Debug)]
pub struct KeptList {
    k: u64,
    pub(crate) length: u64,
    pub(crate) packed: Vec<u64>,
    pub(crate) scores: Vec<f32>,
}

impl KeptList {
    /// An empty list that is to keep the k best. A k of 0 is refused (11) by each call that uses it.
    ///
    /// ```
    /// assert!(merino::KeptList::new(10).is_empty());
    /// ```
    pub fn new(k: u64) -> Self {
        KeptList { k, length: 0, packed: Vec::new(), scores: Vec::new() }
    }

    /// How many are kept at the most.
    ///
    /// ```
    /// assert_eq!(merino::KeptList::new(10).k(), 10);
    /// ```
    pub fn k(&self) -> u64 {
        self.k
    }

    /// How many are kept.
    ///
    /// ```
    /// let mut kept = merino::KeptList::new(10);
    /// kept.push(0, 1.0).unwrap();
    /// assert_eq!(kept.len(), 1);
    /// ```
    pub fn len(&self) -> usize {
        self.length as usize
    }

    /// Whether none is kept.
    ///
    /// ```
    /// assert!(merino::KeptList::new(1).is_empty());
    /// ```
    pub fn is_empty(&self) -> bool {
        self.length == 0
    }

    /// What is kept, best first.
    ///
    /// ```
    /// let mut kept = merino::KeptList::new(3);
    /// kept.push(7, 1.0).unwrap();
    /// kept.push(5, 1.0).unwrap();
    /// let packed: Vec<u64> = kept.entries().map(|e| e.packed).collect();
    /// assert_eq!(packed, [5, 7]);
    /// ```
    pub fn entries(&self) -> impl Iterator<Item = Entry> + '_ {
        let n = self.len();
        self.packed[..n].iter().zip(&self.scores[..n]).map(|(&packed, &score)| Entry { packed, score })
    }

    /// Forgets what is kept.
    ///
    /// ```
    /// let mut kept = merino::KeptList::new(1);
    /// kept.push(0, 1.0).unwrap();
    /// kept.clear();
    /// assert!(kept.is_empty());
    /// ```
    pub fn clear(&mut self) {
        self.length = 0;
    }

    /// Below k entries adds one; at k puts it in place of the worst one if it is better. Refuses, with nothing changed, a k of 0 (11)
    /// and a score that is a NaN (12). Takes at most k steps; one that is not better than the worst of k takes one.
    ///
    /// ```
    /// use merino::{KeptList, Refusal};
    /// let mut kept = KeptList::new(1);
    /// kept.push(65_536, 2.0)?;
    /// kept.push(0, 1.0)?;
    /// assert_eq!(kept.entries().next().unwrap().score, 2.0);
    /// assert_eq!(kept.push(0, f32::NAN), Err(Refusal::WrongKeptList));
    /// # Ok::<(), Refusal>(())
    /// ```
    pub fn push(&mut self, packed: u64, score: f32) -> Result<(), Refusal> {
        self.grow(self.k.min(self.length + 1));
        // sound: both buffers are this list's own, and each pointer goes with its own length
        let number = unsafe {
            raw::merino_push(
                self.k,
                &mut self.length,
                self.packed.as_mut_ptr(),
                self.packed.len(),
                self.scores.as_mut_ptr(),
                self.scores.len(),
                packed,
                score,
            )
        };
        Refusal::verdict(number)
    }

    /// Makes room for so many entries; where more is kept already nothing changes.
    pub(crate) fn grow(&mut self, places: u64) {
        let places = (places as usize).max(self.packed.len());
        self.packed.resize(places, 0);
        self.scores.resize(places, 0.0);
    }
}
