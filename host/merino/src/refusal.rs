//! Why a call is refused. The numbers are defined in crates/refusal/specs/Refusals.antt; tests/numbers.rs holds this table against them.
use std::fmt;

macro_rules! refusals {
    ($($number:literal $name:ident $text:literal)*) => {
        /// Why a call was refused: one variant for each number of the paper's table.
        ///
        /// ```
        /// use merino::{KeptList, Refusal};
        /// let refused = KeptList::new(0).push(196_612, 1.0).unwrap_err();
        /// assert_eq!(refused, Refusal::NothingToKeep);
        /// assert_eq!(refused.number(), 11);
        /// assert_eq!(refused.to_string(), "refused (11): k is 0");
        /// ```
        #[derive(Clone, Copy, Debug, PartialEq, Eq, Hash, PartialOrd, Ord)]
        pub enum Refusal {
            $(#[doc = concat!($number, ": ", $text, ".")] $name = $number,)*
        }

        impl Refusal {
            /// The refusal of a number, if it is one of them.
            ///
            /// ```
            /// use merino::Refusal;
            /// assert_eq!(Refusal::of_number(4), Some(Refusal::BufferTooShort));
            /// assert_eq!(Refusal::of_number(0), None);
            /// ```
            pub fn of_number(number: u64) -> Option<Refusal> {
                match number {
                    $($number => Some(Refusal::$name),)*
                    _ => None,
                }
            }

            fn text(self) -> &'static str {
                match self {
                    $(Refusal::$name => $text,)*
                }
            }
        }
    };
}

refusals! {
    1 StartTooLarge "a range starts at 2^48 or later"
    2 RangeTooLong "a range is longer than 65,535"
    3 NoBlockSize "the block size is 0"
    4 BufferTooShort "a buffer is shorter than the call needs"
    5 WrongCentroids "there are more than 65,535 centroids, or not as many listed as the fraction asks for"
    6 WrongDocuments "document offsets are wrong, terms differ in number, or an id is unknown"
    7 EmptySummary "a block's summary is empty"
    8 OutsideLimits "list length, dimension or number of blocks is outside its limit"
    9 MalformedList "the list to be searched is malformed"
    10 WrongQuery "the query's components don't strictly rise, differ in number from its values, or a value breaks its bound"
    11 NothingToKeep "k is 0"
    12 WrongKeptList "the kept list is too long or out of order, or a score is a NaN"
    13 PastTheTerms "an unvisited range reaches past the terms"
    14 WrongTerms "a document's components don't strictly rise or reach the dimension, or a value breaks its bound"
    15 NoSuchStart "no document has the asked start"
}

impl Refusal {
    /// The number in the paper's table.
    ///
    /// ```
    /// assert_eq!(merino::Refusal::WrongQuery.number(), 10);
    /// ```
    pub fn number(self) -> u64 {
        self as u64
    }

    /// The verdict that a C function's number stands for.
    pub(crate) fn verdict(number: u64) -> Result<(), Refusal> {
        match number {
            0 => Ok(()),
            n => Err(Refusal::of_number(n).expect("the library answers 0 or the number of a refusal")),
        }
    }
}

impl fmt::Display for Refusal {
    fn fmt(&self, f: &mut fmt::Formatter) -> fmt::Result {
        write!(f, "refused ({}): {}", self.number(), self.text())
    }
}

impl std::error::Error for Refusal {}

/// Why a search gave no answer.
///
/// ```
/// use merino::{Refusal, SearchError};
/// let stopped = SearchError::Stopped { refusal: Refusal::PastTheTerms, position: 7 };
/// assert_eq!(stopped.refusal().number(), 13);
/// assert_eq!(stopped.to_string(), "refused (13): an unvisited range reaches past the terms, at posting 7");
/// ```
#[derive(Clone, Copy, Debug, PartialEq, Eq)]
pub enum SearchError {
    /// Refused before any posting was read; nothing has changed.
    Refused(Refusal),
    /// Stopped by 13 or 14 at a posting; the kept list and the visits stand as after the postings before it.
    Stopped {
        /// 13 or 14.
        refusal: Refusal,
        /// Where in the list's postings the search stopped.
        position: u64,
    },
}

impl SearchError {
    /// The refusal, whether the search began or not.
    ///
    /// ```
    /// use merino::{Refusal, SearchError};
    /// assert_eq!(SearchError::Refused(Refusal::MalformedList).refusal(), Refusal::MalformedList);
    /// ```
    pub fn refusal(self) -> Refusal {
        match self {
            SearchError::Refused(refusal) | SearchError::Stopped { refusal, .. } => refusal,
        }
    }
}

impl fmt::Display for SearchError {
    fn fmt(&self, f: &mut fmt::Formatter) -> fmt::Result {
        match self {
            SearchError::Refused(refusal) => refusal.fmt(f),
            SearchError::Stopped { refusal, position } => write!(f, "{refusal}, at posting {position}"),
        }
    }
}

impl std::error::Error for SearchError {}
