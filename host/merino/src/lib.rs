//! One posting list of a sparse index, built and searched by proved functions.
//!
//! The work is done by `libmerino.a`, in which every function is proved to meet its contract on every input: it ends, it writes nothing
//! outside the buffers that it is lent, and wrong input gets a numbered [`Refusal`]. This crate allocates those buffers and calls it;
//! it is plain Rust and is not proved.
//!
//! Make the library with `rt lib` in the folder crates/merino, or let the environment variable `MERINO_LIB` name the folder
//! that has libmerino.a.
//!
//! ```
//! use merino::{Configuration, Documents, KeptList, PostingList, Query, Visits};
//!
//! // three documents of two terms each, and one of none
//! let documents = Documents {
//!     offsets: &[0, 2, 4, 6, 6],
//!     components: &[0, 3, 1, 3, 0, 2],
//!     values: &[1.0, 2.0, 4.0, 1.0, 3.0, 0.5],
//! };
//! let list = PostingList::build(documents, 4, &[0, 1, 2], &[1], &Configuration::default())?;
//!
//! // the two best for a query
//! let mut kept = KeptList::new(2);
//! let mut visits = Visits::new(documents);
//! let query = Query { components: &[0, 3], values: &[1.0, 1.0] };
//! let found = list.search(documents, query, 0.8, &mut kept, &mut visits)?;
//! assert_eq!(found.evaluated, 3);
//! let ids: Vec<u64> = kept.entries().map(|e| documents.page_number(e.start()).unwrap()).collect();
//! assert_eq!(ids, [0, 2]);
//! # Ok::<(), Box<dyn std::error::Error>>(())
//! ```
#![warn(missing_docs)]

mod configuration;
mod documents;
mod kept;
mod list;
pub mod raw;
mod refusal;
mod scratch;

pub use configuration::{BlockingStrategy, ClusteringAlgorithm, Configuration, SummarizationStrategy};
pub use documents::{Documents, Query};
pub use kept::{Entry, KeptList};
pub use list::{Found, PostingList, Visits};
pub use refusal::{Refusal, SearchError};
pub use scratch::ScratchNeeds;
