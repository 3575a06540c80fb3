//! Searches and pushes that are refused or stopped, with their numbers.
use merino::*;

const DOCUMENTS: Documents = Documents { offsets: &[0, 1, 2], components: &[0, 0], values: &[1.0, 2.0] };

fn list() -> PostingList {
    PostingList {
        postings: vec![1, 65_536 + 1],
        block_offsets: vec![0, 2],
        summary_components: vec![0],
        component_offsets: vec![0, 1],
        summary_ids: vec![0],
        codes: vec![0],
        minimums: vec![2.0],
        steps: vec![0.0],
    }
}

const QUERY: Query = Query { components: &[0], values: &[1.0] };

fn searched(list: &PostingList, documents: Documents, query: Query, kept: &mut KeptList) -> Result<Found, SearchError> {
    list.search(documents, query, 1.0, kept, &mut Visits::new(documents))
}

#[test]
fn refused_before_probing() {
    let one = &mut KeptList::new(1);
    assert_eq!(searched(&list(), DOCUMENTS, QUERY, &mut KeptList::new(0)).unwrap_err(), SearchError::Refused(Refusal::NothingToKeep));
    let falling = Query { components: &[1, 0], values: &[1.0, 1.0] };
    assert_eq!(searched(&list(), DOCUMENTS, falling, one).unwrap_err(), SearchError::Refused(Refusal::WrongQuery));
    let uneven = Documents { values: &[1.0], ..DOCUMENTS };
    assert_eq!(searched(&list(), uneven, QUERY, one).unwrap_err(), SearchError::Refused(Refusal::WrongDocuments));
    let malformed = PostingList { block_offsets: vec![0, 3], ..list() };
    assert_eq!(searched(&malformed, DOCUMENTS, QUERY, one).unwrap_err(), SearchError::Refused(Refusal::MalformedList));
    let none = Documents { offsets: &[0], components: &[], values: &[] };
    let few = list().search(DOCUMENTS, QUERY, 1.0, one, &mut Visits::new(none));
    assert_eq!(few.unwrap_err(), SearchError::Refused(Refusal::BufferTooShort));
    assert!(one.is_empty());
}

#[test]
fn stopped_at_a_posting() {
    let past = PostingList { postings: vec![1, 65_536 + 9], ..list() };
    let mut kept = KeptList::new(3);
    let stopped = searched(&past, DOCUMENTS, QUERY, &mut kept).unwrap_err();
    assert_eq!(stopped, SearchError::Stopped { refusal: Refusal::PastTheTerms, position: 1 });
    // the posting before it was evaluated and is kept
    assert_eq!(kept.entries().collect::<Vec<_>>(), [Entry { packed: 1, score: 1.0 }]);
    let infinite = Documents { values: &[1.0, f32::INFINITY], ..DOCUMENTS };
    let stopped = searched(&list(), infinite, QUERY, &mut KeptList::new(3)).unwrap_err();
    assert_eq!(stopped, SearchError::Stopped { refusal: Refusal::WrongTerms, position: 1 });
}

#[test]
fn a_k_that_no_memory_holds() {
    let mut kept = KeptList::new(u64::MAX);
    let found = searched(&list(), DOCUMENTS, QUERY, &mut kept).unwrap();
    assert_eq!((found.evaluated, kept.len()), (2, 2));
    kept.push(7, 0.5).unwrap();
    assert_eq!(kept.len(), 3);
}

#[test]
fn every_number_has_its_refusal() {
    for number in 1..=15 {
        assert_eq!(Refusal::of_number(number).unwrap().number(), number);
    }
    assert_eq!(Refusal::of_number(16), None);
}
