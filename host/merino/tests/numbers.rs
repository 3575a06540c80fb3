//! The numbers of the refusals are defined in crates/refusal/specs/Refusals.antt; a C function answers a number alone, so no proof sees
//! which name this crate gives it. Here the crate's table is held against that definition.
use merino::Refusal;
use std::fs;

/// The number and the name of each case of `number_of`, in the order in which they stand.
fn defined(text: &str) -> Vec<(u64, String)> {
    let cases = text.lines().filter_map(|line| line.strip_prefix("number_of ")).filter_map(|case| case.split_once(" = "));
    cases.map(|(name, number)| (number.parse().expect(number), name.to_string())).collect()
}

#[test]
fn each_refusal_has_its_defined_number() {
    let path = format!("{}/../../crates/refusal/specs/Refusals.antt", env!("CARGO_MANIFEST_DIR"));
    let defined = defined(&fs::read_to_string(&path).expect(&path));
    let ours: Vec<_> = (0..1000).filter_map(Refusal::of_number).map(|refusal| (refusal.number(), format!("{refusal:?}"))).collect();
    assert_eq!(ours, defined);
}
