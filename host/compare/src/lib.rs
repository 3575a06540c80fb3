//! The original, a plain reading of document 01 and the proved functions, side by side.
#[cfg(source)]
pub mod against;
pub mod any;
pub mod cases;
pub mod damage;
pub mod model;
pub mod model_build;
pub mod ours;
pub mod slips;

use cases::Random;
use slips::Slip;

/// One case: None where it does not count, else whether all agree.
pub type Case = fn(&mut Random, Slip) -> Option<bool>;

/// The kinds of cases, by name. Those that need the original are there where its source is.
pub fn kinds() -> Vec<(&'static str, Case)> {
    #[cfg_attr(not(source), allow(unused_mut))]
    let mut all: Vec<(&'static str, Case)> = vec![("any_push", any::case_any_push), ("any_search", any::case_any_search), ("any_build", any::case_any_build)];
    #[cfg(source)]
    all.extend([
        ("pack", against::case_pack as Case),
        ("block", against::case_block),
        ("quantize", against::case_quantize),
        ("push", against::case_push),
        ("build", against::case_build),
        ("search", against::case_search),
        ("large", against::case_large),
    ]);
    all
}

/// Runs cases until so many are accepted: how many were, of how many, and the number of the first that differs.
pub fn run(case: Case, accepted: u64, seed: u64, slip: Slip) -> (u64, u64, Option<u64>) {
    let (mut done, mut tried) = (0, 0);
    while done < accepted {
        let mut r = Random::new(seed.wrapping_mul(1_000_003).wrapping_add(tried));
        match case(&mut r, slip) {
            None => {}
            Some(true) => done += 1,
            Some(false) => return (done, tried, Some(tried)),
        }
        tried += 1;
    }
    (done, tried, None)
}
