//! Stand-in: centroids are given by the caller, so the choice hands out the ones that were set for this thread.
pub mod prelude {
    pub use crate::{IndexedRandom, IteratorRandom, SeedableRng, StdRng};
}

use std::cell::RefCell;

thread_local! {
    static CENTROIDS: RefCell<Vec<usize>> = const { RefCell::new(Vec::new()) };
}

/// The centroids that the next choices give, as many as are asked for.
pub fn set_centroids(centroids: &[usize]) {
    CENTROIDS.with(|c| *c.borrow_mut() = centroids.to_vec());
}

pub struct StdRng;

pub trait SeedableRng {
    fn seed_from_u64(seed: u64) -> Self;
}

impl SeedableRng for StdRng {
    fn seed_from_u64(_: u64) -> Self {
        StdRng
    }
}

fn chosen(amount: usize, available: usize) -> Vec<usize> {
    CENTROIDS.with(|c| {
        let c = c.borrow();
        assert_eq!(c.len(), amount.min(available), "as many centroids as are asked for");
        c.clone()
    })
}

/// `slice.choose_multiple(rng, n)`, an iterator of references.
pub trait IndexedRandom {
    fn choose_multiple(&self, rng: &mut StdRng, amount: usize) -> std::vec::IntoIter<&'static usize>;
}

impl IndexedRandom for [usize] {
    fn choose_multiple(&self, _: &mut StdRng, amount: usize) -> std::vec::IntoIter<&'static usize> {
        let list: &'static [usize] = Vec::leak(chosen(amount, self.len()));
        list.iter().collect::<Vec<_>>().into_iter()
    }
}

/// `iterator.choose_multiple(rng, n)`, a vector of values.
pub trait IteratorRandom: Iterator<Item = usize> + Sized {
    fn choose_multiple(self, _: &mut StdRng, amount: usize) -> Vec<usize> {
        let available = self.count();
        chosen(amount, available)
    }
}

impl<I: Iterator<Item = usize>> IteratorRandom for I {}
