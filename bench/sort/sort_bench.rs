// Times the proved sort beside Rust's `sort_unstable` on the same keys, turn about, in one run. Usage: sort_bench [ROUNDS]
use std::time::Instant;

extern "C" {
    fn merino_sort(keys: *mut u64, len: usize);
}

fn proved(keys: &mut [u64]) {
    unsafe { merino_sort(keys.as_mut_ptr(), keys.len()) }
}

fn rusts(keys: &mut [u64]) {
    keys.sort_unstable()
}

// xorshift64*: the same keys in every run
struct Random(u64);

impl Random {
    fn next(&mut self) -> u64 {
        self.0 ^= self.0 >> 12;
        self.0 ^= self.0 << 25;
        self.0 ^= self.0 >> 27;
        self.0.wrapping_mul(0x2545_F491_4F6C_DD1D)
    }
}

// ns per key to sort every list once; the result is checked
fn time(sort: fn(&mut [u64]), lists: &[Vec<u64>], right: &[Vec<u64>]) -> f64 {
    let mut work = lists.to_vec();
    let start = Instant::now();
    for list in work.iter_mut() {
        sort(list);
    }
    let ns = start.elapsed().as_nanos() as f64;
    assert!(work == right, "the keys are not sorted");
    ns / lists.iter().map(|list| list.len() as f64).sum::<f64>()
}

fn median(mut times: Vec<f64>) -> f64 {
    times.sort_by(f64::total_cmp);
    times[times.len() / 2]
}

fn compare(name: &str, rounds: usize, lists: Vec<Vec<u64>>) {
    let mut right = lists.clone();
    right.iter_mut().for_each(|list| list.sort());
    let (mut ours, mut theirs) = (Vec::new(), Vec::new());
    for round in 0..rounds {
        if round % 2 == 0 {
            ours.push(time(proved, &lists, &right));
            theirs.push(time(rusts, &lists, &right));
        } else {
            theirs.push(time(rusts, &lists, &right));
            ours.push(time(proved, &lists, &right));
        }
    }
    let (a, b) = (median(ours), median(theirs));
    println!("{:<22} {:>9} {:>7} {:>10.2} {:>10.2} {:>7.3}", name, lists[0].len(), lists.len(), a, b, a / b);
}

fn main() {
    let rounds: usize = std::env::args().nth(1).map_or(21, |s| s.parse().unwrap());
    let mut random = Random(0x9E37_79B9_7F4A_7C15);
    let million = 1_000_000;
    println!("{:<22} {:>9} {:>7} {:>10} {:>10} {:>7}", "ns per key", "keys", "lists", "proved", "Rust", "ratio");
    let thousands = (0..1_000).map(|_| (0..1_000).map(|_| random.next()).collect()).collect();
    compare("random", rounds, thousands);
    compare("random", rounds, vec![(0..million).map(|_| random.next()).collect()]);
    // no promise on these: that none of them is slow
    compare("32-bit scores, block", rounds, vec![(0..65_535).map(|i| (random.next() >> 32) << 32 | i).collect()]);
    compare("few values", rounds, vec![(0..million).map(|_| random.next() % 16).collect()]);
    compare("falling", rounds, vec![(0..million).rev().collect()]);
    compare("two rising runs", rounds, vec![(0..million).map(|i| (i % (million / 2)) * 3).collect()]);
    compare("powers of two", rounds, vec![(0..million).map(|_| 1 << (random.next() % 64)).collect()]);
}
