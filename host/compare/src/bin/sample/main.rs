//! sample FILE [CASES [SEED [KIND]]]: writes so many of the original's answers of each kind, or of one, for the program `replay`, then a
//! damaged one of each kind, and says what the builds among them have.
#[cfg(source)]
mod builds;
#[cfg(source)]
mod leaves;
#[cfg(source)]
mod searches;
#[cfg(source)]
mod words;

#[cfg(source)]
mod write {
    use crate::builds::{build_case, count};
    use crate::leaves::*;
    use crate::searches::search_case;
    use crate::words::record;
    use compare::cases::Random;
    use std::collections::BTreeMap;
    use std::io::Write;

    /// The words of a case, where it is accepted and short enough.
    type Case = fn(&mut Random) -> Option<Vec<u32>>;

    const KINDS: [(&str, Case); 6] =
        [("pack", pack_case), ("block", block_case), ("quantize", quantize_case), ("push", push_case), ("search", search_case), ("build", build_case)];

    /// The case with another answer, whose last word stands at the end; 8 more than its kind says so.
    fn other_answer(mut words: Vec<u32>) -> Vec<u32> {
        words[0] += 8;
        *words.last_mut().expect("a case has words") ^= 1;
        words
    }

    pub fn sample(file: &str, cases: u64, seed: u64, only: Option<&str>) -> std::io::Result<()> {
        let mut out = std::io::BufWriter::new(std::fs::File::create(file)?);
        let mut counts = BTreeMap::new();
        let mut damaged = Vec::new();
        for (kind, (name, case)) in KINDS.iter().enumerate().filter(|(_, k)| only.is_none_or(|o| o == k.0)) {
            let (mut done, mut tried) = (0, 0);
            let mut last = None;
            while done < cases {
                let mut r = Random::new(seed.wrapping_mul(1_000_003).wrapping_add(tried * 16 + kind as u64));
                let mut again = r.clone();
                tried += 1;
                let words = case(&mut r);
                if let Some(bytes) = words.as_ref().and_then(|w| record(w)) {
                    out.write_all(&bytes)?;
                    done += 1;
                    last = words;
                    if *name == "build" {
                        count(&mut again, &mut counts);
                    }
                }
            }
            damaged.extend(last.and_then(|w| record(&other_answer(w))));
        }
        damaged.iter().try_for_each(|bytes| out.write_all(bytes))?;
        counts.iter().for_each(|(feature, n)| println!("{n} builds: {feature}"));
        out.flush()
    }
}

#[cfg(source)]
fn main() -> std::io::Result<()> {
    let args: Vec<String> = std::env::args().collect();
    let file = args.get(1).expect("the file to write");
    let cases = args.get(2).map_or(1_000, |s| s.parse().unwrap());
    let seed = args.get(3).map_or(1, |s| s.parse().unwrap());
    write::sample(file, cases, seed, args.get(4).map(|s| s.as_str()))
}

#[cfg(not(source))]
fn main() {
    println!("the original's source is not here: there is nothing to take a sample from");
}
