//! compare [KIND [CASES [SEED]]]: so many cases of a kind, or of all but `large`; `slips` tries each deliberate slip until some kind
//! notices it.
use compare::slips::{Slip, SLIPS};
use compare::{kinds, run, Case};

/// The kinds that a name stands for: one of them, or all but the large cases.
fn named(name: &str) -> Vec<(&'static str, Case)> {
    kinds().into_iter().filter(|k| k.0 == name || (name == "all" && k.0 != "large")).collect()
}

/// Whether each slip is noticed by some kind.
fn slips(cases: u64, seed: u64) -> bool {
    if !original::PRESENT {
        println!("the slips are not tried: some are noticed by the original alone");
        return true;
    }
    let mut missed = 0;
    for slip in SLIPS {
        let noticed = named("all").into_iter().find_map(|(name, case)| run(case, cases, seed, *slip).2.map(|at| (name, at)));
        match noticed {
            Some((name, at)) => println!("{slip:?}: noticed by {name}, case {at}"),
            None => {
                println!("{slip:?}: NOT NOTICED in {cases} cases");
                missed += 1;
            }
        }
    }
    println!("slips: {} of {} noticed", SLIPS.len() - missed, SLIPS.len());
    missed == 0
}

/// Whether no case of the named kind, or of any, differs.
fn compare(kind: &str, cases: u64, seed: u64) -> bool {
    let mut same = true;
    for (name, case) in named(kind) {
        let (done, tried, wrong) = run(case, cases, seed, Slip::None);
        match wrong {
            None => println!("{name}: {done} accepted of {tried}, no difference"),
            Some(at) => {
                println!("{name}: DIFFERS at case {at} of seed {seed}");
                same = false;
            }
        }
    }
    same
}

fn main() {
    if !original::PRESENT {
        println!("the original's source is not here: the proved functions are compared with the plain reading alone");
    }
    let args: Vec<String> = std::env::args().collect();
    let kind = args.get(1).map_or("all", |s| s.as_str());
    let cases: u64 = args.get(2).map_or(10_000, |s| s.parse().unwrap());
    let seed: u64 = args.get(3).map_or(1, |s| s.parse().unwrap());
    let well = if kind == "slips" { slips(cases, seed) } else { compare(kind, cases, seed) };
    if !well {
        std::process::exit(1);
    }
}
