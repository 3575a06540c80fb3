//! pages [SECONDS]: ns per page of the proved search, every check included, beside a dense lookup without checks, in one run.
//! One block of pages of 120 terms, a query of 43, k = 10; visit bytes are cleared before each search, outside the time.

use compare::cases::Random;
use compare::{model, ours};
use std::time::Instant;

const DIMENSION: u64 = 30_000;
const TERMS: u64 = 120;

fn page(r: &mut Random, components: &mut Vec<u32>, values: &mut Vec<f32>) {
    let gap = DIMENSION / TERMS;
    for i in 0..TERMS {
        components.push((i * gap + r.below(gap)) as u32);
        values.push(0.1 + r.below(1000) as f32 / 500.0);
    }
}

/// Seconds for one pass over the pages by a dense query, and a sum that uses every score.
fn dense(query: &[(u32, f32)], components: &[u32], values: &[f32], order: &[u64], into: &mut [f32]) -> (f64, f32) {
    let mut table = vec![0.0f32; DIMENSION as usize];
    for &(c, w) in query {
        table[c as usize] = w;
    }
    let start = Instant::now();
    let mut best = 0.0f32;
    for (i, &p) in order.iter().enumerate() {
        let at = model::start_of(p) as usize;
        let mut sum = 0.0f32;
        for j in at..at + TERMS as usize {
            sum += values[j] * unsafe { *table.get_unchecked(components[j] as usize) };
        }
        into[i] = sum;
        best = best.max(sum);
    }
    (start.elapsed().as_secs_f64(), best)
}

fn main() {
    let seconds: f64 = std::env::args().nth(1).map_or(2.0, |s| s.parse().unwrap());
    for (name, pages) in [("warm", 200u64), ("cold", 800_000)] {
        let mut r = Random::new(11);
        let (mut components, mut values) = (Vec::new(), Vec::new());
        for _ in 0..pages {
            page(&mut r, &mut components, &mut values);
        }
        // pages in random order, as a list has them
        let mut packed: Vec<u64> = (0..pages).map(|i| model::pack(i * TERMS, (i + 1) * TERMS).unwrap()).collect();
        for i in (1..packed.len()).rev() {
            packed.swap(i, r.below(i as u64 + 1) as usize);
        }
        let list = model::List {
            block_offsets: vec![0, pages],
            component_offsets: vec![0],
            minimums: vec![0.0],
            steps: vec![0.0],
            postings: packed.clone(),
            ..Default::default()
        };
        let mut input = model::SearchInput { query_components: vec![], query_values: vec![], k: 10, factor: 0.8, components, values, list, sorted: false };
        let mut b = model::SearchBuffers {
            length: 0,
            packed: vec![0; 10],
            kept_scores: vec![0.0; 10],
            visits: vec![0; input.components.len() + 1],
            block_scores: vec![0.0; 1],
            block_order: vec![],
        };
        let mut scores = vec![0.0; pages as usize];
        let (mut ours, mut theirs, mut rounds) = (0.0, 0.0, 0u64);
        let mut used = 0.0f64;
        let begun = Instant::now();
        while begun.elapsed().as_secs_f64() < seconds || rounds < 3 {
            let mut q: Vec<u32> = (0..43).map(|i| (i * (DIMENSION / 43) + r.below(DIMENSION / 43)) as u32).collect();
            q.sort();
            let query: Vec<(u32, f32)> = q.into_iter().map(|c| (c, 0.5 + r.below(100) as f32 / 50.0)).collect();
            input.query_components = query.iter().map(|t| t.0).collect();
            input.query_values = query.iter().map(|t| t.1).collect();
            b.length = 0;
            for p in &packed {
                b.visits[model::start_of(*p) as usize] = 0;
            }
            let (_, t) = ours::timed_search(&input, &mut b);
            ours += t;
            let (t, best) = dense(&query, &input.components, &input.values, &packed, &mut scores);
            theirs += t;
            used += best as f64;
            assert_eq!(best.to_bits(), b.kept_scores[0].to_bits());
            rounds += 1;
        }
        let each = |t: f64| t / rounds as f64 / pages as f64 * 1e9;
        println!("{name}: {pages} pages of {TERMS} terms, proved search {:.0} ns a page, dense lookup {:.0} ns, ratio {:.2}  ({used:.0})", each(ours), each(theirs), ours / theirs);
    }
}
