//! Ranges packed, lists cut into blocks, values quantized, entries pushed.
use crate::words::*;
use compare::cases::*;

pub fn pack_case(r: &mut Random) -> Option<Vec<u32>> {
    let start = if r.chance(4) { (1 << 48) - 1 - r.below(3) } else { r.next() >> (16 + r.below(48)) };
    let end = match r.below(4) {
        0 => start.saturating_sub(r.below(9)),
        1 => start + 65_535 - r.below(2),
        _ => start + r.below(65_536),
    };
    let packed = original::pack(start, end);
    Some([&[1][..], &long(start), &long(end), &long(packed)].concat())
}

pub fn block_case(r: &mut Random) -> Option<Vec<u32>> {
    let (n, size) = (r.below(200), 1 + r.below(40));
    let offsets = words(&original::fixed_offsets(n, size))?;
    let slices = [offsets];
    Some([&[2, n as u32, size as u32][..], &laid(5, &slices), &slices.concat()].concat())
}

pub fn quantize_case(r: &mut Random) -> Option<Vec<u32>> {
    let values: Vec<f32> = (0..1 + r.below(12)).map(|_| value(r)).collect();
    let (least, step, codes) = original::quantize(&values);
    let codes: Vec<u32> = codes.iter().map(|&c| c as u32).collect();
    let slices = [keys(&values), codes];
    Some([&[3, key(least), key(step)][..], &laid(6, &slices), &slices.concat()].concat())
}

/// Eight places of a kept list: packed numbers and scores, 0 past them.
pub fn places(entries: &[(u64, f32)]) -> Option<[Vec<u32>; 2]> {
    let mut packed: Vec<u64> = entries.iter().map(|e| e.0).collect();
    let mut scores: Vec<f32> = entries.iter().map(|e| e.1).collect();
    packed.resize(8, 0);
    scores.resize(8, 0.0);
    Some([words(&packed)?, keys(&scores)])
}

pub fn push_case(r: &mut Random) -> Option<Vec<u32>> {
    let k = 1 + r.below(6);
    let before = kept(r, k, 6);
    let mut theirs = original::Kept::new(k, &before, &[]);
    let (packed, score) = (r.below(8) * 65_536 + r.below(3), value(r));
    theirs.push(packed, score);
    let after = theirs.entries();
    let [p, s] = places(&before)?;
    let [q, t] = places(&after)?;
    // past the entries a push leaves what was there
    let mut q = q;
    let mut t = t;
    for i in after.len()..8 {
        q[i] = p[i];
        t[i] = s[i];
    }
    let head = [4, k as u32, before.len() as u32, word(packed)?, key(score), after.len() as u32];
    let slices = [p, s, q, t];
    Some([&head[..], &laid(11, &slices), &slices.concat()].concat())
}
