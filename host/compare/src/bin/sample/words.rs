//! A case as a row of words (crates/replay_words), and as it lies in the file (crates/replay/src/record.rt).

/// The words that a case may have.
const WORDS: usize = 1024;

/// A float's key: its rising order is the total order.
pub fn key(v: f32) -> u32 {
    let b = v.to_bits();
    if b >> 31 == 1 { !b } else { b | 1 << 31 }
}

pub fn keys(v: &[f32]) -> Vec<u32> {
    v.iter().map(|&x| key(x)).collect()
}

/// A number as one word, where it fits.
pub fn word(x: u64) -> Option<u32> {
    u32::try_from(x).ok()
}

pub fn words(v: &[u64]) -> Option<Vec<u32>> {
    v.iter().map(|&x| word(x)).collect()
}

pub fn long(x: u64) -> [u32; 2] {
    [(x >> 32) as u32, x as u32]
}

/// Small words in a byte, others behind 252 in two or behind 253 in four; two bytes in front say how many follow.
pub fn record(words: &[u32]) -> Option<Vec<u8>> {
    if words.len() > WORDS {
        return None;
    }
    let mut bytes = Vec::new();
    for &w in words {
        match w {
            0..=251 => bytes.push(w as u8),
            252..=65_535 => bytes.extend([252, w as u8, (w >> 8) as u8]),
            _ => bytes.extend([253, w as u8, (w >> 8) as u8, (w >> 16) as u8, (w >> 24) as u8]),
        }
    }
    if bytes.len() > 4096 {
        return None;
    }
    let mut all = (bytes.len() as u16).to_le_bytes().to_vec();
    all.extend(bytes);
    Some(all)
}

/// Slices one after another: where each starts from a place on, and where the last one ends.
pub fn laid(from: usize, slices: &[Vec<u32>]) -> Vec<u32> {
    let mut at = vec![from as u32];
    for s in slices {
        at.push(at[at.len() - 1] + s.len() as u32);
    }
    at
}
