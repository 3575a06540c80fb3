// How far a value read back from its code drifts: a search for the worst cases, by running the six f32 operations of document 01
// and measuring each result exactly, over whole numbers of 2^-149.
//
//     rustc --edition 2021 -O drift.rs && ./drift [lists of each search] [seed]
//
// The allowance is half a step, and beyond it 1/16384 of a step (the step part) and 1/8388608 of the larger magnitude of least and greatest
// (the magnitude part). For each list the search tries values near the half-way points between two codes, where the drift is largest, and it
// climbs from the worst list that it has met. It searches four times, for the largest
//   1. share of the whole allowance;
//   2. share of both parts beyond half a step;
//   3. share of the step part that is needed where the magnitude part is used up first;
//   4. share of the magnitude part that is needed where the step part is used up first.
// It stops at once where demand 3 fails.

// A whole number of 384 bits: an f32 in units of 2^-149 has 277, and a factor of 2^24 comes on top.
#[derive(Clone, Copy, PartialEq, Eq)]
struct Whole([u64; 6]);

impl Whole {
    const ZERO: Whole = Whole([0; 6]);

    // m x 2^shift
    fn shifted(m: u64, shift: u32) -> Whole {
        let mut w = [0u64; 6];
        let (at, by) = ((shift / 64) as usize, shift % 64);
        w[at] = m << by;
        if by > 0 {
            w[at + 1] = m >> (64 - by);
        }
        Whole(w)
    }

    fn plus(self, other: Whole) -> Whole {
        let mut w = [0u64; 6];
        let mut carry = 0u128;
        for i in 0..6 {
            let s = self.0[i] as u128 + other.0[i] as u128 + carry;
            w[i] = s as u64;
            carry = s >> 64;
        }
        assert!(carry == 0);
        Whole(w)
    }

    // self - other, where other is not the greater
    fn less(self, other: Whole) -> Whole {
        let mut w = [0u64; 6];
        let mut borrow = 0i128;
        for i in 0..6 {
            let d = self.0[i] as i128 - other.0[i] as i128 - borrow;
            w[i] = d as u64;
            borrow = (d < 0) as i128;
        }
        assert!(borrow == 0);
        Whole(w)
    }

    fn at_most(self, other: Whole) -> bool {
        for i in (0..6).rev() {
            if self.0[i] != other.0[i] {
                return self.0[i] < other.0[i];
            }
        }
        true
    }

    fn times(self, n: u64) -> Whole {
        let mut w = [0u64; 6];
        let mut carry = 0u128;
        for i in 0..6 {
            let s = self.0[i] as u128 * n as u128 + carry;
            w[i] = s as u64;
            carry = s >> 64;
        }
        assert!(carry == 0);
        Whole(w)
    }

    // only for what is printed
    fn about(self) -> f64 {
        (0..6).map(|i| self.0[i] as f64 * 2f64.powi(64 * i as i32)).sum()
    }
}

// The magnitude of a finite f32, in units of 2^-149.
fn units(x: f32) -> Whole {
    let bits = x.to_bits();
    let exponent = (bits >> 23) & 0xff;
    let fraction = (bits & 0x7f_ffff) as u64;
    if exponent == 0 {
        Whole::shifted(fraction, 0)
    } else {
        Whole::shifted(fraction | 0x80_0000, exponent - 1)
    }
}

fn apart(x: f32, y: f32) -> Whole {
    let (a, b) = (units(x), units(y));
    if x.is_sign_negative() != y.is_sign_negative() {
        a.plus(b)
    } else if a.at_most(b) {
        b.less(a)
    } else {
        a.less(b)
    }
}

#[derive(Clone, Copy)]
struct Case {
    least: f32,
    greatest: f32,
    value: f32,
    code: u8,
    step: f32,
    back: f32,
    // the four shares above
    shares: [f64; 4],
}

// (a - b) / c, for what is printed
fn share(a: Whole, b: Whole, c: Whole) -> f64 {
    let d = if b.at_most(a) { a.less(b).about() } else { -b.less(a).about() };
    d / c.about()
}

// Both sides of demand 3, times 8388608, and the four shares.
fn measure(least: f32, greatest: f32, value: f32) -> Option<Case> {
    if !(least <= value && value <= greatest && least.abs() <= 4294967296.0 && greatest.abs() <= 4294967296.0) {
        return None;
    }
    let step = (greatest - least) / 255.0;
    if step < f32::MIN_POSITIVE {
        return None;
    }
    let code = ((value - least) / step).round() as u8;
    let back = code as f32 * step + least;
    let drift = apart(back, value).times(8388608);
    let (l, g) = (units(least), units(greatest));
    let half = units(step).times(4194304);
    let (of_step, of_size) = (units(step).times(512), if l.at_most(g) { g } else { l });
    let beyond = of_step.plus(of_size);
    let allowed = half.plus(beyond);
    assert!(drift.at_most(allowed), "demand 3 fails: {least:e} {greatest:e} {value:e}");
    let shares = [
        share(drift, Whole::ZERO, allowed),
        share(drift, half, beyond),
        share(drift, half.plus(of_size), of_step),
        share(drift, half.plus(of_step), of_size),
    ];
    Some(Case { least, greatest, value, code, step, back, shares })
}

struct Random(u64);

impl Random {
    fn next(&mut self) -> u64 {
        self.0 ^= self.0 << 13;
        self.0 ^= self.0 >> 7;
        self.0 ^= self.0 << 17;
        self.0
    }

    fn below(&mut self, n: u64) -> u64 {
        (self.next() >> 11) % n
    }

    // any f32 in bound whose step can be 2^-126 or more
    fn value(&mut self) -> f32 {
        let exponent = 1 + self.below(158) as u32;
        let x = f32::from_bits(exponent << 23 | self.below(1 << 23) as u32);
        if self.below(2) == 0 { x } else { -x }
    }

    // a neighbour of x, near or far
    fn near(&mut self, x: f32) -> f32 {
        let far = 1i64 << self.below(24);
        let by = self.below(2 * far as u64 + 1) as i64 - far;
        f32::from_bits((x.to_bits() as i64 + by).max(0) as u32)
    }

    fn list(&mut self) -> (f32, f32) {
        let a = self.value();
        let b = match self.below(4) {
            0 => self.value(),
            1 => self.near(a),
            2 => self.near(-a),
            // a span of a small power of two of a's own size
            _ => a + a.abs() * 2f32.powi(self.below(30) as i32 - 20) * (1.0 + self.below(1 << 20) as f32 / 1048576.0),
        };
        if a <= b { (a, b) } else { (b, a) }
    }
}

// The worst value of a list by one of the shares: the floats about each half-way point.
fn worst(least: f32, greatest: f32, by: usize) -> Option<Case> {
    let step = (greatest - least) / 255.0;
    let mut best: Option<Case> = None;
    for code in 0..255 {
        let middle = (least as f64 + (code as f64 + 0.5) * step as f64) as f32;
        for off in -2i64..=2 {
            let value = f32::from_bits((middle.to_bits() as i64 + off).clamp(0, u32::MAX as i64) as u32);
            if let Some(c) = measure(least, greatest, value) {
                if best.map_or(true, |b| c.shares[by] > b.shares[by]) {
                    best = Some(c);
                }
            }
        }
    }
    best
}

fn show(c: &Case) {
    println!("    shares {:.6} {:.4} {:.4} {:.4}", c.shares[0], c.shares[1], c.shares[2], c.shares[3]);
    println!("    least {:#010x} ({:e}), greatest {:#010x} ({:e}), value {:#010x} ({:e})", c.least.to_bits(), c.least, c.greatest.to_bits(), c.greatest, c.value.to_bits(), c.value);
    println!("    step {:#010x} ({:e}), code {}, read back {:#010x} ({:e})", c.step.to_bits(), c.step, c.code, c.back.to_bits(), c.back);
}

fn search(by: usize, lists: u64, random: &mut Random) {
    let mut best: Option<Case> = None;
    for _ in 0..lists {
        let (a, b) = match best {
            Some(c) if random.below(4) > 0 => (if random.below(2) == 0 { random.near(c.least) } else { c.least }, random.near(c.greatest)),
            _ => random.list(),
        };
        if let Some(c) = worst(a, b, by) {
            if best.map_or(true, |d| c.shares[by] > d.shares[by]) {
                best = Some(c);
            }
        }
    }
    println!("search {}", by + 1);
    show(&best.expect("a list was measured"));
}

fn main() {
    let mut args = std::env::args().skip(1).map(|a| a.parse::<u64>().expect("a number"));
    let lists = args.next().unwrap_or(150_000);
    let mut random = Random(args.next().unwrap_or(1));
    for by in 0..4 {
        search(by, lists, &mut random);
    }
}
