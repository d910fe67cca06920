//! Inputs: awkward doubles, knots of many kinds, targets near what matters, damage.

use crate::model::{self, Options, STEP};

const TWO_40: f64 = 1_099_511_627_776.0;

/// Doubles at which something changes.
pub const AWKWARD: [f64; 24] = [
    0.0,
    -0.0,
    1.0,
    -1.0,
    1.0 / 3.0,
    f64::NAN,
    TWO_40,
    f64::from_bits(1),
    f64::from_bits(0x3FEF_FFFF_FFFF_FFFF),
    f64::from_bits(0x3FF0_0000_0000_0001),
    f64::INFINITY,
    -TWO_40,
    0.5,
    2.0 / 3.0,
    -1.0 / 3.0,
    f64::from_bits(0x8000_0000_0000_0001),
    f64::from_bits(0x000F_FFFF_FFFF_FFFF),
    f64::MIN_POSITIVE,
    f64::from_bits(0x426F_FFFF_FFFF_FFFF),
    f64::from_bits(0x4270_0000_0000_0001),
    f64::from_bits(0xC26F_FFFF_FFFF_FFFF),
    f64::from_bits(0xC270_0000_0000_0001),
    f64::NEG_INFINITY,
    1e-10,
];

pub const LIMITS: [u16; 15] = [1, 2, 3, 4, 32, 255, 256, 257, 258, 259, 260, 21_845, 21_846, 65_535, 0];

pub const PRECISIONS: [f64; 18] = [
    1e-300,
    1e-200,
    1e-100,
    1e-30,
    1e-17,
    1e-16,
    1e-15,
    1e-12,
    1e-10,
    1e-8,
    1e-4,
    0.125,
    0.5,
    1.0,
    0.0,
    -1.0,
    f64::NAN,
    f64::INFINITY,
];

/// The segment counts around which lengths are taken.
pub const SEGMENTS: [usize; 33] = [
    1, 2, 3, 4, 5, 7, 8, 9, 11, 12, 13, 14, 15, 16, 17, 31, 32, 33, 63, 64, 65, 127, 128, 129, 255, 256, 257, 511, 512,
    1023, 1025, 2047, 4093,
];

/// A plain generator: the same start gives the same run.
pub struct Rng(pub u64);

/// What the seed of a run adds to where its generators start: nothing for seed 0, far apart for any other two.
pub fn scattered(seed: u64) -> u64 {
    let z = (seed ^ (seed >> 30)).wrapping_mul(0xBF58_476D_1CE4_E5B9);
    let z = (z ^ (z >> 27)).wrapping_mul(0x94D0_49BB_1331_11EB);
    z ^ (z >> 31)
}

impl Rng {
    /// The generator of one of several starts of a run, by the run's seed.
    pub fn seeded(seed: u64, start: u64) -> Rng {
        Rng(scattered(seed).wrapping_add(start))
    }

    pub fn next(&mut self) -> u64 {
        self.0 = self.0.wrapping_add(0x9E37_79B9_7F4A_7C15);
        scattered(self.0)
    }

    pub fn below(&mut self, n: usize) -> usize {
        ((self.next() as u128 * n as u128) >> 64) as usize
    }

    /// 0 to below 1
    pub fn unit(&mut self) -> f64 {
        (self.next() >> 11) as f64 / (1u64 << 53) as f64
    }

    pub fn one_of<T: Copy>(&mut self, of: &[T]) -> T {
        of[self.below(of.len())]
    }

    /// A double of any magnitude that a knot may have.
    fn any_size(&mut self) -> f64 {
        let scale = self.below(60) as i32 - 20;
        let x = (self.unit() * 2.0 - 1.0) * 2f64.powi(scale);
        x.clamp(-TWO_40, TWO_40)
    }
}

/// How the knots go.
const KINDS: usize = 9;

/// Fills `knots` with `n` doubles of one of nine kinds, half of them ordered.
pub fn fill(r: &mut Rng, n: usize, knots: &mut Vec<f64>) {
    knots.clear();
    let kind = r.below(KINDS);
    let mut at = r.unit() * 4.0 - 2.0;
    for i in 0..n {
        at += match kind {
            // rising by any step; by small whole steps, with rests; evenly
            0 => r.unit(),
            1 => r.below(3) as f64,
            2 => 1.0,
            // long rests
            3 => (r.below(8) == 0) as u64 as f64 * r.unit(),
            // growing steps
            4 => r.unit() * (i as f64 + 1.0) * 1e-3,
            _ => 0.0,
        };
        knots.push(match kind {
            0..=4 => at,
            5 => r.unit(),
            6 => r.any_size(),
            7 => r.one_of(&AWKWARD[..5]),
            _ => (i as f64 / 4.0).sin() + i as f64 * 0.2,
        });
    }
    if r.below(2) == 0 {
        knots.iter_mut().for_each(|k| *k = -*k);
    }
    let scale = match r.below(8) {
        0 => 1e-300,
        1 => 1e-8,
        2 => 1e6,
        _ => 1.0,
    };
    knots.iter_mut().for_each(|k| *k *= scale);
}

/// Spoils one thing: a knot, the order, the length.
pub fn damage(r: &mut Rng, knots: &mut Vec<f64>) {
    if knots.is_empty() {
        return;
    }
    let i = r.below(knots.len());
    match r.below(8) {
        0 => knots[i] = r.one_of(&AWKWARD),
        1 => knots[i] = f64::NAN,
        2 => knots[i] = f64::from_bits(0x4270_0000_0000_0001),
        3 => {
            let j = r.below(knots.len());
            knots.swap(i, j);
        }
        4 => knots[i] = -knots[i],
        5 => knots.truncate(i),
        6 => knots.push(knots[i]),
        _ => knots[i] += r.unit() - 0.5,
    }
}

fn neighbour(r: &mut Rng, x: f64) -> f64 {
    match r.below(4) {
        0 => x.next_up(),
        1 => x.next_down(),
        _ => x,
    }
}

/// A parameter: awkward, near a seam, or any.
pub fn parameter(r: &mut Rng, segments: usize) -> f64 {
    match r.below(8) {
        0 => r.one_of(&AWKWARD),
        1 | 2 => {
            let seam = r.below(segments + 1) as f64 / segments as f64;
            neighbour(r, seam)
        }
        3 => r.unit() * 4.0 - 2.0,
        _ => r.unit(),
    }
}

/// A target: awkward, a knot or its neighbour, a value of the curve, between two knots, or any.
pub fn target(r: &mut Rng, b: usize, knots: &[f64]) -> f64 {
    if knots.is_empty() {
        return r.unit();
    }
    let one = knots[r.below(knots.len())];
    match r.below(8) {
        0 => r.one_of(&AWKWARD),
        1 => neighbour(r, one),
        2 | 3 => {
            // on a segment, told without the scan of all knots
            let s = r.below((knots.len().saturating_sub(4)) / STEP[b] + 1) * STEP[b];
            let x = r.unit();
            knots.get(s..s + 4).and_then(|cv| model::spline_segment(b, x, cv).ok()).unwrap_or(one)
        }
        4 | 5 => {
            let i = r.below(knots.len());
            let other = knots[(i + 1) % knots.len()];
            knots[i] + (other - knots[i]) * r.unit()
        }
        6 => one + (r.unit() - 0.5) * 1e-9,
        _ => knots[0] + (knots[knots.len() - 1] - knots[0]) * r.unit(),
    }
}

/// The crate's rule of the ends and its method; limit and precision of every kind.
pub fn options(r: &mut Rng) -> Options {
    let o = Options { check: r.below(2) == 0, ..Options::DEFAULT };
    match r.below(4) {
        0 | 1 => o,
        2 => Options { limit: r.one_of(&LIMITS[..12]), precision: r.one_of(&PRECISIONS[..14]), ..o },
        _ => Options { limit: r.one_of(&LIMITS), precision: r.one_of(&PRECISIONS), ..o },
    }
}
