//! An inversion by its rule of the ends and its method: those that the crate has not are held to the model alone.

use crate::compare;
use crate::inputs::{self, Rng};
use crate::model::{Ends, Method, Options};
use crate::part::Part;
use crate::port::{self, UNTOUCHED, UNTOUCHED_WHOLE};
use crate::tally::{Call, Tally, NO_NUMBER};

pub const PART: Part = Part { once, knots };

const ENDS: [Ends; 2] = [Ends::Knots, Ends::Curve];
const METHODS: [Method; 3] = [Method::AsCrate, Method::Taught, Method::Steady];

/// Every mode but the crate's, each on the same target.
fn knots(t: &mut Tally, r: &mut Rng, b: usize, knots: &[f64]) {
    for _ in 0..if knots.len() <= 8 { 1 } else { (20_000 / (knots.len() + 100)).max(8) } {
        let y = inputs::target(r, b, knots);
        let o = inputs::options(r);
        for ends in ENDS {
            for method in METHODS {
                let o = Options { ends, method, ..o };
                if !o.is_the_crates() {
                    compare::spline_inverse(t, b, y, knots, &o);
                }
            }
        }
        let steady = Options { check: o.check, ..Options::STEADY };
        compare::spline_inverse(t, b, y, knots, &steady);
        let s = r.below(knots.len().max(1));
        let cv = &knots[s.min(knots.len())..(s + 4).min(knots.len())];
        let y = inputs::target(r, b, cv);
        for method in [Method::Taught, Method::Steady] {
            compare::spline_inverse_segment(t, b, y, cv, &Options { method, ..o });
        }
        compare::spline_inverse_segment(t, b, y, cv, &steady);
    }
}

/// A number that is no basis, no rule of the ends or no method, before all refusals.
fn once(t: &mut Tally) {
    let knots = [0.0, 0.0, 1.0, 1.0];
    let nothing = port::InversionReply { reply: 255, place: [UNTOUCHED; 4], whole: [UNTOUCHED_WHOLE; 3] };
    for number in 0..=255u8 {
        for (b, ends, method) in [(number, 0, 0), (0, number, 0), (0, 0, number), (number, number, number)] {
            if b < 6 && ends < 2 && method < 3 {
                continue;
            }
            for cv in [&knots[..], &knots[..3], &[]] {
                for (y, limit) in [(0.5, 32), (f64::NAN, 0)] {
                    assert_eq!(port::spline_inverse_numbered(b, y, cv, true, limit, y, ends, method), nothing);
                    t.add(Call::CurveEnds, NO_NUMBER, false);
                    if b > 5 || method > 2 {
                        assert_eq!(port::spline_inverse_segment_numbered(b, y, cv, limit, y, method), nothing);
                        t.add(Call::SegmentTaught, NO_NUMBER, false);
                    }
                    if b > 5 {
                        assert_eq!(port::spline_inverse_steady(b, y, cv, true), nothing);
                        assert_eq!(port::spline_inverse_segment_steady(b, y, cv), nothing);
                    }
                }
            }
        }
    }
}
