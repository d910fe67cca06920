//! The stored answers of `crates/test_replay`, through this package's functions: every refusal with its place, every bit of every double,
//! every whole number. README.md of that crate says what a line holds. Lines that the package's types cannot say are left out, and
//! counted: a number that is no basis, rule or method, a limit of 0, a segment of other than four knots for a conversion, the steady
//! calls without the order check.

use core::num::NonZeroU16;
use simmerstoat::claim::check_claim;
use simmerstoat::job::Job;
use simmerstoat::prelude::*;
use simmerstoat::table::Table;
use simmerstoat::uneven::{depth_at_with, WhichTable};

/// The expression with the basis of a number for `B`; nothing where the number is none.
macro_rules! over {
    ($number:expr, $B:ident, $e:expr) => {
        match $number {
            0 => { type $B = Bspline; Some($e) }
            1 => { type $B = Bezier; Some($e) }
            2 => { type $B = CatmullRom; Some($e) }
            3 => { type $B = Hermite; Some($e) }
            4 => { type $B = Linear; Some($e) }
            5 => { type $B = Power; Some($e) }
            _ => None,
        }
    };
}

/// The reply that a refusal stands for: its number, and above it its place. Written out apart from the package.
fn reply(refusal: Refusal) -> u64 {
    match refusal {
        Refusal::TooFew => 1,
        Refusal::BadPattern => 2,
        Refusal::TooMany => 3,
        Refusal::BadKnot(i) => 4 + 256 * i as u64,
        Refusal::NotANumber => 5,
        Refusal::BadPrecision => 6,
        Refusal::NoRounds => 7,
        Refusal::LinearOutput => 8,
        Refusal::ShortBuffer => 9,
        Refusal::TurnsBack(i) => 10 + 256 * i as u64,
        Refusal::OffCurve(_) => 11,
        Refusal::BadSpan => 14,
        Refusal::LostSeam(i) => 15 + 256 * i as u64,
        Refusal::BadStep => 16,
        Refusal::BadAllowance => 17,
        Refusal::UnequalSegments => 18,
        Refusal::NoSegment => 19,
        other => panic!("no stored answer is {other:?}"),
    }
}

fn ground(place: &Place) -> u64 {
    match place.ground {
        Ground::End => 0,
        Ground::Edge => 1,
        Ground::Value => 2,
        Ground::Width => 3,
        Ground::Spent => 4,
    }
}

/// The numbers from the reply on, as a line has them: of a refusal the reply alone, of 11 with its count.
fn of_place(told: Result<Place, Refusal>) -> Vec<u64> {
    match told {
        Ok(p) => {
            let [parameter, local, lower, upper] = [p.parameter, p.local, p.lower, p.upper].map(f64::to_bits);
            vec![0, parameter, local, lower, upper, ground(&p), p.segment as u64, p.count as u64]
        }
        Err(Refusal::OffCurve(count)) => vec![11, count as u64],
        Err(refusal) => vec![reply(refusal)],
    }
}

/// Whether the numbers are those of the line: its reply, and of 11 its count, stand where the record does.
fn same_place(told: &[u64], w: &[u64]) -> bool {
    match told {
        [11, count] => w[5] == 11 && w[12] == *count,
        [number] => w[5] == *number,
        record => w[5..13] == *record,
    }
}

fn same_value(told: Result<f64, Refusal>, w: &[u64]) -> bool {
    match told {
        Ok(x) => w[2] == 0 && w[3] == x.to_bits(),
        Err(refusal) => w[2] == reply(refusal),
    }
}

/// The reply, the length and what is written, from the line's place `at` on.
fn same_output(told: Result<usize, Refusal>, out: &[f64], w: &[u64], at: usize) -> bool {
    match told {
        Ok(n) => w[at] == 0 && w[at + 1] == n as u64 && out[..n].iter().zip(&w[at + 2..]).all(|(x, bits)| x.to_bits() == *bits),
        Err(refusal) => w[at] == reply(refusal),
    }
}

fn options(w: &[u64], by: bool) -> Option<SplineInverseOptions> {
    let (ends, method) = if by { (w[13], w[14]) } else { (0, 0) };
    Some(SplineInverseOptions {
        max_iterations: Some(NonZeroU16::new(w[3] as u16)?),
        precision: Some(f64::from_bits(w[4])),
        order_check: w[2] == 1,
        ends: [Ends::Knots, Ends::Curve].get(ends as usize).copied()?,
        method: [Method::AsCrate, Method::Taught, Method::Steady].get(method as usize).copied()?,
    })
}

fn inversion(letter: char, w: &[u64], knots: &[f64]) -> Option<bool> {
    let y = f64::from_bits(w[1]);
    let told = match letter {
        'i' | 'm' => {
            let o = options(w, letter == 'm')?;
            over!(w[0], B, spline_inverse_with::<B, _>(y, knots, &o))?
        }
        'j' | 'n' => {
            let o = options(w, letter == 'n')?;
            over!(w[0], B, spline_inverse_segment_with::<B, _>(y, knots, &o))?
        }
        'o' if w[2] == 1 => over!(w[0], B, spline_inverse_steady::<B, _>(y, knots))?,
        'p' => over!(w[0], B, spline_inverse_segment_steady::<B, _>(y, knots))?,
        _ => return None,
    };
    Some(same_place(&of_place(told), w))
}

fn timed(letter: char, w: &[u64], knots: &[f64]) -> Option<bool> {
    let (y, span) = (f64::from_bits(w[1]), w[15] as u32);
    let told = match letter {
        'w' if w[2] == 1 => over!(w[0], B, Table::<B>::new(span).spline_inverse(y, knots))?,
        'x' => {
            let o = options(w, true)?;
            over!(w[0], B, Table::<B>::new(span).spline_inverse_with(y, knots, &o))?
        }
        'y' if w[2] == 1 => over!(w[0], B, Table::<B>::new(span).spline_inverse_steady(y, knots))?,
        _ => return None,
    };
    Some(same_place(&of_place(told.map(|t| t.place)), w) && told.map_or(true, |t| t.second as u64 == w[16]))
}

/// What is said of a stopped job, 0 for a refusal; where it is under way, its place and second.
fn job(w: &[u64], knots: &[f64]) -> Option<bool> {
    let told = over!(w[0], B, Table::<B>::new(w[15] as u32).stopped(f64::from_bits(w[1]), knots, w[2] == 1))?;
    let (said, same) = match told {
        Err(refusal) => (0, same_place(&of_place(Err(refusal)), w)),
        Ok(Job::Flat) => (1, w[5] == 0),
        Ok(Job::Before) => (2, w[5] == 0),
        Ok(Job::NotBegun) => (3, w[5] == 0),
        Ok(Job::UnderWay { second, place }) => (4, same_place(&of_place(Ok(place)), w) && second as u64 == w[16]),
        Ok(Job::Done) => (5, w[5] == 0),
        Ok(Job::Beyond) => (6, w[5] == 0),
    };
    Some(said == w[13] && same)
}

/// The depths' refusals have the highest bit set.
fn depth(w: &[u64], knots: &[f64]) -> Option<bool> {
    let y = f64::from_bits(w[1]);
    let (times, depths) = knots.split_at(w[14] as usize);
    let told = over!(w[0], T, over!(w[13], D, depth_at_with::<T, D>(y, times, depths, w[3] as u16, f64::from_bits(w[4])))?)?;
    Some(match told {
        Ok(d) => same_place(&of_place(Ok(d.place)), w) && d.depth.to_bits() == w[15] && d.count as u64 == w[16],
        Err(r) if r.table == WhichTable::Depths => w[5] == reply(r.refusal) + (1 << 31),
        Err(r) => same_place(&of_place(Err(r.refusal)), w),
    })
}

fn conversion(letter: char, w: &[u64], knots: &[f64]) -> Option<bool> {
    let (mut out, allowance, span) = ([0.0; 64], f64::from_bits(w[2]), w[3] as u32);
    if letter == 'd' {
        let cv: &[f64; 4] = knots.try_into().ok()?;
        let told = over!(w[0], A, over!(w[1], B, convert_segment::<A, B, _>(cv))?)?;
        return Some(match told {
            Ok(four) => same_output(Ok(4), &four, w, 2),
            Err(refusal) => w[2] == reply(refusal),
        });
    }
    let told = match letter {
        'c' => return Some(same_output(over!(w[0], A, over!(w[1], B, convert_spline_into::<A, B, _>(knots, &mut out))?)?, &out, w, 2)),
        'e' => over!(w[0], A, over!(w[1], B, convert_spline_strict_into::<A, B>(knots, allowance, &mut out).map(|n| (n, span)))?)?,
        'f' => over!(w[0], A, over!(w[1], B, Table::<A>::new(span).convert_spline_into::<B>(knots, &mut out).map(|(t, n)| (n, t.span)))?)?,
        _ => over!(w[0], A, {
            let table = Table::<A>::new(span);
            over!(w[1], B, table.convert_spline_strict_into::<B>(knots, allowance, &mut out).map(|(t, n)| (n, t.span)))?
        })?,
    };
    Some(same_output(told.map(|t| t.0), &out, w, 4) && told.map_or(true, |t| t.1 == span))
}

/// Whether the answer is the stored one; nothing where the package's types cannot ask.
fn equal(letter: char, w: &[u64], knots: &[f64]) -> Option<bool> {
    let x = f64::from_bits(w[1]);
    match letter {
        'v' => Some(same_value(over!(w[0], B, spline::<B, _, _>(x, knots))?, w)),
        's' => Some(same_value(over!(w[0], B, spline_segment::<B, _, _>(x, knots))?, w)),
        't' => Some(same_value(over!(w[0], B, Table::<B>::new(w[4] as u32).spline(x, knots))?, w)),
        'a' => {
            let (local, precision) = (f64::from_bits(w[3]), f64::from_bits(w[4]));
            Some(match over!(w[0], B, check_claim::<B>(x, w[2] as usize, local, precision, knots))? {
                Ok(holds) => w[5] == 0 && (w[6] == 1) == holds,
                Err(refusal) => w[5] == reply(refusal),
            })
        }
        'c' | 'd' | 'e' | 'f' | 'g' => conversion(letter, w, knots),
        'h' => depth(w, knots),
        'q' => job(w, knots),
        'w' | 'x' | 'y' => timed(letter, w, knots),
        _ => inversion(letter, w, knots),
    }
}

#[test]
fn stored_answers() {
    let list = std::fs::read_to_string(concat!(env!("CARGO_MANIFEST_DIR"), "/../crates/test_replay/stdin")).unwrap();
    let (mut table, mut compared, mut unsaid) = (Vec::new(), 0, 0);
    for (number, line) in list.lines().enumerate() {
        let mut words = line.split(' ');
        let letter = words.next().unwrap().chars().next().unwrap();
        let w: Vec<u64> = words.map(|word| u64::from_str_radix(word, 16).unwrap()).collect();
        match letter {
            'k' => table = w.iter().map(|bits| f64::from_bits(*bits)).collect(),
            'z' => table = vec![0.0; w[0] as usize],
            _ => match equal(letter, &w, &table) {
                Some(same) => {
                    assert!(same, "line {}: {line}", number + 1);
                    compared += 1;
                }
                None => unsaid += 1,
            },
        }
    }
    println!("{compared} stored answers, and {unsaid} that the package's types cannot ask for");
    assert!(compared > 6 * unsaid && compared + unsaid > 7_000);
}

/// The calls by default are those with 32 rounds and 1e-10: where a line has just these, they give its answer too.
#[test]
fn defaults() {
    let list = std::fs::read_to_string(concat!(env!("CARGO_MANIFEST_DIR"), "/../crates/test_replay/stdin")).unwrap();
    let (mut table, mut compared, mut spent) = (Vec::new(), 0, 0);
    for line in list.lines() {
        let w: Vec<u64> = line.split(' ').skip(1).map(|word| u64::from_str_radix(word, 16).unwrap()).collect();
        let (letter, default) = (&line[..1], SplineInverseOptions::default());
        match letter {
            "k" => table = w.iter().map(|bits| f64::from_bits(*bits)).collect(),
            "z" => table = vec![0.0; w[0] as usize],
            "i" | "j" if w[0] < 6 && w[3] == 32 && w[4] == 1e-10_f64.to_bits() && (letter == "j" || w[2] == 1) => {
                let y = f64::from_bits(w[1]);
                let both = if letter == "i" {
                    over!(w[0], B, [spline_inverse::<B, _>(y, &table), spline_inverse_with::<B, _>(y, &table, &default)])
                } else {
                    over!(w[0], B, [spline_inverse_segment::<B, _>(y, &table), spline_inverse_segment_with::<B, _>(y, &table, &default)])
                };
                for told in both.unwrap() {
                    spent += told.is_ok_and(|place| place.ground == Ground::Spent) as usize;
                    assert!(same_place(&of_place(told), &w), "{line}");
                    compared += 1;
                }
            }
            _ => {}
        }
    }
    println!("{compared} stored answers by default, {spent} of them spent");
    assert!(compared > 50 && spent > 0);
}
