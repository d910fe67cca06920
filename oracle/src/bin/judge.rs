//! `judge SIZE` compares the port with the crate and the model; SIZE is quick, long, or a number of rounds. `judge steady`
//! holds inversions by the steady method to the model. `judge SIZE 2/8` runs the second of eight parts, and `seed=7` draws
//! what is drawn from another seed than 0.

use std::time::Instant;
use std::{env, process, thread};

use judge::compare;
use judge::inputs::{self, scattered, Rng, AWKWARD, LIMITS, PRECISIONS, SEGMENTS};
use judge::model::{self, Options, STEP};
use judge::parts::PARTS;
use judge::port::{self, UNTOUCHED, UNTOUCHED_WHOLE};
use judge::steady;
use judge::tally::{Call, Tally, NO_NUMBER};
use judge::worker::Worker;

/// What is run.
#[derive(Clone, Copy)]
enum Run {
    Everything(Size),
    Steady,
}

/// How much of everything is run: awkward doubles in the exhaustive part, rounds of the random part.
#[derive(Clone, Copy)]
struct Size {
    awkward: usize,
    rounds: usize,
}

const CHECKED: Options = Options { check: true, ..Options::DEFAULT };

fn main() {
    let words: Vec<String> = env::args().skip(1).collect();
    let Some(Asked { run, part, parts, seed }) = asked(&words) else {
        eprintln!("usage: judge quick | long | steady | ROUNDS [PART/PARTS] [seed=N]");
        process::exit(2);
    };
    let start = Instant::now();
    let threads = thread::available_parallelism().map_or(1, |n| n.get());
    println!("Seed {seed}, part {part} of {parts}, {threads} threads.\n");
    let mut tally = Tally::default();
    thread::scope(|scope| {
        let shares: Vec<_> = (0..threads)
            .map(|thread| {
                let worker = Worker { number: (part - 1) * threads + thread, of: parts * threads, seed };
                scope.spawn(move || match run {
                    Run::Everything(size) => share(part_of(size, part, parts), worker),
                    Run::Steady => steady::share(worker),
                })
            })
            .collect();
        shares.into_iter().for_each(|s| tally.join(&s.join().unwrap()));
    });
    println!("{tally}");
    println!("No difference. {} s.", start.elapsed().as_secs());
}

/// What is run, which part of how many, and from which seed.
struct Asked {
    run: Run,
    part: usize,
    parts: usize,
    seed: u64,
}

/// What the words ask for.
fn asked(words: &[String]) -> Option<Asked> {
    let (what, more) = words.split_first()?;
    let run = match what.as_str() {
        "quick" => Run::Everything(Size { awkward: 12, rounds: 12 }),
        "long" => Run::Everything(Size { awkward: AWKWARD.len(), rounds: 150 }),
        "steady" => Run::Steady,
        n => Run::Everything(Size { awkward: AWKWARD.len(), rounds: n.parse().ok()? }),
    };
    let mut asked = Asked { run, part: 1, parts: 1, seed: 0 };
    for word in more {
        if let Some(seed) = word.strip_prefix("seed=") {
            asked.seed = seed.parse().ok()?;
        } else {
            let (part, parts) = word.split_once('/')?;
            (asked.part, asked.parts) = (part.parse().ok()?, parts.parse().ok()?);
        }
    }
    (1..=asked.parts).contains(&asked.part).then_some(asked)
}

/// The rounds are dealt to the parts; the lists of awkward doubles are dealt to the workers one by one.
fn part_of(size: Size, part: usize, parts: usize) -> Size {
    Size { rounds: size.rounds * part / parts - size.rounds * (part - 1) / parts, ..size }
}

/// One worker's part of everything.
fn share(size: Size, worker: Worker) -> Tally {
    let mut t = Tally::default();
    if worker.number == 0 {
        lengths(&mut t);
        no_bases(&mut t);
        PARTS.iter().for_each(|part| (part.once)(&mut t));
    }
    let mut all = Vec::new();
    for n in 0..4 {
        all.clear();
        each_tuple(&AWKWARD[..4], n, &mut all, &mut |cv| short(&mut t, cv, &AWKWARD[..6], worker));
    }
    for n in 4..9 {
        let of = [size.awkward, 8, 5, 4, 3][n - 4].min(size.awkward);
        all.clear();
        let ats = &AWKWARD[..if n == 4 { size.awkward } else { 12 }];
        each_tuple(&AWKWARD[..of], n, &mut all, &mut |cv| short(&mut t, cv, ats, worker));
    }
    let mut r = worker.generator();
    for _ in 0..size.rounds {
        for k in SEGMENTS {
            for b in 0..6 {
                random(&mut t, &mut r, b, k);
            }
        }
    }
    t
}

/// Every list of `n` of the doubles.
fn each_tuple(of: &[f64], n: usize, so_far: &mut Vec<f64>, f: &mut impl FnMut(&[f64])) {
    if so_far.len() == n {
        return f(so_far);
    }
    for &d in of {
        so_far.push(d);
        each_tuple(of, n, so_far, f);
        so_far.pop();
    }
}

/// Everything that can be asked of these few knots; little where the length alone decides.
fn short(t: &mut Tally, knots: &[f64], ats: &[f64], worker: Worker) {
    let sum = knots.iter().fold(0u64, |h, k| (h ^ k.to_bits()).wrapping_mul(0x9E37_79B9_7F4A_7C15));
    if (sum >> 40) as usize % worker.of != worker.number {
        return;
    }
    for b in 0..6 {
        let of = |suits: bool| if suits { ats } else { &ats[..1] };
        for (i, &at) in of(model::is_len_ok(b, knots.len())).iter().enumerate() {
            compare::spline(t, b, at, knots);
            let other = other_options((sum >> 20) as usize + i);
            for o in [CHECKED, Options::DEFAULT, other] {
                compare::spline_inverse(t, b, at, knots, &o);
            }
        }
        for (i, &at) in of(knots.len() == 4).iter().enumerate() {
            compare::spline_segment(t, b, at, knots);
            compare::spline_inverse_segment(t, b, at, knots, &Options::DEFAULT);
            compare::spline_inverse_segment(t, b, at, knots, &other_options((sum >> 20) as usize + i));
        }
        for to in 0..6 {
            let needed = 4 + knots.len().saturating_sub(4) / STEP[b] * STEP[to];
            let room = [needed, needed + 3, needed - 1, 0][(sum >> 50) as usize % 4];
            compare::convert_spline(t, b, to, knots, room);
            compare::convert_segment(t, b, to, knots, [4, 5, 3, 0][(sum >> 52) as usize % 4]);
        }
        PARTS.iter().for_each(|part| (part.knots)(t, &mut Rng(sum ^ scattered(worker.seed)), b, knots));
    }
}

/// Limits and precisions in turn.
fn other_options(turn: usize) -> Options {
    Options {
        check: turn % 2 == 0,
        limit: LIMITS[turn % LIMITS.len()],
        precision: PRECISIONS[turn / 2 % PRECISIONS.len()],
        ..Options::DEFAULT
    }
}

/// Curves of about `k` segments, whole and damaged.
fn random(t: &mut Tally, r: &mut Rng, b: usize, k: usize) {
    let n = 4 + (k - 1) * STEP[b];
    let n = match r.below(8) {
        0 => n + 1,
        1 => n - 1,
        2 => r.one_of(&[4095, 4096, 4097, 4100]),
        _ => n,
    };
    let mut knots = Vec::new();
    inputs::fill(r, n, &mut knots);
    if r.below(3) == 0 {
        inputs::damage(r, &mut knots);
    }
    let asked = 40_000 / (n + 100);
    for _ in 0..asked.max(16) {
        let x = inputs::parameter(r, k);
        compare::spline(t, b, x, &knots);
        let y = inputs::target(r, b, &knots);
        compare::spline_inverse(t, b, y, &knots, &inputs::options(r));
        compare::spline_inverse(t, b, y, &knots, &Options { check: r.below(2) == 0, ..Options::DEFAULT });
        let s = r.below(knots.len().max(1));
        let cv = &knots[s.min(knots.len())..(s + 4).min(knots.len())];
        let y = inputs::target(r, b, cv);
        let x = inputs::parameter(r, 1);
        compare::spline_segment(t, b, x, cv);
        compare::spline_inverse_segment(t, b, y, cv, &inputs::options(r));
        compare::convert_segment(t, b, r.below(6), cv, 2 + r.below(4));
    }
    for to in 0..6 {
        let needed = 4 + n.saturating_sub(4) / STEP[b] * STEP[to];
        let room = (needed + r.below(6)).saturating_sub(r.below(2));
        compare::convert_spline(t, b, to, &knots, room);
    }
    let seed = r.next();
    PARTS.iter().for_each(|part| (part.knots)(t, &mut Rng(seed), b, &knots));
}

fn lengths(t: &mut Tally) {
    for b in 0..6 {
        (0..20_000).for_each(|n| compare::is_len_ok(t, b, n));
        (0..100).for_each(|i| compare::is_len_ok(t, b, usize::MAX - i));
    }
}

/// A number that is no basis: a reply of its own, before all refusals, and nothing written.
fn no_bases(t: &mut Tally) {
    let knots = [0.0, 0.0, 1.0, 1.0];
    for b in 6..=255u8 {
        for cv in [&knots[..], &knots[..3], &[]] {
            for at in [0.5, f64::NAN] {
                let valued = port::ValueReply { reply: 255, value: UNTOUCHED };
                let inverted =
                    port::InversionReply { reply: 255, place: [UNTOUCHED; 4], whole: [UNTOUCHED_WHOLE; 3] };
                assert_eq!(port::spline(b, at, cv), valued);
                assert_eq!(port::spline_segment(b, at, cv), valued);
                for limit in [0, 32] {
                    let o = Options { limit, precision: at, ..CHECKED };
                    assert_eq!(port::spline_inverse_with(b, at, cv, &o), inverted);
                    assert_eq!(port::spline_inverse_segment_with(b, at, cv, &o), inverted);
                }
                assert_eq!(port::spline_inverse_default(b, at, cv, true), inverted);
                assert_eq!(port::spline_inverse_segment_default(b, at, cv), inverted);
            }
            for (from, to) in [(b, 0), (0, b), (b, 4), (4, b), (b, b)] {
                let buffer: Vec<u64> = (0..8).map(|i| UNTOUCHED + i).collect();
                let converted = port::ConversionReply { reply: 255, written: UNTOUCHED_WHOLE, buffer };
                assert_eq!(port::convert_spline(from, to, cv, 4), converted);
                assert_eq!(port::convert_segment(from, to, cv, 4), converted);
            }
        }
        assert_eq!(port::is_len_ok(b, 4), 255);
        t.add(Call::IsLenOk, NO_NUMBER, false);
        for (call, n) in [
            (Call::Spline, 6),
            (Call::SplineSegment, 6),
            (Call::SplineInverse, 18),
            (Call::SplineInverseSegment, 18),
            (Call::ConvertSpline, 15),
            (Call::ConvertSegment, 15),
        ] {
            (0..n).for_each(|_| t.add(call, NO_NUMBER, false));
        }
    }
}
