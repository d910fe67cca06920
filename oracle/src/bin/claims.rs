//! `claims IN OUT`: a million places that the crate answers by its defaults, written as claims to IN, and to OUT what the
//! model says of them; and a table of how many hold, by the ground of the answer. The crate tells a parameter alone. So each
//! place is claimed twice: with the segment and local place that the crate's own evaluation makes of that parameter, as a
//! box would send them, and with those that its search had, as the model has them.

use std::fs::File;
use std::io::{BufWriter, Result, Write};

use judge::claims::{self, Claim};
use judge::crates;
use judge::inputs::{self, Rng, SEGMENTS};
use judge::model::{self, Fate, Options, STEP};

const WANTED: usize = 1_000_000;
const BASES: [&str; 6] = ["Bspline", "Bezier", "CatmullRom", "Hermite", "Linear", "Power"];
const GROUNDS: [&str; 5] = ["end", "edge", "value", "width", "spent"];

/// What is written: the claims, and what is to be replied to them.
struct Files {
    listing: BufWriter<File>,
    replies: BufWriter<File>,
}

/// Claims the place of a target that the crate answers, on a curve of `k` segments: its ground, and whether it holds by the
/// parameter and by the search.
fn claimed(files: &mut Files, b: usize, k: usize, knots: &[f64], y: f64) -> Result<Option<(usize, [bool; 2])>> {
    let i = model::spline_inverse(b, y, knots, &Options::DEFAULT);
    let (Ok(p), Fate::Answers) = (i.answer, i.fate) else { return Ok(None) };
    let parameter = crates::spline_inverse_default(b, y, knots, false).expect("the crate answers");
    assert_eq!(parameter.to_bits(), p.parameter.to_bits());
    let scaled = parameter * k as f64;
    let segment = (scaled.floor() as usize).min(k - 1);
    let mut held = [false; 2];
    for (way, (segment, local)) in [(segment, scaled - segment as f64), (p.segment, p.local)].into_iter().enumerate() {
        let c = Claim { y, segment, local, precision: 1e-10 };
        let holds = claims::model(b, &c, knots).expect("no row applies");
        assert_eq!(claims::port(b as u8, &c, knots, !holds), (0, holds));
        held[way] = holds;
        let (y, x, e) = (y.to_bits(), local.to_bits(), c.precision.to_bits());
        writeln!(files.listing, "claim\t{y:016X}\t{segment}\t{x:016X}\t{e:016X}")?;
        writeln!(files.replies, "{}", if holds { "holds" } else { "differs" })?;
    }
    Ok(Some((p.ground as usize, held)))
}

fn main() -> Result<()> {
    let words: Vec<String> = std::env::args().skip(1).collect();
    let mut files = Files { listing: BufWriter::new(File::create(&words[0])?), replies: BufWriter::new(File::create(&words[1])?) };
    let mut r = Rng(108);
    // by ground: places, those that hold by the parameter, those that hold by the search
    let mut counts = [[0usize; 3]; 5];
    while counts.iter().map(|c| c[0]).sum::<usize>() < WANTED {
        let b = r.below(6);
        let k = r.one_of(&SEGMENTS).min(200).min((4096 - 4) / STEP[b] + 1);
        let mut knots = Vec::new();
        inputs::fill(&mut r, 4 + (k - 1) * STEP[b], &mut knots);
        writeln!(files.listing, "curve\t{}", BASES[b])?;
        knots.iter().try_for_each(|x| writeln!(files.listing, "knot\t{:016X}", x.to_bits()))?;
        for _ in 0..100 {
            let y = inputs::target(&mut r, b, &knots);
            let Some((ground, [by_parameter, by_search])) = claimed(&mut files, b, k, &knots, y)? else { continue };
            let count = &mut counts[ground];
            count[0] += 1;
            count[1] += usize::from(by_parameter);
            count[2] += usize::from(by_search);
        }
    }
    println!("| ground | places | hold by the parameter | hold by the search's segment and local place |");
    println!("|---|---:|---:|---:|");
    for (ground, [places, by_parameter, by_search]) in GROUNDS.iter().zip(counts) {
        println!("| {ground} | {places} | {by_parameter} | {by_search} |");
    }
    Ok(())
}
