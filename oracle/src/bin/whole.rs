//! `whole TABLES [seed=N]` holds the calls in whole numbers to the model, on so many random tables, and every answer to values at 16ths.
//! `whole store` prints the list that `crates/test_whole` replays.

use std::time::Instant;
use std::{env, process};

use judge::inputs::Rng;
use judge::tally::Tally;
use judge::turning::{self, random_rows};
use judge::whole::{expected, expected_table, knots, Way, WAYS};

fn main() {
    let words: Vec<String> = env::args().skip(1).collect();
    match words.iter().map(String::as_str).collect::<Vec<_>>()[..] {
        ["store"] => store(),
        ref words => match asked(words) {
            Some((tables, seed)) => judge(tables, seed),
            None => {
                eprintln!("usage: whole TABLES [seed=N] | store");
                process::exit(2);
            }
        },
    }
}

/// How many tables, and the seed.
fn asked(words: &[&str]) -> Option<(usize, u64)> {
    let (tables, seed) = match words {
        [tables] => (tables, "0"),
        [tables, seed] => (tables, seed.strip_prefix("seed=")?),
        _ => return None,
    };
    Some((tables.parse().ok()?, seed.parse().ok()?))
}

fn judge(tables: usize, seed: u64) {
    let start = Instant::now();
    let mut r = Rng::seeded(seed, 2026);
    let mut tally = Tally::default();
    println!("Seed {seed}: {tables} tables, each by three directions, and {tables} tables by monotone.\n");
    (0..tables).for_each(|_| turning::one(&mut tally, &mut r));
    println!("{tally}");
    println!("No difference. {} s.", start.elapsed().as_secs());
}

// ---- the list

/// A signed number in one that is not: 2k for k from 0 on, and 2(−k) − 1 below.
fn folded(k: i64) -> u64 {
    ((k << 1) ^ (k >> 63)) as u64
}

fn line(letter: char, numbers: impl IntoIterator<Item = u64>) {
    let words: Vec<String> = numbers.into_iter().map(|n| format!(" {n:X}")).collect();
    println!("{letter}{}", words.concat());
}

/// Numbers of a list that is short enough for a line, or how many there are where that alone decides.
fn numbers(all: &[i64]) {
    if all.len() <= 60 {
        line('k', all.iter().map(|&k| folded(k)));
    } else {
        line('z', [all.len() as u64]);
    }
}

fn store() {
    let mut r = Rng(37);
    let mut kept = 0;
    // 3, where the numbers are not looked at
    let many = vec![0; 4_097];
    for b in 0..6 {
        numbers(&many);
        line('t', [b, b % 3, u64::from(expected(b as u8, Way::Up, &many).reply), 7, 7]);
    }
    numbers(&many[..2_049]);
    line('m', [u64::from(expected_table(&many[..2_049], 64, 64).reply), 0]);
    while kept < 900 {
        let b = if kept % 60 == 7 { 6 + r.below(250) } else { kept % 6 };
        let ks = knots(&mut r, b);
        let first = expected(b as u8, Way::Up, &ks);
        if ks.len() > 60 && first.reply & 255 != 3 {
            continue;
        }
        numbers(&ks);
        for (i, way) in WAYS.into_iter().enumerate() {
            let told = expected(b as u8, way, &ks);
            let turning = if told.reply == 0 { told.turning } else { [7, 7] };
            line('t', [b as u64, i as u64, u64::from(told.reply), turning[0], turning[1]]);
            kept += 1;
        }
        let (rows, _) = random_rows(&mut r);
        let t = expected_table(&rows, 64, 64);
        if rows.len() <= 60 && (t.reply != 0 || rows.len() <= 31) {
            numbers(&rows);
            let written = if t.reply == 0 { &t.out[..2 * rows.len()] } else { &[] };
            let head = [u64::from(t.reply), written.len() as u64];
            line('m', head.into_iter().chain(written.iter().map(|&k| folded(k))));
            kept += 1;
        }
    }
}
