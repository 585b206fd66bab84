//! The port beside the published Rust: the same inputs, every answer compared.
//!
//! usage: compare [--short | --random] [--count N] [--seed S]
//!
//! Random comparisons follow the exhaustive ones and the large limits: ten million, with `--short`
//! a hundred thousand. With `--random` they stand alone. A mismatch prints both answers and the
//! smallest input found, and fails.

use std::collections::BTreeMap;
use std::process::ExitCode;
use std::sync::atomic::Ordering;
use std::time::{Instant, SystemTime, UNIX_EPOCH};

use compare::case::{Case, Kind, Verdict};
use compare::rng::Rng;
use compare::{check, exhaustive, generate, limits, rust, shrink};

struct Options {
    short: bool,
    random: bool,
    count: u64,
    seed: u64,
}

fn main() -> ExitCode {
    let Some(options) = options() else {
        eprintln!("usage: compare [--short | --random] [--count N] [--seed S]");
        return ExitCode::from(2);
    };
    println!("{}", hns_port::LIBRARIES);
    println!("seed {}", options.seed);
    let mut run = Run::default();
    let begun = Instant::now();
    run_all(&options, &mut run);
    run.summary();
    println!("{:.1} s", begun.elapsed().as_secs_f64());
    if run.mismatches.is_empty() {
        return ExitCode::SUCCESS;
    }
    for (kind, case) in &run.mismatches {
        report(*kind, case);
    }
    ExitCode::FAILURE
}

fn options() -> Option<Options> {
    let mut words = std::env::args().skip(1);
    let (mut short, mut random, mut count, mut seed) = (false, false, None, None);
    while let Some(word) = words.next() {
        match word.as_str() {
            "--short" => short = true,
            "--random" => random = true,
            "--count" => count = Some(words.next()?.parse().ok()?),
            "--seed" => seed = Some(words.next()?.parse().ok()?),
            _ => return None,
        }
    }
    if short && random {
        return None;
    }
    let usual = if short { 100_000 } else { 10_000_000 };
    let now = SystemTime::now().duration_since(UNIX_EPOCH);
    Some(Options {
        short,
        random,
        count: count.unwrap_or(usual),
        seed: seed.unwrap_or(now.map_or(0, |time| time.as_nanos() as u64)),
    })
}

fn run_all(options: &Options, run: &mut Run) {
    let mut rng = Rng::new(options.seed);
    if !options.random {
        run.part("exhaustive");
        exhaustive::all(options.short, &mut |case| run.case(case));
        run.part("limits");
        let networks = if options.short { 1 } else { 4 };
        limits::all(&mut rng, networks, &mut |case| run.case(case));
    }
    run.part("random");
    for kind in Kind::ALL {
        let wanted = (options.count * kind.share()).div_ceil(Kind::shares());
        while run.compared(kind) < wanted && !run.mismatches.contains_key(&kind) {
            run.case(&generate::case(&mut rng, kind));
        }
    }
}

#[derive(Default)]
struct Run {
    part: &'static str,
    /// Comparisons by part and kind, those with an answer that the Rust lacks, and those left out.
    same: BTreeMap<(&'static str, Kind), u64>,
    alone: u64,
    left_out: BTreeMap<Kind, u64>,
    mismatches: BTreeMap<Kind, Case>,
}

impl Run {
    const fn part(&mut self, part: &'static str) {
        self.part = part;
    }

    fn case(&mut self, case: &Case) {
        if self.mismatches.contains_key(&case.kind) {
            return;
        }
        let before = rust::refused_alone();
        match check(case) {
            Verdict::Same(n) => {
                *self.same.entry((self.part, case.kind)).or_default() += n;
                let refused = rust::refused_alone() - before;
                self.alone += if case.alone() { n } else { refused.min(n) };
            }
            Verdict::LeftOut => *self.left_out.entry(case.kind).or_default() += 1,
            Verdict::Differs { .. } => drop(self.mismatches.insert(case.kind, case.clone())),
        }
    }

    fn compared(&self, kind: Kind) -> u64 {
        self.same.get(&(self.part, kind)).copied().unwrap_or(0)
    }

    fn summary(&self) {
        let parts = ["exhaustive", "limits", "random"];
        println!(
            "{:<44}{:>12}{:>10}{:>12}{:>10}",
            "comparisons", parts[0], parts[1], parts[2], "left out"
        );
        for kind in Kind::ALL {
            let counts = parts.map(|part| self.same.get(&(part, kind)).copied().unwrap_or(0));
            let left_out = self.left_out.get(&kind).copied().unwrap_or(0);
            let verdict = if self.mismatches.contains_key(&kind) {
                "  DIFFERS"
            } else {
                ""
            };
            let what = kind.what();
            println!(
                "{what:<44}{:>12}{:>10}{:>12}{left_out:>10}{verdict}",
                counts[0], counts[1], counts[2]
            );
        }
        self.totals();
    }

    fn totals(&self) {
        let total: u64 = self.same.values().sum();
        let kinds = self.mismatches.len();
        println!("{total} comparisons, {kinds} kinds with a mismatch");
        let refused = |number: usize| rust::REFUSED[number].load(Ordering::Relaxed);
        println!(
            "{} of them of the port alone: rows, rights, what is carried, and 16 to 22, which the Rust lacks",
            self.alone
        );
        print!("refusals by number, of which a comparison can have several:");
        for number in (0..rust::REFUSED.len()).filter(|number| refused(*number) > 0) {
            print!(" {number}: {}", refused(number));
        }
        println!();
    }
}

fn report(kind: Kind, case: &Case) {
    println!("\nMISMATCH: {}", kind.what());
    let small = shrink::shrink(case.clone());
    print!("smallest input found:\n{small}{}", check(&small));
}
