//! The port and the published Rust timed side by side: same process, same inputs, release builds.
//!
//! usage: bench [--runs N] [--tables N]
//!
//! Each row is the median of N runs (21), in which port, Rust and a plain copy of the same bytes
//! in the same chunks take turns. The port's store and output are lent once, are 16,000,018 bytes
//! each and are not cleared between runs. The Rust keeps one decoder, so its buffer has grown in
//! a first run that is not counted; the frames that it delivers are dropped after each push.
//! Pushes with a tally have the push without in the place of the copy, and packets that are read under the
//! terms of a role have the same under none.
//!
//! With several tables (1), each number is the median over them, and for a ratio the least and the
//! greatest follow.

mod inputs;
mod packets;
mod rows;

use std::process::ExitCode;
use std::time::Instant;

use inputs::Inputs;
use packets::Sample;
use rows::Buffers;

/// One measured row: what each side does in a run, over how many bytes and items.
pub struct Row<'a> {
    pub name: String,
    pub bytes: usize,
    pub items: usize,
    pub port: rows::Side<'a>,
    pub rust: rows::Side<'a>,
    pub copy: rows::Side<'a>,
}

/// A table by its rows; a heading is a name without numbers.
type Table = Vec<(String, Option<Measured>)>;

/// What a row took in one table.
struct Measured {
    of_rust: f64,
    of_copy: f64,
    /// Nanoseconds of the port for an item, where there are items.
    each: Option<f64>,
}

fn main() -> ExitCode {
    let Some((runs, tables)) = options() else {
        eprintln!("usage: bench [--runs N] [--tables N]");
        return ExitCode::from(2);
    };
    let (inputs, buffers) = (Inputs::new(), Buffers::new());
    let (samples, alike, sent) = (packets::samples(), packets::alike(), packets::sent());
    let taken: Vec<Table> = (0..tables)
        .map(|_| table(runs, &inputs, &buffers, &samples, &alike, &sent))
        .collect();
    println!("{}", machine());
    println!("medians of {runs} runs, in {tables} tables; ratios of time, below 1 is faster");
    show(&taken);
    ExitCode::SUCCESS
}

fn options() -> Option<(usize, usize)> {
    let mut words = std::env::args().skip(1);
    let (mut runs, mut tables) = (21, 1);
    while let Some(word) = words.next() {
        let number = words.next()?.parse().ok()?;
        match word.as_str() {
            "--runs" => runs = number,
            "--tables" => tables = number,
            _ => return None,
        }
    }
    (runs > 0 && tables > 0).then_some((runs, tables))
}

fn table(
    runs: usize,
    inputs: &Inputs,
    buffers: &Buffers,
    samples: &[Sample],
    alike: &Sample,
    sent: &[Sample],
) -> Table {
    let rows = |names: &[&'static str]| -> Vec<Row<'_>> {
        let row = |name: &&'static str| rows::row(name, inputs, buffers);
        names.iter().map(row).collect()
    };
    let mut packets = packets::rows(samples, buffers);
    packets.push(packets::find_alike(alike, buffers));
    let mut inlined = rows(&rows::INLINED);
    inlined.extend(packets::called_each(samples, buffers));
    let parts = [
        (
            "streams, frames, headers, compact sizes",
            rows(&rows::NAMES),
        ),
        (
            "pushes with a tally; instead of the copy, the push without",
            rows::TALLIED
                .iter()
                .map(|name| rows::tallied(name, inputs, buffers))
                .collect(),
        ),
        ("packets", packets),
        (
            "packets read under the terms of a role; instead of the copy, under no terms",
            sent.iter()
                .map(|sample| packets::read_as(sample, buffers))
                .collect(),
        ),
        (
            "packets with values of their own",
            packets::owned(samples, buffers),
        ),
        (
            "where a call costs more than the work, beside the Rust inlined",
            inlined,
        ),
    ];
    let mut table = Table::new();
    for (heading, rows) in parts {
        table.push((heading.to_owned(), None));
        table.extend(rows.into_iter().map(|row| measure(row, runs)));
    }
    table
}

fn machine() -> String {
    let text = std::fs::read_to_string("/proc/cpuinfo").unwrap_or_default();
    let model = text
        .lines()
        .find_map(|line| line.strip_prefix("model name"));
    let model = model.map_or("unknown", |name| name.trim_start_matches([' ', '\t', ':']));
    let cores = std::thread::available_parallelism().map_or(0, usize::from);
    format!("{model}, {cores} cores, {}", std::env::consts::ARCH)
}

/// Whose turn is first goes round, so that none always finds what another left in the caches.
fn measure(mut row: Row<'_>, runs: usize) -> (String, Option<Measured>) {
    let mut times = [vec![], vec![], vec![]];
    for run in 0..=runs {
        for turn in 0..3 {
            let side = (run + turn) % 3;
            let work = [&mut row.port, &mut row.rust, &mut row.copy];
            let begun = Instant::now();
            work[side]();
            if run > 0 {
                times[side].push(begun.elapsed().as_secs_f64());
            }
        }
    }
    let [port, rust, copy] = times.map(median);
    let measured = Measured {
        of_rust: port / rust,
        of_copy: port / copy,
        each: (row.items > 0).then(|| port * 1e9 / row.items as f64),
    };
    (row.name, Some(measured))
}

fn median(mut times: Vec<f64>) -> f64 {
    times.sort_by(f64::total_cmp);
    times[times.len() / 2]
}

/// The median with the least and the greatest.
fn spread(ratios: Vec<f64>) -> String {
    let least = ratios.iter().copied().fold(f64::INFINITY, f64::min);
    let greatest = ratios.iter().copied().fold(0.0, f64::max);
    format!("{:.2} ({least:.2} to {greatest:.2})", median(ratios))
}

fn show(tables: &[Table]) {
    println!("| | port / Rust | port / copy | ns an item |");
    println!("|---|---|---|---|");
    for (i, (name, first)) in tables[0].iter().enumerate() {
        let measured = || tables.iter().filter_map(|table| table[i].1.as_ref());
        if first.is_none() {
            println!("| **{name}** | | | |");
            continue;
        }
        let of_rust = spread(measured().map(|row| row.of_rust).collect());
        let of_copy = spread(measured().map(|row| row.of_copy).collect());
        let each: Vec<f64> = measured().filter_map(|row| row.each).collect();
        let each = if each.is_empty() {
            String::new()
        } else {
            format!("{:.2}", median(each))
        };
        println!("| {name} | {of_rust} | {of_copy} | {each} |");
    }
}
