//! The smallest input found that still tells the sides apart.

use std::panic::{set_hook, take_hook};
use std::time::{Duration, Instant};

use crate::case::Case;
use crate::check;

/// A case of millions of bytes has more candidates than are worth trying.
const LONGEST: Duration = Duration::from_secs(10);

/// The smallest found. Of the panics on the way none is worth its message: a check of what was found
/// says it again.
pub fn shrink(case: Case) -> Case {
    let hook = take_hook();
    set_hook(Box::new(|_| ()));
    let smallest = smallest(case);
    set_hook(hook);
    smallest
}

/// Tries, in each round: fewer bytes, a nearer place, fewer numbers, bytes of 0, smaller numbers.
fn smallest(mut case: Case) -> Case {
    let begun = Instant::now();
    loop {
        let in_time = |_: &Case| begun.elapsed() < LONGEST;
        let smaller = candidates(&case)
            .take_while(in_time)
            .find(|case| check(case).differs());
        let Some(smaller) = smaller else {
            return case;
        };
        case = smaller;
    }
}

fn candidates(case: &Case) -> impl Iterator<Item = Case> + '_ {
    fewer_bytes(case)
        .chain(nearer(case))
        .chain(fewer_numbers(case))
        .chain(zero_bytes(case))
        .chain(smaller_numbers(case))
}

fn fewer_bytes(case: &Case) -> impl Iterator<Item = Case> + '_ {
    let n = case.bytes.len();
    let sizes = std::iter::successors(Some(n), |size| Some(size / 2)).take_while(|s| *s > 0);
    sizes.flat_map(move |size| {
        (0..=n - size).step_by(size).map(move |at| {
            let mut bytes = case.bytes.clone();
            bytes.drain(at..at + size);
            Case {
                bytes,
                ..case.clone()
            }
        })
    })
}

/// Without the first byte, and the place or the first chunk with it.
fn nearer(case: &Case) -> impl Iterator<Item = Case> + '_ {
    let first = case.number(0);
    let both = first > 0 && !case.bytes.is_empty();
    both.then(|| {
        let mut nearer = case.clone();
        nearer.bytes.remove(0);
        nearer.numbers[0] = first - 1;
        nearer
    })
    .into_iter()
}

fn fewer_numbers(case: &Case) -> impl Iterator<Item = Case> + '_ {
    (0..case.numbers.len()).rev().map(|i| {
        let mut numbers = case.numbers.clone();
        numbers.remove(i);
        Case {
            numbers,
            ..case.clone()
        }
    })
}

fn zero_bytes(case: &Case) -> impl Iterator<Item = Case> + '_ {
    let set = (0..case.bytes.len()).filter(|i| case.bytes[*i] != 0);
    set.take(4096).map(|i| {
        let mut bytes = case.bytes.clone();
        bytes[i] = 0;
        Case {
            bytes,
            ..case.clone()
        }
    })
}

fn smaller_numbers(case: &Case) -> impl Iterator<Item = Case> + '_ {
    (0..case.numbers.len()).flat_map(move |i| {
        let value = case.numbers[i];
        let ways = [0, value / 2, value.saturating_sub(1)];
        let ways = ways.into_iter().filter(move |v| *v < value);
        ways.map(move |smaller| {
            let mut numbers = case.numbers.clone();
            numbers[i] = smaller;
            Case {
                numbers,
                ..case.clone()
            }
        })
    })
}
