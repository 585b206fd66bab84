//! Index lists of a getblocktxn, with what is wrong in them at every place: the port passes sixteen
//! differences at once where it can.

use crate::case::{Case, Kind};
use crate::payloads::ask_all;
use crate::rust::compact_size;

pub fn all(run: &mut impl FnMut(&Case)) {
    jumps(run);
    of_one_byte(run);
    for every in [1, 2, 3, 17, 40] {
        mixed(every, run);
    }
}

/// The list by every question, and its last item.
fn ask(differences: &[Vec<u8>], run: &mut impl FnMut(&Case)) {
    let count = differences.len() as u64;
    let payload = [vec![7; 32], compact_size(count), differences.concat()].concat();
    ask_all(24, &payload, run);
    run(&Case::new(Kind::Item, payload, &[24, count - 1]));
}

/// One difference leads to 65,536 at a place or, where that is past the last, to 65,535 there; the
/// others are 0.
fn jumps(run: &mut impl FnMut(&Case)) {
    for count in 1..=65 {
        for jump in [0, 1, 8, 15, 16, 17, 40] {
            for place in jump..=count {
                let mut differences = vec![vec![0]; count];
                if let Some(difference) = differences.get_mut(jump) {
                    *difference = compact_size(65_536 - place as u64);
                    ask(&differences, run);
                }
            }
        }
    }
}

/// Differences of one byte, as many as it takes to come to 65,536 at a place, and some after it.
fn of_one_byte(run: &mut impl FnMut(&Case)) {
    for place in 259..=310 {
        let mut left = 65_536 - place;
        let differences: Vec<_> = std::iter::repeat_with(|| {
            let difference = left.min(252);
            left -= difference;
            vec![difference as u8]
        })
        .take(place + 40)
        .collect();
        for count in [place, place + 1, place + 2, place + 16, place + 40] {
            ask(&differences[..count], run);
        }
    }
}

/// Forty differences, one in so many of three bytes and the others of one: another form at every
/// place, the end at every byte, and bytes after the list.
fn mixed(every: usize, run: &mut impl FnMut(&Case)) {
    let forms: [&[u8]; 9] = [
        &[252],
        &[0xfd, 0xfd, 0],
        &[0xfd, 0xfc, 0],
        &[0xfd, 0xff, 0xff],
        &[0xfe, 0, 0, 1, 0],
        &[0xfe, 0xff, 0xff, 0, 0],
        &[0xff, 0, 0, 0, 0, 1, 0, 0, 0],
        &[0xff, 0xff, 0xff, 0xff, 0xff, 0, 0, 0, 0],
        &[0xff, 1],
    ];
    let list: Vec<_> = (0..40_usize)
        .map(|i| match i % every {
            0 => vec![0xfd, 0xfd, 0],
            _ => vec![i as u8],
        })
        .collect();
    for place in 0..list.len() {
        for form in forms {
            let mut list = list.clone();
            list[place] = form.to_vec();
            ask(&list, run);
        }
    }
    let whole = [vec![7; 32], compact_size(40), list.concat()].concat();
    for cut in 32..whole.len() {
        ask_all(24, &whole[..cut], run);
    }
    for more in 0..=50 {
        ask_all(24, &[&whole[..], &vec![0; more]].concat(), run);
    }
}
