//! The first inputs: random cases of every kind, and a few of the exhaustive ones. The large limits
//! stay with the comparison.

use std::path::Path;
use std::{fs, io};

use compare::bytes::LONGEST;
use compare::case::{Case, Kind};
use compare::rng::Rng;
use compare::{exhaustive, generate};

/// Random cases of each kind.
const RANDOM: usize = 120;
/// Of the exhaustive cases one in so many, which is a prime, so that all kinds and places come up.
const THINNED: usize = 3001;

/// Answers the status to end with.
pub fn write(folder: &Path) -> i32 {
    let mut seeds = Vec::new();
    random(&mut seeds);
    thinned(&mut seeds);
    match store(folder, &seeds) {
        Ok(()) => {
            println!("{} seeds in {}", seeds.len(), folder.display());
            0
        }
        Err(error) => {
            eprintln!("{}: {error}", folder.display());
            1
        }
    }
}

fn random(seeds: &mut Vec<Vec<u8>>) {
    let mut rng = Rng::new(0);
    for kind in Kind::ALL {
        let made = (0..4 * RANDOM).filter_map(|_| seed(&generate::case(&mut rng, kind)));
        let before = seeds.len();
        seeds.extend(made.take(RANDOM));
        assert!(seeds.len() > before, "no seed of {kind:?}");
    }
}

fn thinned(seeds: &mut Vec<Vec<u8>>) {
    let mut count = 0;
    let mut one_in_many = |case: &Case| {
        count += 1;
        if count % THINNED == 0 {
            seeds.extend(seed(case));
        }
    };
    exhaustive::all(true, &mut one_in_many);
}

/// The input that a case is made from, where that is short enough.
fn seed(case: &Case) -> Option<Vec<u8>> {
    let bytes = case.to_bytes();
    let again = Case::from_bytes(&bytes);
    let same = (again.kind, again.network) == (case.kind, case.network);
    let same = same && again.bytes == case.bytes && again.to_bytes() == bytes;
    assert!(same, "an input of another case:\n{case}{again}");
    (bytes.len() <= LONGEST).then_some(bytes)
}

fn store(folder: &Path, seeds: &[Vec<u8>]) -> io::Result<()> {
    fs::create_dir_all(folder)?;
    for (i, seed) in seeds.iter().enumerate() {
        fs::write(folder.join(format!("{i:05}")), seed)?;
    }
    Ok(())
}
