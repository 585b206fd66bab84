//! The fixed list of the Rust's answers, which programs of crates/ replay where no Rust is at hand.
//!
//! usage: answers FOLDER      writes stdin, the cases, and stdout, the answers, into a folder for each
//!                            program below FOLDER

mod encoding;
mod frames;
mod headers;
mod list;
mod packets;
mod payloads;
mod writers;

use std::ops::Range;
use std::path::Path;
use std::process::ExitCode;

use list::List;

/// The programs, and the kinds of their cases.
const PROGRAMS: [(&str, Range<u8>); 3] = [
    ("rust_answers", 0..24),
    ("rust_packet_answers", packets::PACKET..packets::REWRITE),
    ("rust_writer_answers", packets::REWRITE..30),
];

fn main() -> ExitCode {
    let Some(folder) = std::env::args().nth(1) else {
        eprintln!("usage: answers FOLDER");
        return ExitCode::from(2);
    };
    let list = all();
    for (name, kinds) in PROGRAMS {
        match list.save(kinds, &Path::new(&folder).join(name)) {
            Ok(count) => println!("{name}: {count} answers"),
            Err(error) => {
                eprintln!("{folder}/{name}: {error}");
                return ExitCode::FAILURE;
            }
        }
    }
    ExitCode::SUCCESS
}

fn all() -> List {
    let mut list = List::default();
    list.encoding();
    list.headers();
    list.frames();
    list.pushes();
    list.packets();
    list.writers();
    list
}
