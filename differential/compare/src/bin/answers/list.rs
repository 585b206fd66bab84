//! Cases and answers, a line each.

use std::fmt::Write;
use std::io;
use std::ops::Range;
use std::path::Path;

use hns_port::Refusal;

const PATTERN: u8 = 0xaa;

#[derive(Default)]
pub struct List(Vec<Line>);

struct Line {
    kind: u8,
    case: String,
    answer: String,
}

impl List {
    /// A case is its kind, a byte for the network or the packet type, three numbers of eight bytes, and
    /// its bytes.
    pub fn add(&mut self, kind: u8, second: u8, numbers: [u64; 3], bytes: &[u8], answer: &str) {
        let numbers = numbers.map(u64::to_le_bytes).concat();
        let case = [&[kind, second], &numbers[..], bytes].concat();
        self.0.push(Line {
            kind,
            case: format!("{}\n", hex(&case)),
            answer: format!("{kind} {answer}\n"),
        });
    }

    /// Writes the folder's stdin, the cases of some kinds, and its stdout, the answers; says how many.
    pub fn save(&self, kinds: Range<u8>, folder: &Path) -> io::Result<usize> {
        let lines: Vec<&Line> = self
            .0
            .iter()
            .filter(|line| kinds.contains(&line.kind))
            .collect();
        let cases: String = lines.iter().map(|line| line.case.as_str()).collect();
        let answers: String = lines.iter().map(|line| line.answer.as_str()).collect();
        std::fs::create_dir_all(folder)?;
        std::fs::write(folder.join("stdin"), cases)?;
        std::fs::write(folder.join("stdout"), answers)?;
        Ok(lines.len())
    }
}

pub fn hex(bytes: &[u8]) -> String {
    bytes.iter().fold(String::new(), |mut text, byte| {
        let _ = write!(text, "{byte:02x}");
        text
    })
}

/// A row of the port: what was answered, or the refusal's number and values.
pub fn row(answer: Result<[u64; 5], Refusal>, held: u64) -> String {
    let numbers = match answer {
        Ok([a, b, c, d, e]) => [0, a, b, c, d, e],
        Err(r) => [r.number, r.a, r.b, r.c, held, 0],
    };
    numbers.map(|n| n.to_string()).join(" ")
}

/// A lent output after bytes were put at a place of it.
pub fn spliced(room: usize, at: usize, bytes: &[u8]) -> Vec<u8> {
    let mut out = vec![PATTERN; room];
    out[at..at + bytes.len()].copy_from_slice(bytes);
    out
}
