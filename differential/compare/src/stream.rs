//! Pushes: the bytes of a case in chunks, into both sides' streams, and into one of the port's with a
//! tally.

use hns_p2p_wire::{FrameDecoder, MAX_STREAM_BUFFER_SIZE};
use hns_port::{Delivered, Pushed, Refusal, TALLY_SIZE};

use crate::buffer::{fill, filled};
use crate::case::{Case, NETWORKS, Verdict};
use crate::rust;
use crate::tally::{FULL, Tally, Totals, greatest, too_great};

/// A push that is turned away by a refusal that the Rust lacks: the chunk comes again after it.
pub const SHORT_OUTPUT: u64 = 1 << 62;
pub const SHORT_STORE: u64 = 1 << 61;
pub const HELD_OVER: u64 = 1 << 60;
pub const LENGTH: u64 = HELD_OVER - 1;

/// Bytes of store and output past what a push needs.
const SLACK: usize = 16;
/// Buffers up to this length are compared whole after each push, longer ones around what was
/// touched, and whole at the end.
const SHORT: usize = 4096;

pub fn check(case: &Case) -> Verdict {
    let mut streams = Streams::new(case);
    let mut rest = &case.bytes[..];
    let mut compared = 0;
    for number in case.numbers.iter().chain([&u64::MAX]) {
        let length = (number & LENGTH).min(rest.len() as u64) as usize;
        let (chunk, after) = rest.split_at(length);
        let verdict = match number & !LENGTH {
            SHORT_OUTPUT => streams.turned_away(chunk, 16),
            SHORT_STORE => streams.turned_away(chunk, 17),
            HELD_OVER => streams.turned_away(chunk, 18),
            _ => {
                rest = after;
                streams.push(chunk)
            }
        };
        let Verdict::Same(n) = verdict else {
            return verdict;
        };
        compared += n;
    }
    match streams.whole() {
        Verdict::Same(_) => Verdict::Same(compared),
        other => other,
    }
}

struct Streams {
    network: usize,
    rust: FrameDecoder,
    /// What the port's push is lent, and its push with a tally.
    plain: Lent,
    tallying: Lent,
    /// What both stores should hold.
    model: Vec<u8>,
    held: usize,
    tally: Tally,
    pushes: usize,
}

impl Streams {
    fn new(case: &Case) -> Self {
        let longest = case.bytes.len().min(MAX_STREAM_BUFFER_SIZE) + SLACK;
        Self {
            network: case.network,
            rust: FrameDecoder::new(rust::NETWORKS[case.network]),
            plain: Lent::new(longest),
            tallying: Lent::new(longest),
            model: filled(longest),
            held: 0,
            tally: Tally::new(),
            pushes: 0,
        }
    }

    fn push(&mut self, chunk: &[u8]) -> Verdict {
        let refused = self.tally_refused(chunk);
        let Verdict::Same(alone) = refused else {
            return refused;
        };
        let total = self.held + chunk.len();
        let (own, set) = self.other_totals(total);
        let (plain, tallying) = self.both(chunk, self.plain.room());
        let mut delivered = Vec::new();
        let expected = self.rust_push(chunk, &mut delivered);
        let verdict = Verdict::of(&plain, &expected)
            .and_then(|| Verdict::of(&tallying, &expected))
            .and_then(|| self.tally.check());
        if verdict.differs() {
            return verdict;
        }
        self.tally.back(own, set);
        if expected.held == total - delivered.len() {
            self.model[self.held..total].copy_from_slice(chunk);
            self.model.copy_within(delivered.len()..total, 0);
        }
        self.held = expected.held;
        self.pushes += 1;
        match self.buffers(total, &delivered) {
            Verdict::Same(n) => Verdict::Same(n + alone),
            other => other,
        }
    }

    /// Other totals for a push of so many bytes, held and new: the tally's own, and those.
    fn other_totals(&mut self, total: usize) -> (Totals, Totals) {
        let own = self.tally.recount.totals();
        let set = if total > MAX_STREAM_BUFFER_SIZE {
            // 6 comes before 20.
            FULL
        } else {
            greatest(self.pushes, own, total)
        };
        self.tally.set(set);
        (own, set)
    }

    /// The Rust's answer, with its frames' encodings, and counted.
    fn rust_push(&mut self, chunk: &[u8], delivered: &mut Vec<u8>) -> Pushed {
        let network = rust::NETWORKS[self.network];
        let answer = self.rust.push(chunk).map_err(rust::wire_error);
        let answer = answer.map(|frames| {
            for frame in &frames {
                let bytes = frame.encode(network).expect("a frame that was read");
                delivered.extend_from_slice(&bytes);
                let packet_type = frame.packet_type.as_u8();
                self.tally.recount.add(packet_type, &frame.payload);
            }
            let (frames, bytes) = (frames.len(), delivered.len());
            Delivered { frames, bytes }
        });
        let held = self.rust.buffered_len();
        Pushed { answer, held }
    }

    /// Both pushes of the port, into so much of their stores and outputs.
    fn both(&mut self, chunk: &[u8], (room, out): (usize, usize)) -> (Pushed, Pushed) {
        let (network, held) = (NETWORKS[self.network], self.held);
        let (store, output) = self.plain.parts(room, out);
        let plain = hns_port::push(network, store, held, chunk, output);
        let (store, output) = self.tallying.parts(room, out);
        let tally = &mut self.tally.lent;
        let tallying = hns_port::push_tallying(network, store, held, chunk, output, tally);
        (plain, tallying)
    }

    /// Stores and outputs after a push whose frames' encodings these are.
    fn buffers(&mut self, total: usize, delivered: &[u8]) -> Verdict {
        let plain = self.plain.check(&self.model, total, delivered);
        plain
            .and_then(|| self.tallying.check(&self.model, total, delivered))
            .and_then(|| self.held_bytes())
    }

    /// The Rust shows its held bytes only as text.
    fn held_bytes(&self) -> Verdict {
        if self.held > 64 {
            return Verdict::Same(1);
        }
        let network = rust::NETWORKS[self.network];
        let held = &self.plain.store[..self.held];
        let port = format!("FrameDecoder {{ network: {network:?}, buffered: {held:?} }}");
        Verdict::of(&port, &format!("{:?}", self.rust))
    }

    /// A push with too little lent changes nothing; the Rust is not given it.
    fn turned_away(&mut self, chunk: &[u8], number: u64) -> Verdict {
        let total = self.held + chunk.len();
        let (mut room, mut out) = self.plain.room();
        let short = match number {
            16 => &mut out,
            _ => &mut room,
        };
        let least = if number == 18 { self.held } else { total };
        let fits = number == 17 && total == self.held;
        if least == 0 || fits || total > MAX_STREAM_BUFFER_SIZE {
            return Verdict::Same(0);
        }
        *short = least - 1;
        let own = self.tally.recount.totals();
        // All of these come before 20.
        self.tally.set(FULL);
        let (plain, tallying) = self.both(chunk, (room, out));
        let answer = Err(rust::refusal(number, least as u64, 0));
        let held = self.held;
        let expected = Pushed { answer, held };
        let verdict = Verdict::of(&plain, &expected)
            .and_then(|| Verdict::of(&tallying, &expected))
            .and_then(|| self.tally.check());
        self.tally.set(own);
        verdict.and_then(|| self.buffers(total, &[]))
    }

    /// The same push with a tally that is too short, and with one that is full: neither changes anything.
    fn tally_refused(&mut self, chunk: &[u8]) -> Verdict {
        let total = self.held + chunk.len();
        if total > MAX_STREAM_BUFFER_SIZE {
            return Verdict::Same(0);
        }
        let own = self.tally.recount.totals();
        let short = rust::refusal(16, TALLY_SIZE as u64, 0);
        self.tally.set(too_great(self.pushes, own, total));
        let verdict = self
            .tally_turned_away(chunk, self.pushes % TALLY_SIZE, short)
            .and_then(|| {
                let full = rust::refusal(20, 0, 0);
                self.tally_turned_away(chunk, self.tally.lent.len(), full)
            });
        self.tally.set(own);
        verdict.and_then(|| Verdict::Same(2))
    }

    fn tally_turned_away(&mut self, chunk: &[u8], size: usize, refusal: Refusal) -> Verdict {
        let (network, held) = (NETWORKS[self.network], self.held);
        let Lent { store, output } = &mut self.tallying;
        let tally = &mut self.tally.lent[..size];
        let pushed = hns_port::push_tallying(network, store, held, chunk, output, tally);
        let answer = Err(refusal);
        Verdict::of(&pushed, &Pushed { answer, held })
            .and_then(|| self.tally.check())
            .and_then(|| {
                self.tallying
                    .check_from(held, &self.model, held + chunk.len())
            })
    }

    fn whole(&self) -> Verdict {
        let plain = self.plain.whole(&self.model);
        plain.and_then(|| self.tallying.whole(&self.model))
    }
}

/// A store and an output.
struct Lent {
    store: Vec<u8>,
    output: Vec<u8>,
}

impl Lent {
    fn new(n: usize) -> Self {
        Self {
            store: filled(n),
            output: filled(n),
        }
    }

    fn room(&self) -> (usize, usize) {
        (self.store.len(), self.output.len())
    }

    fn parts(&mut self, room: usize, out: usize) -> (&mut [u8], &mut [u8]) {
        (&mut self.store[..room], &mut self.output[..out])
    }

    /// Both after a push whose frames' encodings these are, which it clears from the output.
    fn check(&mut self, model: &[u8], total: usize, delivered: &[u8]) -> Verdict {
        let n = delivered.len();
        let front = Verdict::of(&&self.output[..n], &delivered);
        fill(&mut self.output[..n], 0);
        let near = self.near(n);
        front
            .and_then(|| Verdict::of(&&self.output[..near], &&filled(near)[..]))
            .and_then(|| self.check_from(0, model, total))
    }

    /// The store from a place on.
    fn check_from(&self, from: usize, model: &[u8], total: usize) -> Verdict {
        let near = self.near(total);
        Verdict::of(&&self.store[from..near], &&model[from..near])
    }

    fn near(&self, touched: usize) -> usize {
        let near = if self.store.len() <= SHORT {
            self.store.len()
        } else {
            touched + SLACK
        };
        near.min(self.store.len())
    }

    fn whole(&self, model: &[u8]) -> Verdict {
        Verdict::of(&&self.store[..], &model)
            .and_then(|| Verdict::of(&self.output, &filled(self.output.len())))
    }
}
