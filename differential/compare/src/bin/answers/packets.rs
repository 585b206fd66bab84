//! Packets: read, fetched item by item, searched, and written again.
//!
//! The number of a case is the length of the lent output or the place of an item. Two more say which
//! zeros its bytes leave out: after how many bytes they stand, and how many there are.

use std::slice::from_ref;

use compare::packets::{
    Seen, again, decode, indexes, inventories, item_numbers, rust_item, rust_seen, words,
};
use compare::rust;
use hns_port::Refusal;

use crate::list::{List, hex, spliced};
use crate::payloads;

pub const PACKET: u8 = 24;
const ITEM: u8 = 25;
const AT_ONCE: u8 = 26;
const FIND: u8 = 27;
pub const REWRITE: u8 = 28;

/// So many numbers are lent for indexes, and twice as many for others, each with this value.
const PLACES: usize = 5;
const UNSET: u64 = 170;
/// So many bytes are shown.
const SHOWN: usize = 800;
/// Fewer zeros stand in the line.
const LEFT_OUT: usize = 64;

impl List {
    pub fn packets(&mut self) {
        for (packet_type, payload) in payloads::good() {
            self.whole(packet_type, &payload);
        }
        for (packet_type, fields) in payloads::to_cut() {
            self.cuts(packet_type, &fields);
        }
        for (packet_type, payload) in payloads::bad() {
            self.refused(packet_type, &payload);
        }
        for (packet_type, payload, count) in payloads::limits() {
            self.limit(packet_type, &payload, count);
        }
        self.long();
        self.searches();
    }

    /// A case of a kind, a packet type, a number and bytes.
    pub fn ask(&mut self, kind: u8, packet_type: u8, number: u64, bytes: &[u8], answer: &str) {
        let (before, zeros) = zeros(bytes);
        let given = [&bytes[..before], &bytes[before + zeros..]].concat();
        let numbers = [number, before as u64, zeros as u64];
        self.add(kind, packet_type, numbers, &given, answer);
    }

    /// The packet, and the output for its text.
    fn packet(&mut self, packet_type: u8, payload: &[u8], room: usize) {
        let mut text = Vec::new();
        let seen = decode(packet_type, payload).and_then(|packet| {
            text = rust::fits(words(&packet).into(), room)?;
            Ok(rust_seen(&packet))
        });
        let answer = format!("{} {}", told(&seen), shown(&spliced(room, 0, &text)));
        self.ask(PACKET, packet_type, room as u64, payload, &answer);
    }

    fn item(&mut self, packet_type: u8, payload: &[u8], place: usize) {
        let seen = decode(packet_type, payload).and_then(|packet| rust_item(&packet, place));
        self.ask(ITEM, packet_type, place as u64, payload, &told(&seen));
    }

    /// All items by one call: indexes of a getblocktxn, numbers of others; and the numbers that were
    /// lent for them.
    fn at_once(&mut self, packet_type: u8, payload: &[u8]) {
        let lent = if packet_type == 24 {
            PLACES
        } else {
            2 * PLACES
        };
        let mut out = vec![UNSET; lent];
        let seen = decode(packet_type, payload).and_then(|packet| {
            let list = [indexes(&packet), item_numbers(&packet)].concat();
            if lent < list.len() {
                return Err(rust::refusal(16, list.len() as u64, 0));
            }
            out[..list.len()].copy_from_slice(&list);
            Ok((vec![list.len() as u64], vec![]))
        });
        let out: Vec<String> = out.iter().map(u64::to_string).collect();
        let answer = format!("{} {}", told(&seen), out.join(" "));
        self.ask(AT_ONCE, packet_type, 0, payload, &answer);
    }

    /// Whether a hash is found, and what then stands at the place.
    fn find(&mut self, packet_type: u8, payload: &[u8], hash: &[u8]) {
        let seen = decode(packet_type, payload).map(|packet| {
            let mut items = inventories(&packet).iter();
            match items.find(|item| item.hash == hash) {
                Some(item) => (vec![1], vec![item.hash.to_vec()]),
                None => (vec![0], vec![]),
            }
        });
        let bytes = [hash, payload].concat();
        self.ask(FIND, packet_type, 0, &bytes, &told(&seen));
    }

    fn rewrite(&mut self, packet_type: u8, payload: &[u8], room: usize) {
        let answer = written(again(packet_type, payload, room), room);
        self.ask(REWRITE, packet_type, room as u64, payload, &answer);
    }

    /// A payload that reads, with outputs one short, exact and longer.
    fn whole(&mut self, packet_type: u8, payload: &[u8]) {
        let packet = decode(packet_type, payload).expect("a payload that reads");
        for room in rooms(words(&packet).len()) {
            self.packet(packet_type, payload, room);
        }
        let bytes = again(packet_type, payload, usize::MAX).expect("a packet that was read");
        for room in rooms(bytes.len()) {
            self.rewrite(packet_type, payload, room);
        }
        let count = (0..)
            .take_while(|place| rust_item(&packet, *place).is_ok())
            .count();
        // of a long list, the first and the last
        let places = (0..=count).filter(|place| *place < PLACES || count < place + 2);
        for place in places.chain([usize::MAX]) {
            self.item(packet_type, payload, place);
        }
        self.at_once(packet_type, payload);
        for place in 0..inventories(&packet).len() {
            self.find(packet_type, payload, &inventories(&packet)[place].hash);
        }
    }

    /// Cut before each field and before its last byte; and with a byte more.
    fn cuts(&mut self, packet_type: u8, fields: &[Vec<u8>]) {
        for i in 0..fields.len() {
            let front = fields[..i].concat();
            self.packet(packet_type, &front, 2);
            if let [part @ .., _] = &fields[i][..]
                && !part.is_empty()
            {
                self.packet(packet_type, &[&front, part].concat(), 2);
            }
        }
        let longer = [fields, from_ref(&vec![0x5a])].concat().concat();
        self.refused(packet_type, &longer);
    }

    /// A payload that every question is refused for.
    fn refused(&mut self, packet_type: u8, payload: &[u8]) {
        self.packet(packet_type, payload, 2);
        self.item(packet_type, payload, 0);
        self.rewrite(packet_type, payload, 2);
        self.find(packet_type, payload, &[7; 32]);
        self.at_once(packet_type, payload);
    }

    /// A list of so many items, at its limit or one over it.
    fn limit(&mut self, packet_type: u8, payload: &[u8], count: usize) {
        self.packet(packet_type, payload, 2);
        self.rewrite(packet_type, payload, 9);
        for place in [0, count - 1, count] {
            self.item(packet_type, payload, place);
        }
        self.at_once(packet_type, payload);
        if let 6..=8 = packet_type {
            let (first, last) = (&payload[7..39], &payload[payload.len() - 32..]);
            for hash in [first, last, &[0; 32], &[7; 32]] {
                self.find(packet_type, payload, hash);
            }
        }
    }

    /// Payloads of 8,000,000 bytes and of one more.
    fn long(&mut self) {
        for packet_type in [0, 1, 2, 5, 6, 17, 24, 255] {
            self.packet(packet_type, &vec![0; 8_000_000], 2);
            self.refused(packet_type, &vec![0; 8_000_001]);
        }
        self.rewrite(17, &vec![0; 8_000_000], 2);
    }

    /// Hashes that stand nowhere: beside an item's, across two items, among no inventory items.
    fn searches(&mut self) {
        let [list, locator, empty] = payloads::to_search();
        for packet_type in 6..9 {
            let mut near = list[5..37].to_vec();
            near[31] ^= 1;
            for hash in [&near, &list[4..36], &list[6..38], &list[21..53], &[0; 32]] {
                self.find(packet_type, &list, hash);
            }
            self.find(packet_type, &empty, &list[5..37]);
        }
        for packet_type in [9, 10] {
            self.find(packet_type, &locator, &locator[1..33]);
        }
        for packet_type in [17, 30, 255] {
            self.find(packet_type, &list, &list[5..37]);
        }
    }
}

/// Lengths of an output: one short, exact, and longer.
pub fn rooms(length: usize) -> Vec<usize> {
    let short = length.checked_sub(1);
    short.into_iter().chain([length, length + 3]).collect()
}

/// 0 and what is seen, or the refusal's number and values.
fn told(seen: &Result<Seen, Refusal>) -> String {
    match seen {
        Ok((numbers, bytes)) => {
            let numbers = numbers.iter().map(u64::to_string);
            let bytes = bytes.iter().map(|bytes| shown(bytes));
            let words = ["0".to_owned()].into_iter().chain(numbers).chain(bytes);
            words.collect::<Vec<_>>().join(" ")
        }
        Err(r) => format!("{} {} {} {}", r.number, r.a, r.b, r.c),
    }
}

/// The length of what was written, or the refusal, and the output.
pub fn written(bytes: Result<Vec<u8>, Refusal>, room: usize) -> String {
    let out = spliced(room, 0, bytes.as_ref().map_or(&[], Vec::as_slice));
    let length = bytes.map(|bytes| (vec![bytes.len() as u64], vec![]));
    format!("{} {}", told(&length), shown(&out))
}

fn shown(bytes: &[u8]) -> String {
    if bytes.is_empty() {
        return "-".to_owned();
    }
    hex(&bytes[..bytes.len().min(SHOWN)])
}

/// Where the most zeros stand together, and how many, if they are many.
fn zeros(bytes: &[u8]) -> (usize, usize) {
    let (mut first, mut most, mut from) = (0, 0, 0);
    for (i, byte) in bytes.iter().enumerate() {
        if *byte != 0 {
            from = i + 1;
        } else if most < i + 1 - from {
            (first, most) = (from, i + 1 - from);
        }
    }
    if most < LEFT_OUT {
        return (0, 0);
    }
    (first, most)
}
