//! Payloads by type: good ones, ones to cut at their fields, bad ones, and lists at their limits.

use compare::generate::LISTS;
use compare::rust::compact_size;

/// Fields one after another.
type Fields = Vec<Vec<u8>>;
type Payload = (u8, Vec<u8>);

const EMPTY: [u8; 5] = [1, 4, 12, 16, 19];
const RAW: [u8; 8] = [17, 18, 20, 28, 29, 30, 31, 255];
/// Rejected types that come with a hash, and some that come without.
pub const WITH_HASH: [u8; 4] = [13, 14, 28, 29];
pub const WITHOUT_HASH: [u8; 8] = [0, 12, 15, 16, 27, 30, 31, 255];
const INDEX_LIMIT: u64 = 16_662;

/// Bytes that differ from each other and from those of another seed.
pub fn bytes(n: usize, seed: usize) -> Vec<u8> {
    (0..n).map(|i| (i * 11 + seed * 41 + 5) as u8).collect()
}

fn address(host_kind: u8, seed: usize) -> Fields {
    let widths = [8, 4, 4, 1, 36, 2, 33];
    let mut fields: Fields = widths
        .iter()
        .map(|width| bytes(*width, seed + width))
        .collect();
    fields[3] = vec![host_kind];
    fields
}

fn version(host_kind: u8, agent: &[u8], no_relay: u8) -> Fields {
    let mut fields: Fields = [4, 4, 4, 8].map(|width| bytes(width, width)).to_vec();
    fields.extend(address(host_kind, 3));
    fields.extend([bytes(8, 1), vec![agent.len() as u8], agent.to_vec()]);
    fields.extend([bytes(4, 2), vec![no_relay]]);
    fields
}

fn addresses(host_kinds: &[u8]) -> Fields {
    let mut fields = vec![compact_size(host_kinds.len() as u64)];
    for (i, host_kind) in host_kinds.iter().enumerate() {
        fields.extend(address(*host_kind, i));
    }
    fields
}

/// So many items, of which the last is the first again where there are three, and what follows.
fn list(widths: &[usize], count: usize, after: usize) -> Fields {
    let mut fields = vec![compact_size(count as u64)];
    for i in 0..count {
        fields.extend(widths.iter().map(|width| bytes(*width, i % 2 + width)));
    }
    if after > 0 {
        fields.push(bytes(after, 9));
    }
    fields
}

fn reject(message: u8, reason: &[u8], hash: usize) -> Fields {
    let mut fields = vec![
        vec![message],
        vec![0x80 | message],
        vec![reason.len() as u8],
    ];
    fields.push(reason.to_vec());
    if hash > 0 {
        fields.push(bytes(hash, 6));
    }
    fields
}

fn requested(differences: &[u64]) -> Fields {
    let mut fields = vec![bytes(32, 4), compact_size(differences.len() as u64)];
    fields.extend(
        differences
            .iter()
            .map(|difference| compact_size(*difference)),
    );
    fields
}

/// Payloads that read.
pub fn good() -> Vec<Payload> {
    let mut good: Vec<(u8, Fields)> = versions().into_iter().map(|fields| (0, fields)).collect();
    good.extend(EMPTY.map(|packet_type| (packet_type, vec![])));
    good.extend([2, 3].map(|packet_type| (packet_type, vec![bytes(8, packet_type.into())])));
    for host_kinds in [&[][..], &[0], &[1], &[255, 0, 1]] {
        good.push((5, addresses(host_kinds)));
    }
    for count in [0, 1, 3] {
        good.extend([6, 7, 8].map(|packet_type| (packet_type, list(&[4, 32], count, 0))));
        good.extend([9, 10].map(|packet_type| (packet_type, list(&[32], count, 32))));
        good.push((11, list(&[236], count, 0)));
    }
    for message in WITH_HASH {
        good.push((15, reject(message, b"bad\xe4", 32)));
    }
    for message in WITHOUT_HASH {
        good.push((15, reject(message, b"late", 0)));
    }
    good.extend([(15, reject(14, b"", 32)), (15, reject(1, b"", 0))]);
    good.extend([
        (15, reject(13, &bytes(255, 0), 32)),
        (15, reject(2, &bytes(255, 0), 0)),
    ]);
    for length in [0, 1, 20] {
        good.extend(RAW.map(|packet_type| (packet_type, vec![bytes(length, 0)])));
    }
    for rate in [0, 1, 1_000, -1, -1_000, i64::MAX, i64::MIN] {
        good.push((21, vec![rate.to_le_bytes().to_vec()]));
    }
    for (mode, version) in [(0, 1_u64), (1, 1), (2, 0), (255, u64::MAX)] {
        good.push((22, vec![vec![mode], version.to_le_bytes().to_vec()]));
    }
    good.extend(index_lists().into_iter().map(|list| (24, requested(&list))));
    good.push((26, vec![bytes(32, 1), bytes(32, 2)]));
    let payloads = good.into_iter();
    payloads
        .map(|(packet_type, fields)| (packet_type, fields.concat()))
        .collect()
}

/// Agents of no bytes and of 255, with bytes over 127; host kinds; no-relay bytes.
fn versions() -> Vec<Fields> {
    let mut versions = vec![
        version(0, b"/hsd:8.0.0/", 1),
        version(0, b"", 0),
        version(1, b"\x80\xff\x7f\xc1\x00", 2),
        version(255, &bytes(255, 0), 255),
    ];
    // no reserved word, and one whose every bit is set
    for word in [[0; 4], [255; 4]] {
        let mut fields = version(0, b"a", 1);
        fields[2] = word.to_vec();
        fields[6] = word.to_vec();
        versions.push(fields);
    }
    versions
}

/// Differences of index lists that read: none, at the limit, and in each form of a compact size.
fn index_lists() -> Vec<Vec<u64>> {
    vec![
        vec![],
        vec![0],
        vec![65_535],
        vec![3, 0, 4],
        vec![65_534, 0],
        vec![0, 65_534],
        vec![0, 0, 65_533],
        vec![252, 253, 65_000],
        vec![0; 5],
        vec![0; 6],
        vec![200; 300],
    ]
}

/// One payload of each type with fields, and of the empty ones.
pub fn to_cut() -> Vec<(u8, Fields)> {
    let mut all = vec![(0, version(0, b"/hsd:8/", 1)), (5, addresses(&[0, 1]))];
    all.extend([2, 3, 21].map(|packet_type| (packet_type, vec![bytes(8, 0)])));
    all.extend(EMPTY.map(|packet_type| (packet_type, vec![])));
    all.extend([6, 7, 8].map(|packet_type| (packet_type, list(&[4, 32], 2, 0))));
    all.extend([9, 10].map(|packet_type| (packet_type, list(&[32], 2, 32))));
    all.push((11, list(&[236], 2, 0)));
    all.extend([(15, reject(29, b"fee", 32)), (15, reject(15, b"fee", 0))]);
    all.push((22, vec![vec![1], bytes(8, 0)]));
    all.push((24, requested(&[3, 253, 65_000])));
    all.push((26, vec![bytes(32, 1), bytes(32, 2)]));
    all
}

/// Payloads that are refused for something else than a cut or a byte more.
pub fn bad() -> Vec<Payload> {
    let mut bad = Vec::new();
    for (packet_type, _, _, limit) in LISTS {
        bad.extend(
            bad_counts(limit)
                .into_iter()
                .map(|count| (packet_type, count)),
        );
    }
    for count in bad_counts(INDEX_LIMIT) {
        bad.push((24, [bytes(32, 4), count].concat()));
    }
    bad.extend(
        bad_index_lists()
            .into_iter()
            .map(|list| (24, requested(&list).concat())),
    );
    for (count, wide) in [(1, &[0xfd, 0xfc, 0][..]), (2, &[0, 0xfe, 0xff, 0xff, 0, 0])] {
        let wide = [&bytes(32, 4), &compact_size(count), wide].concat();
        bad.push((24, wide));
    }
    bad.extend(
        bad_texts()
            .into_iter()
            .map(|(packet_type, fields)| (packet_type, fields.concat())),
    );
    bad
}

/// Over the limit, not shortest in each form, and cut, each with nothing after it.
fn bad_counts(limit: u64) -> Vec<Vec<u8>> {
    let mut counts: Vec<_> = [limit, limit + 1, 65_536, u64::MAX]
        .map(compact_size)
        .to_vec();
    for (marker, least, width) in [(0xfd, 253_u64, 2), (0xfe, 1 << 16, 4), (0xff, 1 << 32, 8)] {
        for value in [0, least - 1] {
            counts.push([&[marker], &value.to_le_bytes()[..width]].concat());
        }
        counts.extend([vec![marker], vec![marker; width]]);
    }
    counts
}

/// A difference over 65,535 at each place, and sums that pass it.
fn bad_index_lists() -> Vec<Vec<u64>> {
    let mut lists = Vec::new();
    for over in [65_536, u64::MAX] {
        for place in 0..3 {
            let mut list = vec![1; 3];
            list[place] = over;
            lists.push(list);
        }
    }
    lists.extend([
        vec![65_535, 0],
        vec![65_534, 1],
        vec![0, 65_535],
        vec![0, 0, 65_534],
    ]);
    lists.extend([vec![30_000; 3], vec![65_535, 65_535], vec![65_535, 65_536]]);
    lists
}

/// Agents and reasons that are not as long as they say, and hashes against the type.
fn bad_texts() -> Vec<(u8, Fields)> {
    let mut longer = version(0, &bytes(255, 0), 1);
    let at = longer.len() - 3;
    longer[at] = bytes(256, 0);
    let mut shorter = version(0, b"short", 1);
    shorter[at - 1] = vec![255];
    let mut bad = vec![(0, longer), (0, shorter)];
    for message in WITH_HASH {
        bad.extend([0, 31, 33].map(|n| (15, reject(message, b"late", n))));
    }
    bad.extend(WITHOUT_HASH.map(|message| (15, reject(message, b"late", 32))));
    let mut cut = reject(0, b"late", 0);
    cut[2] = vec![5];
    bad.push((15, cut));
    bad
}

/// Lists at their limit and one over it, with how many items; all but the first and the last are zeros.
pub fn limits() -> Vec<(u8, Vec<u8>, usize)> {
    let mut lists = Vec::new();
    for (packet_type, width, after, limit) in LISTS {
        for count in [limit, limit + 1] {
            let between = vec![0; (count as usize - 2) * width];
            let last = bytes(width + after, 2);
            let list = [compact_size(count), bytes(width, 1), between, last].concat();
            lists.push((packet_type, list, count as usize));
        }
    }
    for count in [INDEX_LIMIT, INDEX_LIMIT + 1] {
        let differences = vec![0; count as usize];
        let list = [bytes(32, 4), compact_size(count), differences].concat();
        lists.push((24, list, count as usize));
    }
    lists
}

/// Inventory items, locator hashes, and no items.
pub fn to_search() -> [Vec<u8>; 3] {
    [list(&[4, 32], 3, 0), list(&[32], 3, 32), list(&[], 0, 0)].map(|fields| fields.concat())
}
