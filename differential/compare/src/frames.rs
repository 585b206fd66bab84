//! One frame: at the front of a slice, alone, and written.

use hns_p2p_wire::{Frame, PacketType};

use crate::buffer::{filled, written};
use crate::case::{Case, NETWORKS, Verdict};
use crate::rust;

pub fn prefix(case: &Case) -> Verdict {
    let port = hns_port::lent::decode_frame_prefix(NETWORKS[case.network], &case.bytes);
    let rust = hns_p2p_wire::decode_frame_prefix(rust::NETWORKS[case.network], &case.bytes)
        .map_err(rust::wire_error);
    let seen = rust.as_ref().map_err(|e| *e);
    let seen = seen.map(|whole| whole.as_ref().map(|(frame, taken)| (parts(frame), *taken)));
    let port = port.map(|whole| whole.map(|(f, taken)| ((f.packet_type, f.payload), taken)));
    Verdict::of(&port, &seen)
}

pub fn exact(case: &Case) -> Verdict {
    let port = hns_port::decode_exact(NETWORKS[case.network], &case.bytes);
    let rust =
        Frame::decode_exact(rust::NETWORKS[case.network], &case.bytes).map_err(rust::wire_error);
    Verdict::of(
        &port.map(|f| (f.packet_type, f.payload)),
        &rust.as_ref().map(parts).map_err(|e| *e),
    )
}

fn parts(frame: &Frame) -> (u8, &[u8]) {
    (frame.packet_type.as_u8(), &frame.payload)
}

pub fn encode(case: &Case) -> Verdict {
    let (packet_type, room) = (case.number(0) as u8, case.number(1) as usize);
    let mut out = filled(room);
    let port = hns_port::encode(NETWORKS[case.network], packet_type, &case.bytes, &mut out);
    let frame = Frame {
        packet_type: PacketType::from_u8(packet_type),
        payload: case.bytes.clone(),
    };
    let rust = frame.encode(rust::NETWORKS[case.network]);
    written(&port, &out, rust.map_err(rust::wire_error))
}
