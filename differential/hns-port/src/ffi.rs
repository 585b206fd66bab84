//! The functions of libhns_ffi.a, libhns_ffi_frames.a, libhns_ffi_packets.a and libhns_ffi_writers.a, as
//! crates/hns_ffi/hns_ffi.h declares them and says what each does.

#![allow(missing_docs)]

unsafe extern "C" {
    pub fn hns_read_u8(
        input: *const u8,
        input_len: usize,
        position: usize,
        answer: *mut u64,
        answer_len: usize,
    );
    pub fn hns_read_u16_le(
        input: *const u8,
        input_len: usize,
        position: usize,
        answer: *mut u64,
        answer_len: usize,
    );
    pub fn hns_read_u32_le(
        input: *const u8,
        input_len: usize,
        position: usize,
        answer: *mut u64,
        answer_len: usize,
    );
    pub fn hns_read_u64_le(
        input: *const u8,
        input_len: usize,
        position: usize,
        answer: *mut u64,
        answer_len: usize,
    );
    pub fn hns_read_compact_size(
        input: *const u8,
        input_len: usize,
        position: usize,
        answer: *mut u64,
        answer_len: usize,
    );
    pub fn hns_read_compact_usize(
        input: *const u8,
        input_len: usize,
        position: usize,
        maximum: usize,
        answer: *mut u64,
        answer_len: usize,
    );
    pub fn hns_read_compact_sizes(
        input: *const u8,
        input_len: usize,
        position: usize,
        values: *mut u64,
        values_len: usize,
        answer: *mut u64,
        answer_len: usize,
    );
    pub fn hns_read_slice(
        input: *const u8,
        input_len: usize,
        position: usize,
        length: usize,
        answer: *mut u64,
        answer_len: usize,
    );
    pub fn hns_read_bounded(
        input: *const u8,
        input_len: usize,
        position: usize,
        length: usize,
        maximum: usize,
        answer: *mut u64,
        answer_len: usize,
    );
    pub fn hns_read_varbytes(
        input: *const u8,
        input_len: usize,
        position: usize,
        maximum: usize,
        answer: *mut u64,
        answer_len: usize,
    );
    pub fn hns_finish(
        input: *const u8,
        input_len: usize,
        position: usize,
        answer: *mut u64,
        answer_len: usize,
    );

    pub fn hns_put_u8(value: u8, out: *mut u8, out_len: usize, position: usize) -> usize;
    pub fn hns_put_u16_le(value: u16, out: *mut u8, out_len: usize, position: usize) -> usize;
    pub fn hns_put_u32_le(value: u32, out: *mut u8, out_len: usize, position: usize) -> usize;
    pub fn hns_put_u64_le(value: u64, out: *mut u8, out_len: usize, position: usize) -> usize;
    pub fn hns_put_compact_size(value: u64, out: *mut u8, out_len: usize, position: usize)
    -> usize;
    pub fn hns_put_bytes(
        value: *const u8,
        value_len: usize,
        out: *mut u8,
        out_len: usize,
        position: usize,
    ) -> usize;
    pub fn hns_put_varbytes(
        value: *const u8,
        value_len: usize,
        out: *mut u8,
        out_len: usize,
        position: usize,
    ) -> usize;

    pub fn hns_decode_header(
        input: *const u8,
        input_len: usize,
        hashes: *mut u8,
        hashes_len: usize,
        answer: *mut u64,
        answer_len: usize,
    );
    pub fn hns_read_header(
        input: *const u8,
        input_len: usize,
        position: usize,
        hashes: *mut u8,
        hashes_len: usize,
        answer: *mut u64,
        answer_len: usize,
    );
    pub fn hns_put_header(
        nonce: u32,
        time: u64,
        hashes: *const u8,
        hashes_len: usize,
        version: u32,
        bits: u32,
        out: *mut u8,
        out_len: usize,
        position: usize,
    ) -> usize;

    pub fn hns_decode_frame_prefix(
        network: u8,
        input: *const u8,
        input_len: usize,
        answer: *mut u64,
        answer_len: usize,
    );
    pub fn hns_decode_exact(
        network: u8,
        input: *const u8,
        input_len: usize,
        answer: *mut u64,
        answer_len: usize,
    );
    pub fn hns_encode_frame(
        network: u8,
        packet_type: u8,
        payload: *const u8,
        payload_len: usize,
        out: *mut u8,
        out_len: usize,
        answer: *mut u64,
        answer_len: usize,
    );
    pub fn hns_push(
        network: u8,
        store: *mut u8,
        store_len: usize,
        held: usize,
        input: *const u8,
        input_len: usize,
        output: *mut u8,
        output_len: usize,
        answer: *mut u64,
        answer_len: usize,
    );
    pub fn hns_push_tallying(
        network: u8,
        store: *mut u8,
        store_len: usize,
        held: usize,
        input: *const u8,
        input_len: usize,
        output: *mut u8,
        output_len: usize,
        tally: *mut u64,
        tally_len: usize,
        answer: *mut u64,
        answer_len: usize,
    );
    pub fn hns_read_packet(
        terms: *const u64,
        terms_len: usize,
        packet_type: u8,
        payload: *const u8,
        payload_len: usize,
        text: *mut u8,
        text_len: usize,
        answer: *mut u64,
        answer_len: usize,
    );
    pub fn hns_item(
        terms: *const u64,
        terms_len: usize,
        packet_type: u8,
        payload: *const u8,
        payload_len: usize,
        place: usize,
        answer: *mut u64,
        answer_len: usize,
    );
    pub fn hns_indexes(
        terms: *const u64,
        terms_len: usize,
        payload: *const u8,
        payload_len: usize,
        out: *mut u64,
        out_len: usize,
        answer: *mut u64,
        answer_len: usize,
    );
    pub fn hns_item_numbers(
        terms: *const u64,
        terms_len: usize,
        packet_type: u8,
        payload: *const u8,
        payload_len: usize,
        out: *mut u64,
        out_len: usize,
        answer: *mut u64,
        answer_len: usize,
    );
    pub fn hns_find(
        terms: *const u64,
        terms_len: usize,
        packet_type: u8,
        payload: *const u8,
        payload_len: usize,
        hash: *const u8,
        hash_len: usize,
        answer: *mut u64,
        answer_len: usize,
    );
    pub fn hns_length_card(packet_type: u8, answer: *mut u64, answer_len: usize);
    pub fn hns_rewrite(
        terms: *const u64,
        terms_len: usize,
        packet_type: u8,
        payload: *const u8,
        payload_len: usize,
        out: *mut u8,
        out_len: usize,
        answer: *mut u64,
        answer_len: usize,
    );
    pub fn hns_may_send(
        terms: *const u64,
        terms_len: usize,
        packet_type: u8,
        answer: *mut u64,
        answer_len: usize,
    );
    pub fn hns_types_granted(
        terms: *const u64,
        terms_len: usize,
        answer: *mut u64,
        answer_len: usize,
    );
    pub fn hns_write_empty(out: *mut u8, out_len: usize, answer: *mut u64, answer_len: usize);
    pub fn hns_write_nonce(
        nonce: u64,
        out: *mut u8,
        out_len: usize,
        answer: *mut u64,
        answer_len: usize,
    );
    pub fn hns_write_addr(
        items: *const u8,
        items_len: usize,
        out: *mut u8,
        out_len: usize,
        answer: *mut u64,
        answer_len: usize,
    );
    pub fn hns_write_inventory(
        items: *const u8,
        items_len: usize,
        out: *mut u8,
        out_len: usize,
        answer: *mut u64,
        answer_len: usize,
    );
    pub fn hns_write_locator(
        hashes: *const u8,
        hashes_len: usize,
        stop: *const u8,
        stop_len: usize,
        out: *mut u8,
        out_len: usize,
        answer: *mut u64,
        answer_len: usize,
    );
    pub fn hns_write_headers(
        items: *const u8,
        items_len: usize,
        out: *mut u8,
        out_len: usize,
        answer: *mut u64,
        answer_len: usize,
    );
    pub fn hns_write_reject(
        message: u8,
        code: u8,
        reason: *const u8,
        reason_len: usize,
        present: bool,
        hash: *const u8,
        hash_len: usize,
        out: *mut u8,
        out_len: usize,
        answer: *mut u64,
        answer_len: usize,
    );
    pub fn hns_write_feefilter(
        rate: i64,
        out: *mut u8,
        out_len: usize,
        answer: *mut u64,
        answer_len: usize,
    );
    pub fn hns_write_sendcmpct(
        mode: u8,
        version: u64,
        out: *mut u8,
        out_len: usize,
        answer: *mut u64,
        answer_len: usize,
    );
    pub fn hns_write_getblocktxn(
        hash: *const u8,
        hash_len: usize,
        indexes: *const u64,
        indexes_len: usize,
        out: *mut u8,
        out_len: usize,
        answer: *mut u64,
        answer_len: usize,
    );
    pub fn hns_write_getproof(
        root: *const u8,
        root_len: usize,
        key: *const u8,
        key_len: usize,
        out: *mut u8,
        out_len: usize,
        answer: *mut u64,
        answer_len: usize,
    );
    pub fn hns_write_raw(
        payload: *const u8,
        payload_len: usize,
        out: *mut u8,
        out_len: usize,
        answer: *mut u64,
        answer_len: usize,
    );
    pub fn hns_write_version(
        version: u32,
        services: u64,
        time: u64,
        remote_time: u64,
        remote_services: u64,
        ip_first: u64,
        ip_last: u64,
        port: u16,
        key: *const u8,
        key_len: usize,
        nonce: u64,
        agent: *const u8,
        agent_len: usize,
        height: u32,
        no_relay: bool,
        out: *mut u8,
        out_len: usize,
        answer: *mut u64,
        answer_len: usize,
    );
}
