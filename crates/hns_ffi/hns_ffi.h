/* The proved Handshake codec for C: numbers and bytes in, rows of numbers out.
 *
 * Four libraries, of which a program links those that it uses. `tools/staticlib NAME` writes
 * target/staticlib/libNAME.a:
 *
 *   hns_ffi          reads, puts, headers
 *   hns_ffi_frames   frames and the stream
 *   hns_ffi_packets  packets: reading, items, finder, length card, rewriting; rights by role
 *   hns_ffi_writers  packets: a writer for each
 *
 * What the caller must see to, since no proof reaches beyond the call:
 *
 *   - a slice is a pointer that is not null, also for no bytes, and a count of things that are all
 *     there, fewer than 2^63 bytes together, and may be written where the pointer is not to const
 *     (what only a call writes need not be set before: rows, and every `out`, `text`, `values`,
 *     `hashes` to read and `output`);
 *   - numbers (uint64_t) are aligned as such;
 *   - a slice that may be written overlaps no other slice of the call;
 *   - hns_rewrite takes about 134,000 bytes of stack, the others less than 1,000.
 *
 * No call asks more. None keeps a pointer, allocates, or touches anything but what it is lent. A call
 * that is refused writes its row and nothing else; only a push refused by 4 or 5, with a tally or
 * without, has added its input to the store.
 *
 * A row is six numbers at the front of `answer`, or sixteen where that is said; what does not fit is
 * dropped. Its first is 0, and what was answered follows, or it is the number of a refusal, and its
 * values a, b, c follow. The rest is 0. Rows of six:
 *
 *   numbers          0, value, next place
 *   compact sizes    0, how many, next place
 *   bytes            0, first place, next place
 *   finish           0
 *   headers          0, next place, nonce, time, version, bits
 *   frame prefix     0, 0 where there is no whole frame yet
 *                    0, 1, type, payload length, bytes taken
 *   exact frame      0, type, payload length
 *   frame written    0, length of its encoding
 *   push             0, frames, length of their encodings, held count
 *                    refusal, a, b, c, held count
 *   push with tally  0 or refusal, frames, length of their encodings, held count, a, b
 *                    (no c, which is 0 in every refusal of a push)
 *   rewrite, writers 0, length of the payload
 *   may send         0
 *   types granted    0, how many
 *
 * Rows of sixteen, about packets. A place counts from the payload's first byte:
 *
 *   version (0)      0, version, services, time, the remote's time and services, first and last 8 bytes
 *                    of its ip as numbers, port, place of its key, nonce, place and length of the agent,
 *                    height, no-relay
 *   empty (1, 4, 12, 16, 19)  0
 *   ping, pong (2, 3)         0, nonce
 *   lists (5 to 8, 11)        0, count, place of the first item
 *   locators (9, 10)          0, count, place of the first hash, place of the stop hash
 *   reject (15)      0, type, code, place and length of the reason, 1 and the place of a hash, or 0
 *   feefilter (21)   0, the rate's 64 bits
 *   sendcmpct (22)   0, mode, version
 *   getblocktxn (24) 0, count, place of the first difference, place of the hash
 *   getproof (26)    0, place of the root, place of the key
 *   all others       0, place and length of the bytes
 *   item             of 5: 0, time, services, first and last 8 bytes of the ip, port, place of the key
 *                    of 6 to 8: 0, kind, place of the hash; of 9 to 11: 0, place; of 24: 0, index
 *   indexes, item numbers     0, how many numbers
 *   finder           0, 1, place of the item in the list; 0, 0 where the hash stands nowhere
 *   length card      0, least, greatest
 *
 * Bytes that are numbers, here and in flat items, have the lowest first: of an ip's eight bytes the first
 * is the lowest.
 *
 * Refusals: 1 bytes end in a field (a place, b missing); 2 compact size not shortest (a bits);
 * 3 bytes left (a how many); 4 magic (a expected, b found); 5 payload too large (a, b limit);
 * 6 held and input too large (a, b limit); 7 over a limit (a, b limit, c field); 8 incomplete frame
 * (a missing); 9 index over 65,535; 10 text over 127 (c field); 11 hash against the type; 12 too many
 * indexes (a, b limit); 13 index to write over 65,535 (a place); 14 index not above the one before it
 * (a place); 15 header length (a); 16 output too short (a needed); 17 store too short (a needed);
 * 18 held count over the store (a held); 19 no item at the place; 20 tally full; 21 role over 7; 22 type
 * not granted. Fields: 1 address, 2 inventory, 3 locator, 4 header, 5 index count, 6 index, 7 agent,
 * 8 reason; 0 where the caller gave the limit.
 *
 * Networks: 0 mainnet, 1 testnet, 2 regtest, 3 simnet. A greater number is taken as simnet, not refused.
 */
#ifndef HNS_FFI_H
#define HNS_FFI_H

#include <stdbool.h>
#include <stddef.h>
#include <stdint.h>

#ifdef __cplusplus
extern "C" {
#endif

/* Reads at a place. */
void hns_read_u8(const uint8_t *input, size_t input_len, size_t position,
                 uint64_t *answer, size_t answer_len);
void hns_read_u16_le(const uint8_t *input, size_t input_len, size_t position,
                     uint64_t *answer, size_t answer_len);
void hns_read_u32_le(const uint8_t *input, size_t input_len, size_t position,
                     uint64_t *answer, size_t answer_len);
void hns_read_u64_le(const uint8_t *input, size_t input_len, size_t position,
                     uint64_t *answer, size_t answer_len);
void hns_read_compact_size(const uint8_t *input, size_t input_len, size_t position,
                           uint64_t *answer, size_t answer_len);
void hns_read_compact_usize(const uint8_t *input, size_t input_len, size_t position,
                            size_t maximum, uint64_t *answer, size_t answer_len);
/* Compact sizes one after another, as many as there is room for and up to the first that is refused:
 * a read at the next place says why. A call costs more than a short read, so this is for lists. */
void hns_read_compact_sizes(const uint8_t *input, size_t input_len, size_t position,
                            uint64_t *values, size_t values_len,
                            uint64_t *answer, size_t answer_len);
void hns_read_slice(const uint8_t *input, size_t input_len, size_t position, size_t length,
                    uint64_t *answer, size_t answer_len);
void hns_read_bounded(const uint8_t *input, size_t input_len, size_t position, size_t length,
                      size_t maximum, uint64_t *answer, size_t answer_len);
void hns_read_varbytes(const uint8_t *input, size_t input_len, size_t position, size_t maximum,
                       uint64_t *answer, size_t answer_len);
void hns_finish(const uint8_t *input, size_t input_len, size_t position,
                uint64_t *answer, size_t answer_len);

/* Puts at a place, which answer the next place. What does not fit is counted and not stored, and is
 * not refused: compare the last place with the length. */
size_t hns_put_u8(uint8_t value, uint8_t *out, size_t out_len, size_t position);
size_t hns_put_u16_le(uint16_t value, uint8_t *out, size_t out_len, size_t position);
size_t hns_put_u32_le(uint32_t value, uint8_t *out, size_t out_len, size_t position);
size_t hns_put_u64_le(uint64_t value, uint8_t *out, size_t out_len, size_t position);
size_t hns_put_compact_size(uint64_t value, uint8_t *out, size_t out_len, size_t position);
size_t hns_put_bytes(const uint8_t *value, size_t value_len,
                     uint8_t *out, size_t out_len, size_t position);
size_t hns_put_varbytes(const uint8_t *value, size_t value_len,
                        uint8_t *out, size_t out_len, size_t position);

/* Headers. The hashes stand side by side, 216 bytes: previous block 32, tree root 32, extra
 * nonce 24, reserved root 32, witness root 32, merkle root 32, mask 32. A hash to put that is not
 * all there is put as zeros, and not refused. */
void hns_decode_header(const uint8_t *input, size_t input_len,
                       uint8_t *hashes, size_t hashes_len,
                       uint64_t *answer, size_t answer_len);
void hns_read_header(const uint8_t *input, size_t input_len, size_t position,
                     uint8_t *hashes, size_t hashes_len,
                     uint64_t *answer, size_t answer_len);
size_t hns_put_header(uint32_t nonce, uint64_t time, const uint8_t *hashes, size_t hashes_len,
                      uint32_t version, uint32_t bits,
                      uint8_t *out, size_t out_len, size_t position);

/* Frames. A payload stands in the input from its tenth byte on. */
void hns_decode_frame_prefix(uint8_t network, const uint8_t *input, size_t input_len,
                             uint64_t *answer, size_t answer_len);
void hns_decode_exact(uint8_t network, const uint8_t *input, size_t input_len,
                      uint64_t *answer, size_t answer_len);
void hns_encode_frame(uint8_t network, uint8_t packet_type, const uint8_t *payload, size_t payload_len,
                      uint8_t *out, size_t out_len, uint64_t *answer, size_t answer_len);

/* A push into a stream whose held bytes are the first of `store`. Give each push the held count
 * that the one before answered, 0 at first, and leave the held bytes alone in between. */
void hns_push(uint8_t network, uint8_t *store, size_t store_len, size_t held,
              const uint8_t *input, size_t input_len, uint8_t *output, size_t output_len,
              uint64_t *answer, size_t answer_len);

/* A tally says what was delivered. It has HNS_TALLY_SIZE numbers: for each type byte t the frames, at t,
 * and their bytes (each payload plus 9), at HNS_TALLY_BYTES + t; then the totals of both. */
#define HNS_TALLY_SIZE 514
#define HNS_TALLY_BYTES 256
#define HNS_TALLY_TOTAL_FRAMES 512
#define HNS_TALLY_TOTAL_BYTES 513

/* hns_push, beside which it stands in libhns_ffi_frames.a, with a tally to which the frames that it
 * delivers are added.
 *
 * A tally starts as zeros and is handed from push to push; handed on to a second stream, it counts that
 * one's frames on top. The totals are part of the tally: a push adds to them, and 20 goes by them and
 * never sums up the other numbers, so whoever sets those sets the totals too.
 *
 * 16 is also the refusal for fewer than HNS_TALLY_SIZE numbers, then with that number as a; more are left
 * alone. 20 comes after it, if one of the totals, plus held and input, would pass 2^63 - 1. Both are
 * tested before the input is added to the store, and answer the held count that was given. No refused
 * push changes the tally, and 4 and 5 are the only ones that change the store. */
void hns_push_tallying(uint8_t network, uint8_t *store, size_t store_len, size_t held,
                       const uint8_t *input, size_t input_len, uint8_t *output, size_t output_len,
                       uint64_t *tally, size_t tally_len, uint64_t *answer, size_t answer_len);

/* Terms: what a payload is read under, lent in front of every call that reads one as a packet.
 *
 * No numbers at all (a pointer that is not null, and a count of 0) name no terms: every type may be sent,
 * and no call answers 21 or 22. Else number HNS_TERMS_ROLE is the role of the peer who sent the payload,
 * and from HNS_TERMS_MASKS on stand the masks of roles 0 to 7. Of a mask bits 0 to 29 grant the known types
 * and bit HNS_OTHER_TYPES every other type byte; bits from 31 on are ignored. Fewer than HNS_TERMS_SIZE
 * numbers, but at least one, grant nothing. Numbers from HNS_TERMS_SIZE on are not looked at yet: lend none.
 * Whoever keeps roles lends all numbers at every call: a count of 0 by mistake grants every type.
 *
 * 21 is the answer if the role is over 7, then 22 if the role's mask does not grant the type (for
 * hns_indexes type 24). Both come before 5, and so before any other refusal, whatever the payload is; they
 * have no values. */
#define HNS_TERMS_SIZE 9
#define HNS_TERMS_ROLE 0
#define HNS_TERMS_MASKS 1
#define HNS_OTHER_TYPES 30

/* Whether the role may send a frame of a type, to be asked before its payload is read: 0, 21 or 22. Lend
 * room for the answer: if there is none, nothing is stored, and a 0 that stood there would read as one. */
void hns_may_send(const uint64_t *terms, size_t terms_len, uint8_t packet_type,
                  uint64_t *answer, size_t answer_len);
/* How many types the role may send, at most 31: every type byte from 30 on counts as one type together.
 * Refused by 21 alone. */
void hns_types_granted(const uint64_t *terms, size_t terms_len, uint64_t *answer, size_t answer_len);

/* Packets. An agent or a reason goes to the front of `text`, each byte without its top bit; 255 bytes
 * are always enough. */
void hns_read_packet(const uint64_t *terms, size_t terms_len, uint8_t packet_type,
                     const uint8_t *payload, size_t payload_len, uint8_t *text, size_t text_len,
                     uint64_t *answer, size_t answer_len);
/* The item at a place of a list, from 0 on. */
void hns_item(const uint64_t *terms, size_t terms_len, uint8_t packet_type,
              const uint8_t *payload, size_t payload_len, size_t place,
              uint64_t *answer, size_t answer_len);
/* All indexes of a getblocktxn payload. The payload's own refusal comes first, then 16, which counts the
 * numbers that `out` must have; 16,662 are always enough. */
void hns_indexes(const uint64_t *terms, size_t terms_len, const uint8_t *payload, size_t payload_len,
                 uint64_t *out, size_t out_len, uint64_t *answer, size_t answer_len);
/* The numbers of all addresses or inventory items side by side, as in the rows of hns_item: six numbers
 * or two for each, and none for other types. Refused as hns_indexes is; 6,000 numbers are always enough
 * for addresses, 100,000 for inventory items. A call for each item costs more than the item, so this is
 * for whole lists. */
void hns_item_numbers(const uint64_t *terms, size_t terms_len, uint8_t packet_type,
                      const uint8_t *payload, size_t payload_len, uint64_t *out, size_t out_len,
                      uint64_t *answer, size_t answer_len);
/* A place where a hash of 32 bytes stands among the inventory items. A hash of fewer bytes is taken as
 * zeros. */
void hns_find(const uint64_t *terms, size_t terms_len, uint8_t packet_type,
              const uint8_t *payload, size_t payload_len, const uint8_t *hash, size_t hash_len,
              uint64_t *answer, size_t answer_len);
/* The least and the greatest length of the payloads that read as a type. */
void hns_length_card(uint8_t packet_type, uint64_t *answer, size_t answer_len);
/* A payload read as a packet and written again by the writer of its type. */
void hns_rewrite(const uint64_t *terms, size_t terms_len, uint8_t packet_type,
                 const uint8_t *payload, size_t payload_len, uint8_t *out, size_t out_len,
                 uint64_t *answer, size_t answer_len);

/* Writers, each for the packet of its name or for those that are said: a payload to the front of `out`.
 * Addresses are items of 67 bytes (time 8, services 8, ip 16, port 2, key 33), inventory items of 36
 * (kind 4, hash 32), hashes of 32, headers of 236; bytes after the last whole item are not written. A hash
 * of 32 bytes or a key of 33 is the front of a slice, and zeros where it has fewer bytes. An ip is two
 * numbers, as in the row of a version. Of services the low 32 bits are written. */
/* verack, getaddr, sendheaders, mempool, filterclear */
void hns_write_empty(uint8_t *out, size_t out_len, uint64_t *answer, size_t answer_len);
/* ping, pong */
void hns_write_nonce(uint64_t nonce, uint8_t *out, size_t out_len,
                     uint64_t *answer, size_t answer_len);
void hns_write_addr(const uint8_t *items, size_t items_len, uint8_t *out, size_t out_len,
                    uint64_t *answer, size_t answer_len);
/* inv, getdata, notfound */
void hns_write_inventory(const uint8_t *items, size_t items_len, uint8_t *out, size_t out_len,
                         uint64_t *answer, size_t answer_len);
/* getblocks, getheaders */
void hns_write_locator(const uint8_t *hashes, size_t hashes_len,
                       const uint8_t *stop, size_t stop_len, uint8_t *out, size_t out_len,
                       uint64_t *answer, size_t answer_len);
void hns_write_headers(const uint8_t *items, size_t items_len, uint8_t *out, size_t out_len,
                       uint64_t *answer, size_t answer_len);
/* reject, with the hash where it is said to be present */
void hns_write_reject(uint8_t message, uint8_t code, const uint8_t *reason, size_t reason_len,
                      bool present, const uint8_t *hash, size_t hash_len,
                      uint8_t *out, size_t out_len, uint64_t *answer, size_t answer_len);
void hns_write_feefilter(int64_t rate, uint8_t *out, size_t out_len,
                         uint64_t *answer, size_t answer_len);
void hns_write_sendcmpct(uint8_t mode, uint64_t version, uint8_t *out, size_t out_len,
                         uint64_t *answer, size_t answer_len);
/* getblocktxn of indexes that rise */
void hns_write_getblocktxn(const uint8_t *hash, size_t hash_len,
                           const uint64_t *indexes, size_t indexes_len,
                           uint8_t *out, size_t out_len, uint64_t *answer, size_t answer_len);
void hns_write_getproof(const uint8_t *root, size_t root_len, const uint8_t *key, size_t key_len,
                        uint8_t *out, size_t out_len, uint64_t *answer, size_t answer_len);
/* all others */
void hns_write_raw(const uint8_t *payload, size_t payload_len, uint8_t *out, size_t out_len,
                   uint64_t *answer, size_t answer_len);
void hns_write_version(uint32_t version, uint64_t services, uint64_t time, uint64_t remote_time,
                       uint64_t remote_services, uint64_t ip_first, uint64_t ip_last, uint16_t port,
                       const uint8_t *key, size_t key_len, uint64_t nonce,
                       const uint8_t *agent, size_t agent_len, uint32_t height, bool no_relay,
                       uint8_t *out, size_t out_len, uint64_t *answer, size_t answer_len);

#ifdef __cplusplus
}
#endif

#endif
