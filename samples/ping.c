/* A ping's payload read as a packet, and one that is cut short. README says how to build it. */
#include <inttypes.h>
#include <stdio.h>

#include "hns_ffi.h"

int main(void) {
    const uint8_t payload[8] = {1, 2, 3, 4, 5, 6, 7, 8};
    const uint64_t terms[1] = {0}; /* lent as no numbers: every type may be sent */
    uint8_t text[255]; /* for an agent or a reason, which a ping does not have */
    uint64_t row[16];

    hns_read_packet(terms, 0, 2, payload, 8, text, sizeof text, row, 16);
    printf("answer %" PRIu64 ", nonce %016" PRIx64 "\n", row[0], row[1]);
    hns_read_packet(terms, 0, 2, payload, 1, text, sizeof text, row, 16);
    printf("refused by %" PRIu64 ": at %" PRIu64 ", %" PRIu64 " missing\n", row[0], row[1], row[2]);
    return 0;
}
