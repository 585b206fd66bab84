/* The exported survey of a mainnet peer log, in plain C: standard input to standard output.
 *
 * Written to be timed beside the proved program, with the same buffers, the same reads and the same
 * output byte for byte. */
#include <stdint.h>
#include <stdio.h>
#include <string.h>
#include <unistd.h>

enum { CHUNK = 4096, ROOM = 24576, TEXT = 65536, HEADER = 9, LAST = 32, MAX_PAYLOAD = 8000000 };

static const uint8_t MAGIC[4] = {0xd3, 0xf2, 0x6e, 0x5b};
static uint8_t store[ROOM + CHUNK]; /* a chunk is read behind what is held, and refused where both pass ROOM */
static char text[TEXT];

static size_t fill(uint8_t *to)
{
    size_t done = 0;
    while (done < CHUNK) {
        ssize_t n = read(STDIN_FILENO, to + done, CHUNK - done);
        if (n <= 0)
            break;
        done += (size_t)n;
    }
    return done;
}

static int write_out(size_t n)
{
    for (size_t done = 0; done < n;) {
        ssize_t w = write(STDOUT_FILENO, text + done, n - done);
        if (w <= 0)
            return 0;
        done += (size_t)w;
    }
    return 1;
}

static char *put_hex(char *to, const uint8_t *bytes, size_t n)
{
    static const char DIGITS[16] = "0123456789abcdef";
    for (size_t i = 0; i < n; i++) {
        *to++ = DIGITS[bytes[i] >> 4];
        *to++ = DIGITS[bytes[i] & 15];
    }
    return to;
}

static char *put_line(char *to, const uint8_t *frame, size_t length)
{
    const uint8_t said[4] = {(uint8_t)(length >> 24), (uint8_t)(length >> 16), (uint8_t)(length >> 8),
                             (uint8_t)length};
    to = put_hex(to, frame + 4, 1);
    *to++ = ' ';
    to = put_hex(to, said, 4);
    if (length > 0) {
        *to++ = ' ';
        to = put_hex(to, frame + HEADER, length);
    }
    *to++ = '\n';
    return to;
}

/* The lines of all whole frames and how many bytes they take; a bad header is its refusal. */
static int put_lines(size_t held, size_t *used, char **to)
{
    *used = 0;
    while (held - *used >= HEADER) {
        const uint8_t *frame = store + *used;
        size_t length = frame[5] | frame[6] << 8 | frame[7] << 16 | (size_t)frame[8] << 24;
        if (memcmp(frame, MAGIC, 4) != 0)
            return 4;
        if (length > MAX_PAYLOAD)
            return 5;
        if (held - *used - HEADER < length)
            return 0;
        *to = put_line(*to, frame, length);
        *used += HEADER + length;
    }
    return 0;
}

int main(void)
{
    size_t held = 0, n;
    char *to = text;
    int stop = 0;
    do {
        char *begun = to;
        size_t used;
        n = fill(store + held);
        if (n > ROOM - held) {
            stop = 17;
            break;
        }
        held += n;
        stop = put_lines(held, &used, &to);
        if (stop != 0) { /* a refused push delivers nothing */
            to = begun;
            break;
        }
        memmove(store, store + used, held - used);
        held -= used;
        if (to - text > TEXT - 2 * ROOM - LAST) {
            if (!write_out((size_t)(to - text)))
                return 1;
            to = text;
        }
    } while (n == CHUNK);
    if (stop != 0)
        to += sprintf(to, "stop %d\n", stop);
    else
        to += sprintf(to, "held %zu\n", held);
    return !write_out((size_t)(to - text));
}
