/* What the programs of this folder share of either construction: output that is gathered, and
 * numbers as bits.
 */
#include <stdint.h>
#include <stdio.h>
#include <stdlib.h>
#include <string.h>
#include <unistd.h>

/* Output, gathered. */

static char gathered[1 << 16];
static size_t end;

static void pass_on(void) {
    size_t at = 0;
    while (at < end) {
        ssize_t taken = write(1, gathered + at, end - at);
        if (taken <= 0) exit(7);
        at += (size_t)taken;
    }
    end = 0;
}

static void put_byte(char byte) {
    if (end == sizeof gathered) pass_on();
    gathered[end++] = byte;
}

static void put_text(const char *text) {
    while (*text) put_byte(*text++);
}

static void put_number(uint64_t value) {
    char digits[20];
    int from = 20;
    do digits[--from] = (char)('0' + value % 10);
    while ((value /= 10) > 0);
    while (from < 20) put_byte(digits[from++]);
}

/* Numbers as bits. */

#define MOST_BYTES 80 /* of a state, and eight more */

static int width(uint64_t count) {
    int bits = 0;
    while ((uint64_t)1 << bits < count) bits++;
    return bits;
}

/* A number of at most 57 bits. Eight bytes are read from its first one on. */
static inline uint64_t bits_at(const uint8_t *bytes, int at, int count) {
    uint64_t word;
    if (count == 0) return 0;
    memcpy(&word, bytes + at / 8, 8);
    return __builtin_bswap64(word) << at % 8 >> (64 - count);
}

static void put_bits(uint8_t *bytes, int *at, uint64_t value, int count) {
    while (count > 0) {
        int room = 8 - *at % 8, now = count < room ? count : room;
        uint64_t part = value >> (count - now) & (((uint64_t)1 << now) - 1);
        bytes[*at / 8] |= (uint8_t)(part << (room - now));
        *at += now, count -= now;
    }
}
