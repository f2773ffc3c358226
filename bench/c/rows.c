/* Plays a counter of one node and prints its rows, as `run` does for a plan without levels, to measure beside the
 * program: a plain loop with its own digits and one buffer.
 *
 *   gcc -O2 -o rows bench/c/rows.c && time ./rows > /dev/null
 */
#include <stdint.h>
#include <string.h>
#include <unistd.h>

static char buffer[8192];
static size_t end;

static void pass_on(void) {
    size_t at = 0;
    while (at < end) at += (size_t)write(1, buffer + at, end - at);
    end = 0;
}

static void text(const char *bytes) {
    size_t length = strlen(bytes);
    if (end + length > sizeof buffer) pass_on();
    memcpy(buffer + end, bytes, length);
    end += length;
}

static void number(uint64_t value) {
    char digits[20];
    int from = 20;
    do {
        digits[--from] = (char)('0' + value % 10);
        value /= 10;
    } while (value > 0);
    if (end + 20 > sizeof buffer) pass_on();
    memcpy(buffer + end, digits + from, 20 - from);
    end += 20 - from;
}

int main(void) {
    uint64_t x = 0;
    text("bound 0\n");
    for (uint64_t t = 0; t <= 1000000; t++) {
        text("row ");
        number(t);
        text(" ");
        number(x);
        text("\n");
        x = (x + 1) % 5;
    }
    text("locked 0\n");
    pass_on();
    return 0;
}
