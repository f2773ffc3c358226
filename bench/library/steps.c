/* Steps each case of standard input, PLAN ID STATE PACKETS CODE DETAIL VALUE NEW in hex digits and
 * numbers (- for no byte), and prints how many give this answer and these bytes. Linked with arena.c
 * it prints, too, how much of the arena was used at most. */
#include "counterlab.h"
#include <inttypes.h>
#include <stdio.h>
#include <string.h>

#pragma weak arena_most
size_t arena_most(void);

static size_t bytes_of(const char *hex, uint8_t *out) {
    size_t n = strcmp(hex, "-") ? strlen(hex) / 2 : 0;
    for (size_t i = 0; i < n; i++) {
        unsigned byte;
        sscanf(hex + 2 * i, "%2x", &byte);
        out[i] = (uint8_t)byte;
    }
    return n;
}

int main(void) {
    static char plan_hex[8192], state_hex[1024], packets_hex[1 << 20], new_hex[1024];
    static uint8_t plan[4096], state[512], packets[1 << 19], wanted[512];
    unsigned id, code, detail, cases = 0, same = 0;
    uint64_t value;
    while (scanf("%8191s %u %1023s %1048575s %u %u %" SCNu64 " %1023s", plan_hex, &id, state_hex,
                 packets_hex, &code, &detail, &value, new_hex) == 8) {
        size_t p = bytes_of(plan_hex, plan), s = bytes_of(state_hex, state);
        size_t k = bytes_of(packets_hex, packets), w = bytes_of(new_hex, wanted);
        struct counterlab_answer a = counterlab_step(plan, p, id, state, s, packets, k);
        cases++;
        same += a.code == code && a.detail == detail && a.value == value && s == w
                && !memcmp(state, wanted, w);
    }
    printf("%u of %u", same, cases);
    if (arena_most) printf(", %zu bytes at most", arena_most());
    puts("");
    return cases != same;
}
