/* Four nodes of a halving plan, of which the last one lies: what the others show, round by round. */
#include "counterlab.h"
#include <stdio.h>
#include <string.h>

#define PLAN (const uint8_t *)text, strlen(text)
static const char *text = "halving 1\ngroup 4 1 10\nend\n";

int main(void) {
    uint8_t states[4][COUNTERLAB_MOST_BYTES] = {
        "\x3f\xff", "\x12\x34", "\x00\x14", "\xff"};
    size_t sizes[4];
    for (uint32_t v = 0; v < 4; v++) {
        struct counterlab_answer bytes = counterlab_state_bytes(PLAN, v);
        if (bytes.code) return (int)bytes.code;
        sizes[v] = bytes.value;
    }
    for (int t = 0; t <= 12; t++) {
        uint8_t packets[3][4 * (2 + COUNTERLAB_MOST_BYTES)];
        size_t size;
        printf("%d", t);
        for (uint32_t v = 0; v < 3; v++) {
            struct counterlab_answer shown = counterlab_output(PLAN, v, states[v], sizes[v]);
            printf(" %llu", (unsigned long long)shown.value);
            size = 0;
            for (uint32_t u = 0; u < 4; u++) {
                packets[v][size++] = 0;
                packets[v][size++] = (uint8_t)sizes[u];
                memcpy(packets[v] + size, states[u], sizes[u]);
                if (u == 3) packets[v][size] = (uint8_t)(97 * t + 31 * v); /* to each another lie */
                size += sizes[u];
            }
        }
        puts("");
        for (uint32_t v = 0; v < 3; v++)
            if (counterlab_step(PLAN, v, states[v], sizes[v], packets[v], size).code) return 1;
    }
    return 0;
}
