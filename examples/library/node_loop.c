/* The loop of a node that makes the proved step. Four functions are yours; bench/library/loop.c has
 * some for a trial. */
#include "counterlab.h"
#include <stdbool.h>

unsigned wait_for_tick(void);
size_t receive(uint32_t from, uint8_t *message, size_t most);
void send_to(uint32_t to, const uint8_t *message, size_t size);
void act(uint64_t number);

void run(const uint8_t *plan, size_t plan_size, uint32_t id) {
    uint8_t packet[256 * (2 + COUNTERLAB_MOST_BYTES)];
    uint8_t state[COUNTERLAB_MOST_BYTES] = {0}; /* any bytes will do */
    struct counterlab_plan_numbers all = {0, 0, 0, 0};
    size_t sizes[256];
    if (counterlab_plan(plan, plan_size, &all).code || id >= all.nodes) return;
    for (uint32_t u = 0; u < all.nodes; u++) {
        struct counterlab_answer bytes = counterlab_state_bytes(plan, plan_size, u);
        if (bytes.code) return;
        sizes[u] = bytes.value;
    }
    uint32_t quorum = all.nodes - all.faults;
    for (uint64_t left = all.bound;;) {
        unsigned ticks = wait_for_tick(); /* and never for a message */
        struct counterlab_answer before =
            counterlab_output(plan, plan_size, id, state, sizes[id]);
        uint32_t heard = 1, agreeing = 1; /* its own state */
        size_t size = 0;
        for (uint32_t u = 0; u < all.nodes; u++) {
            uint8_t *message = packet + size + 2;
            size_t got = u == id ? 0 : receive(u, message, COUNTERLAB_MOST_BYTES);
            packet[size] = 0;
            packet[size + 1] = (uint8_t)got;
            size += 2 + got;
            if (u == id || got != sizes[u]) continue;
            struct counterlab_answer its = counterlab_output(plan, plan_size, u, message, got);
            heard++;
            agreeing += !its.code && its.value == before.value;
        }
        bool stepped =
            !counterlab_step(plan, plan_size, id, state, sizes[id], packet, size).code;
        struct counterlab_answer shown =
            counterlab_output(plan, plan_size, id, state, sizes[id]);
        bool agreed = !before.code && stepped && !shown.code && agreeing >= quorum &&
                      shown.value == (before.value + 1) % all.modulus;
        if (ticks != 1 || heard < quorum || !stepped || left > all.bound ||
            (left == 0 && !agreed))
            left = all.bound; /* a disturbance, or a premise that failed */
        else if (left > 0)
            left--;
        for (uint32_t u = 0; u < all.nodes; u++)
            if (u != id) send_to(u, state, sizes[id]); /* s + w after the tick */
        if (left == 0 && agreed) act(shown.value);
    }
}
