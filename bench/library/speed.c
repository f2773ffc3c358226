/* How long calls take: reads a plan, steps its node 0 after packets of noise, in which two of three
 * cells have common bytes, and prints microseconds of processor time for a step with one packet a
 * call, for a step with all packets in one call, and for an output.
 *
 *   gcc -O2 -I bindings -o speed bench/library/speed.c \
 *       crates/counterlab_c/out/libcounterlab_c.a KIT/c/liblibc_c.a
 *   ./speed < crates/try_examples/data/plans/faults_2_nodes_12.txt
 */
#include "counterlab.h"
#include <stdio.h>
#include <stdlib.h>
#include <string.h>
#include <time.h>

#define PACKETS 100000

static uint8_t plan[4096], cells[256][COUNTERLAB_MOST_BYTES];
static size_t plan_size;

static double now(void) { return 1e6 * (double)clock() / CLOCKS_PER_SEC; }

/* Puts a packet at the end of those that stand there. */
static size_t put_packet(uint8_t *to, const size_t *sizes, uint32_t nodes) {
    size_t size = 0;
    for (uint32_t u = 0; u < nodes; u++) {
        to[size++] = 0;
        to[size++] = (uint8_t)sizes[u];
        memcpy(to + size, cells[u], sizes[u]);
        for (size_t i = 0; rand() % 3 == 0 && i < sizes[u]; i++) to[size + i] = (uint8_t)rand();
        size += sizes[u];
    }
    return size;
}

int main(void) {
    struct counterlab_plan_numbers n = {0, 0, 0, 0};
    plan_size = fread(plan, 1, sizeof plan, stdin);
    if (counterlab_plan(plan, plan_size, &n).code) return 1;
    size_t sizes[256], one = 0;
    for (uint32_t u = 0; u < n.nodes; u++) {
        sizes[u] = counterlab_state_bytes(plan, plan_size, u).value;
        one += 2 + sizes[u];
    }
    uint8_t *packets = malloc(PACKETS * one);
    if (!packets) return 2;
    for (size_t i = 0; i < PACKETS; i++) put_packet(packets + i * one, sizes, n.nodes);
    uint8_t a[COUNTERLAB_MOST_BYTES] = {0}, b[COUNTERLAB_MOST_BYTES] = {0};
    double start = now();
    for (size_t i = 0; i < PACKETS; i++)
        if (counterlab_step(plan, plan_size, 0, a, sizes[0], packets + i * one, one).code) return 1;
    double each = now();
    if (counterlab_step(plan, plan_size, 0, b, sizes[0], packets, PACKETS * one).code) return 1;
    double all = now();
    for (size_t i = 0; i < PACKETS; i++)
        if (counterlab_output(plan, plan_size, 0, a, sizes[0]).code) return 1;
    double output = now();
    printf("%u nodes: %.2f, %.2f, %.2f\n", n.nodes, (each - start) / PACKETS, (all - each) / PACKETS,
           (output - all) / PACKETS);
    return memcmp(a, b, sizes[0]) != 0;
}
