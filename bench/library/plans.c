/* Reads the numbers of each plan of standard input, PLAN NODES FAULTS MODULUS BOUND BYTES in hex
 * digits and numbers, and prints of how many plans these are the library's. It is C and C++, and
 * holds the layout of the header's structs to what the archive has. */
#include "counterlab.h"
#include <assert.h>
#include <inttypes.h>
#include <stdio.h>
#include <string.h>

#define OF_ANSWER(field) offsetof(struct counterlab_answer, field)
#define OF_NUMBERS(field) offsetof(struct counterlab_plan_numbers, field)

static_assert(sizeof(struct counterlab_answer) == 16, "an answer has 16 bytes");
static_assert(OF_ANSWER(code) == 0, "code stands first");
static_assert(OF_ANSWER(detail) == 4, "detail stands after code");
static_assert(OF_ANSWER(value) == 8, "value stands last");
static_assert(sizeof(struct counterlab_plan_numbers) == 24, "the numbers have 24 bytes");
static_assert(OF_NUMBERS(nodes) == 0, "nodes stand first");
static_assert(OF_NUMBERS(faults) == 4, "faults stand after nodes");
static_assert(OF_NUMBERS(modulus) == 8, "modulus stands after faults");
static_assert(OF_NUMBERS(bound) == 16, "bound stands last");

int main(void) {
    static char hex[8192];
    static uint8_t plan[4096];
    uint32_t nodes, faults;
    uint64_t modulus, bound, bytes;
    unsigned plans = 0, same = 0;
    while (scanf("%8191s %" SCNu32 " %" SCNu32 " %" SCNu64 " %" SCNu64 " %" SCNu64, hex, &nodes,
                 &faults, &modulus, &bound, &bytes) == 6) {
        struct counterlab_plan_numbers numbers = {0, 0, 0, 0};
        size_t size = strlen(hex) / 2;
        for (size_t i = 0; i < size; i++) {
            unsigned byte;
            sscanf(hex + 2 * i, "%2x", &byte);
            plan[i] = (uint8_t)byte;
        }
        struct counterlab_answer read = counterlab_plan(plan, size, &numbers);
        struct counterlab_answer of_first = counterlab_state_bytes(plan, size, 0);
        plans++;
        same += read.code == COUNTERLAB_OK && read.value == 0 && numbers.nodes == nodes
                && numbers.faults == faults && numbers.modulus == modulus
                && numbers.bound == bound && of_first.code == COUNTERLAB_OK
                && of_first.value == bytes;
    }
    printf("%u of %u\n", same, plans);
    return plans == 0 || plans != same;
}
