/* Refuses each allocation of each call in turn: the call has to say so, give back all that it took,
 * and leave what it would have written. Linked with -Wl,--wrap=malloc,--wrap=realloc,--wrap=free. */
#include "counterlab.h"
#include <stdio.h>
#include <stdlib.h>
#include <string.h>

void *__real_malloc(size_t size);
void *__real_realloc(void *at, size_t size);
void __real_free(void *at);
static long held, asked, refused, counting;

void *__wrap_malloc(size_t size) {
    if (!counting) return __real_malloc(size);
    if (++asked == refused) return 0;
    held++;
    return __real_malloc(size);
}

void *__wrap_realloc(void *at, size_t size) {
    if (counting && ++asked == refused) return 0;
    return __real_realloc(at, size);
}

void __wrap_free(void *at) {
    held -= counting && at;
    __real_free(at);
}

/* The first file is a plan, the second a packet for it. */
static uint8_t plan[4096], packet[1 << 16], state[COUNTERLAB_MOST_BYTES];
static struct counterlab_plan_numbers numbers;
static size_t plan_size, packet_size, state_size;

static struct counterlab_answer call(int which) {
    struct counterlab_answer answer;
    memset(state, 0xff, sizeof state);
    memset(&numbers, 0xff, sizeof numbers);
    asked = 0;
    counting = 1;
    if (which == 0) answer = counterlab_plan(plan, plan_size, &numbers);
    else if (which == 1) answer = counterlab_state_bytes(plan, plan_size, 0);
    else if (which == 2) answer = counterlab_output(plan, plan_size, 0, state, state_size);
    else answer = counterlab_step(plan, plan_size, 0, state, state_size, packet, packet_size);
    counting = 0;
    return answer;
}

/* Whether every byte is as it was put before the call. */
static int is_untouched(const void *at, size_t size) {
    const uint8_t *bytes = at;
    while (size--)
        if (bytes[size] != 0xff) return 0;
    return 1;
}

static size_t read_file(const char *name, uint8_t *to, size_t room) {
    FILE *file = fopen(name, "rb");
    if (!file) exit(2);
    size_t size = fread(to, 1, room, file);
    fclose(file);
    return size;
}

int main(int argc, char **argv) {
    if (argc != 3) return 2;
    plan_size = read_file(argv[1], plan, sizeof plan);
    packet_size = read_file(argv[2], packet, sizeof packet);
    state_size = counterlab_state_bytes(plan, plan_size, 0).value;
    long all = 0;
    for (int which = 0; which < 4; which++) {
        refused = 0;
        if (call(which).code || held) return 1;
        long count = asked;
        for (refused = 1; refused <= count; refused++) {
            struct counterlab_answer a = call(which);
            if (a.code != COUNTERLAB_NO_MEMORY || a.detail || a.value || held
                || !is_untouched(state, sizeof state) || !is_untouched(&numbers, sizeof numbers)) {
                printf("call %d, allocation %ld: code %u, %ld held\n", which, refused, a.code,
                       held);
                return 1;
            }
        }
        all += count;
    }
    printf("%ld\n", all);
    return 0;
}
