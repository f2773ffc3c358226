/* Four threads step the same node at once, 20,000 times: all have to end in the same state. */
#include "counterlab.h"
#include <pthread.h>
#include <stdio.h>
#include <string.h>

static const char plan[] = "plan 2\nbase 576\nlevel 3 1 960 spare 1\nlevel 3 3 10 spare 0\nend\n";
#define PLAN (const uint8_t *)plan, sizeof plan - 1
static uint8_t packet[12 * (2 + COUNTERLAB_MOST_BYTES)], last[4][COUNTERLAB_MOST_BYTES];
static size_t size;

static void *run(void *at) {
    size_t bytes = counterlab_state_bytes(PLAN, 1).value;
    for (int i = 0; i < 20000; i++)
        if (counterlab_step(PLAN, 1, at, bytes, packet, size).code) return at;
    return 0;
}

int main(void) {
    for (uint32_t v = 0; v < 12; v++) {
        size_t bytes = counterlab_state_bytes(PLAN, v).value;
        packet[size++] = 0;
        packet[size++] = (uint8_t)bytes;
        for (size_t i = 0; i < bytes; i++) packet[size++] = (uint8_t)(37 * v + 11 * i);
    }
    pthread_t threads[4];
    for (int i = 0; i < 4; i++)
        if (pthread_create(threads + i, 0, run, last[i])) return 2;
    int same = 1;
    for (int i = 0; i < 4; i++) {
        void *failed;
        pthread_join(threads[i], &failed);
        same &= !failed && !memcmp(last[0], last[i], sizeof last[0]);
    }
    puts(same ? "the same" : "different");
    return !same;
}
