/* Four threads, each the loop of examples/library/node_loop.c: in which rounds the first three act,
 * and on what. The last one lies. In round 60 node 1 has missed a tick; from 100 to 129 node 2 lies
 * too, which is one more than the plan tolerates. */
#define _POSIX_C_SOURCE 200809L
#include "counterlab.h"
#include <pthread.h>
#include <stdbool.h>
#include <stdio.h>
#include <string.h>

enum { NODES = 4, ROUNDS = 160 };

void run(const uint8_t *plan, size_t plan_size, uint32_t id);

static const char plan[] = "halving 1\ngroup 4 1 10\nend\n";
static struct mail {
    size_t size;
    uint8_t bytes[COUNTERLAB_MOST_BYTES];
} sent[2][NODES][NODES]; /* in even and odd rounds, from, to */
static long acts[ROUNDS][NODES];
static pthread_barrier_t begin;
static _Thread_local uint32_t id;
static _Thread_local int now = -1;

unsigned wait_for_tick(void) {
    pthread_barrier_wait(&begin);
    if (++now == ROUNDS) pthread_exit(0);
    return id == 1 && now == 60 ? 2 : 1;
}

size_t receive(uint32_t from, uint8_t *message, size_t most) {
    struct mail *mail = &sent[(now + 1) % 2][from][id];
    if (mail->size <= most) memcpy(message, mail->bytes, mail->size);
    return mail->size <= most ? mail->size : 0;
}

void send_to(uint32_t to, const uint8_t *message, size_t size) {
    struct mail *mail = &sent[now % 2][id][to];
    bool lies = id == 3 || (id == 2 && now >= 100 && now < 130);
    mail->size = size;
    for (size_t i = 0; i < size; i++)
        mail->bytes[i] = lies ? (uint8_t)(97 * now + 31 * (int)to + 7 * (int)i) : message[i];
}

void act(uint64_t number) { acts[now][id] = 1 + (long)number; }

static void *start(void *at) {
    id = (uint32_t)(size_t)at;
    run((const uint8_t *)plan, sizeof plan - 1, id);
    return 0;
}

int main(void) {
    pthread_t threads[NODES];
    pthread_barrier_init(&begin, 0, NODES);
    for (size_t v = 0; v < NODES; v++)
        if (pthread_create(threads + v, 0, start, (void *)v)) return 2;
    for (int v = 0; v < NODES; v++) pthread_join(threads[v], 0);
    for (int t = 0; t < ROUNDS; t++) {
        printf("%d", t);
        for (int v = 0; v < 3; v++)
            if (acts[t][v]) printf(" %ld", acts[t][v] - 1);
            else printf(" -");
        puts("");
    }
    return 0;
}
