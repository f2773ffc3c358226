/* How long a step of the halving counter takes: draws states, and prints nanoseconds of processor
 * time for a step of each node in turn, where all groups count together and where states are any.
 *
 *   gcc -O2 -o halving_steps bench/c/halving_steps.c
 *   ./halving_steps NODES FAULTS MODULUS STEPS
 */
#include "halving_counter.h"
#include <time.h>

static struct state states[MOST_NODES];
static uint64_t seed = 88172645463325252u;

static uint64_t drawn(void) {
    seed ^= seed << 13, seed ^= seed >> 7, seed ^= seed << 17;
    return seed >> 16;
}

/* The state of node v when all its groups have counted to a clock. */
static void count_to(int v, uint64_t clock, struct state *s) {
    int depth = depth_of[v];
    memset(s, 0, sizeof *s);
    for (int j = 0; j < depth + is_alone[v]; j++) {
        const struct level *l = &levels_of[v][j];
        if (j == 0) s->top = clock % l->g.modulus;
        else s->value[j] = (uint16_t)(clock % l->g.modulus);
        if (j == depth) break;
        uint64_t period = (uint64_t)l->left_period;
        s->seen[j] = (uint16_t)((clock + period - 1) % period);
        s->marked[j] = s->trusted[j] = 1;
    }
}

static void draw_all(int is_counting, uint64_t clock) {
    for (int v = 0; v < nodes; v++) {
        uint8_t bytes[MOST_BYTES];
        for (int i = 0; i < bytes_of[v]; i++) bytes[i] = (uint8_t)drawn();
        if (is_counting) count_to(v, clock, &states[v]);
        else read_state(v, bytes, &states[v]);
        hear(v, &states[v]);
    }
}

/* Nanoseconds of a step, over 64 configurations. */
static double time_steps(int is_counting, long steps) {
    static struct state new;
    double taken = 0;
    uint64_t sum = 0;
    for (uint64_t clock_shown = 0; clock_shown < 64; clock_shown++) {
        draw_all(is_counting, clock_shown);
        clock_t start = clock();
        for (long i = 0; i < steps / 64; i++) {
            int v = (int)(i % nodes);
            step(v, &states[v], &new);
            sum += new.seen[0] + new.top;
        }
        taken += (double)(clock() - start) / CLOCKS_PER_SEC;
    }
    return sum == 1 ? 0 : 1e9 * taken / (double)(steps / 64 * 64);
}

int main(int count, char **words) {
    if (count != 5) return 2;
    put_group(atoi(words[1]), atoi(words[2]), strtoull(words[3], 0, 10)), end_plan(0, 0);
    double counting = time_steps(1, atol(words[4]));
    double any = time_steps(0, atol(words[4]));
    printf("%d nodes: counting %.0f ns, any %.0f ns\n", nodes, counting, any);
    return 0;
}
