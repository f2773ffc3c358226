/* Scripts of halving plans: the plan's lines, what lies mean, and the round of all nodes. */
#include "halving_counter.h"
#include "lies.h"

static void read_plan(void) {
    next_line(), want("halving", 2);
    next_line(), want("group", 4);
    put_group((int)number_at(1), (int)number_at(2), number_at(3));
    next_line(), want("end", 1);
}

/* A number that is `by` larger modulo m, or `most` if it is not below m. */
static uint64_t moved(uint64_t number, uint64_t by, uint64_t m, uint64_t most) {
    return number < m ? (number + by) % m : most;
}

static uint16_t moved16(uint16_t number, uint64_t by, uint64_t m) {
    return number < m ? (uint16_t)((number + by) % m) : INFINITE16;
}

/* The state of a node as one of node u: its number and its finite values `by` larger, modulo what
 * they have at u. A number that is too large there is 0, and a value infinite. */
static struct state fitted(int u, int from, uint64_t by) {
    const struct state *c = &config[from];
    int depth = depth_of[u];
    struct state s;
    memset(&s, 0, sizeof s);
    for (int j = 0; j < depth && j < depth_of[from]; j++) {
        const struct level *l = &levels_of[u][j];
        if (j == 0) s.top = moved(c->top, by, modulus, INFINITE);
        else s.value[j] = moved16(c->value[j], by, l->g.modulus);
        s.seen[j] = moved16(c->seen[j], by, (uint64_t)l->left_period);
        s.marked[j] = c->marked[j], s.trusted[j] = c->trusted[j];
    }
    if (is_alone[u]) {
        int below = depth_of[from];
        uint64_t number = !is_alone[from] ? 0 : below == 0 ? c->top : c->value[below];
        number = moved(number, by, levels_of[u][depth].g.modulus, 0);
        if (depth == 0) s.top = number;
        else s.value[depth] = (uint16_t)number;
    }
    s.layer = c->layer;
    if (behind > 0) s.layer.value = moved(c->layer.value, by, layer_values, INFINITE);
    return s;
}

static struct state shifted(int u, uint64_t by) { return fitted(u, u, by); }

static struct state copied(int u, int from) { return fitted(u, from, 0); }

static int are_locked(const struct era *era) {
    const struct state *one = NULL;
    for (int v = 0; v < nodes && faults > 0; v++) {
        const struct state *s = &config[v];
        if (era->is_faulty[v]) continue;
        if (s->top == INFINITE || !s->marked[0] || (one && one->top != s->top)) return 0;
        one = s;
    }
    return 1;
}

static struct reg *layer_of(struct state *s) { return &s->layer; }

static const uint64_t *layer_heard(void) { return layer_column; }

/* Plays round t; a layer makes its part of each node's step. Gives the era behind the round. */
static struct era *play(uint64_t t, struct era *era, void (*layer)(int v, struct state *new)) {
    for (int u = 0; u < nodes; u++) hear(u, &config[u]);
    for (int v = 0; v < nodes; v++) {
        for (int i = 0; i < era->count; i++) {
            struct state told;
            int u = era->faulty[i];
            if (u == v) {
                hear(u, &config[u]);
                continue;
            }
            levels_read = common[u][v];
            lie(t, u, v, &told), hear_levels(u, &told, levels_read);
        }
        levels_read = MOST_LEVELS;
        step(v, &config[v], &next[v]);
        if (layer) layer(v, &next[v]);
    }
    struct state *spare = config;
    config = next, next = spare;
    return enter(t + 1, era);
}
