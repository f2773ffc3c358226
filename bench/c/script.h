/* Scripts of boosting plans: the plan's lines, what lies mean, and the round of all nodes. */
#include "counter.h"
#include "lies.h"

static int version;

static void read_plan(void) {
    next_line(), want("plan", 2), version = (int)number_at(1);
    next_line(), want("base", 2), put_base(number_at(1));
    for (next_line(); is_line("level", 4); next_line())
        put_level((int)number_at(1), (int)number_at(2), number_at(3),
                  version == 2 ? (int)number_at(5) : 0);
    want("end", 1);
}

static struct state shifted(int u, uint64_t by) {
    struct state s = config[u];
    if (low[u] == 0) s.x = (s.x + by) % base;
    for (int l = 0; l < depth + behind; l++)
        if (low[u] <= l + 1 && s.regs[l].value != INFINITE)
            s.regs[l].value = (s.regs[l].value + by) % moduli[l];
    return s;
}

static struct state copied(int u, int from) {
    struct state s = config[from];
    if (low[u] > 0) s.x = 0;
    for (int l = 0; l < depth + behind; l++)
        if (low[u] > l + 1) s.regs[l] = (struct reg){0, 0};
    return s;
}

static int are_locked(const struct era *era) {
    const struct reg *one = NULL;
    for (int v = 0; v < nodes && depth > 0; v++) {
        const struct reg *top = &config[v].regs[depth - 1];
        if (era->is_faulty[v]) continue;
        if (top->value == INFINITE || !top->marked || (one && one->value != top->value)) return 0;
        one = top;
    }
    return 1;
}

static uint64_t output_of(const struct state *s) { return shown(s, depth); }

static struct reg *layer_of(struct state *s) { return &s->regs[depth]; }

static const uint64_t *layer_heard(void) { return values[depth]; }

/* Plays round t; a layer makes its part of each node's step. Gives the era behind the round. */
static struct era *play(uint64_t t, struct era *era, void (*layer)(int v, struct state *new)) {
    for (int u = 0; u < nodes; u++) hear(u, &config[u]);
    for (int v = 0; v < nodes; v++) {
        for (int i = 0; i < era->count; i++) {
            struct state told;
            int u = era->faulty[i];
            if (u != v) lie(t, u, v, &told), hear(u, &told);
            else hear(u, &config[u]);
        }
        step(v, &config[v], &next[v]);
        if (layer) layer(v, &next[v]);
    }
    struct state *spare = config;
    config = next, next = spare;
    return enter(t + 1, era);
}
