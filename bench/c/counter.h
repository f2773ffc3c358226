/* What the programs of this folder share of boosting plans: plans, states as bits, and the step of a
 * node. A node's own numbers of what it hears stand in columns, so that of all that a round's
 * receivers hear alike nothing is divided twice. Inputs are taken as accepted ones.
 */
#include "bits.h"

#define MOST_NODES 256
#define MOST_LEVELS 5
#define INFINITE UINT64_MAX

struct level {
    int blocks, faults, spares, below, nodes; /* below: nodes of a block; nodes: of a group */
    uint64_t modulus, leaders, beat, interval[17];
};

struct reg {
    uint64_t value;
    int marked;
};

struct state {
    uint64_t x;
    struct reg regs[MOST_LEVELS + 1]; /* the levels', and after them one of a layer */
};

static int depth, nodes = 1, faults, behind; /* behind: a layer's registers */
static uint64_t base, modulus, bound;
static struct level levels[MOST_LEVELS];
static uint64_t moduli[MOST_LEVELS + 1];
static int widths[MOST_LEVELS + 1], base_width, bytes_of[MOST_NODES];
/* low: from which level on a node takes part; first: of its group; block: its block or -1 */
static int low[MOST_NODES], first[MOST_LEVELS][MOST_NODES], block[MOST_LEVELS][MOST_NODES];

static void put_hex(const uint8_t *bytes, int count) {
    for (int i = 0; i < count; i++) {
        put_byte("0123456789abcdef"[bytes[i] >> 4]);
        put_byte("0123456789abcdef"[bytes[i] & 15]);
    }
}

/* Plans. */

static void put_base(uint64_t count) {
    base = modulus = count;
}

static void put_level(int blocks, int borne, uint64_t count, int spares) {
    struct level *p = &levels[depth++];
    p->blocks = blocks, p->faults = borne, p->spares = spares, p->modulus = count;
    p->below = nodes, p->nodes = blocks * nodes + spares;
    p->leaders = (uint64_t)(blocks + 1) / 2, p->beat = 3 * (uint64_t)(borne + 2);
    p->interval[0] = p->beat;
    for (int i = 0; i < blocks; i++) p->interval[i + 1] = p->interval[i] * 2 * p->leaders;
    nodes = p->nodes, faults = borne, modulus = count, bound += p->interval[blocks];
}

/* Where each node stands in the groups, and how its state is written, when all levels are known. */
static void end_plan(int registers_behind, uint64_t values) {
    behind = registers_behind;
    base_width = width(base);
    for (int l = 0; l < depth; l++) moduli[l] = levels[l].modulus;
    for (int i = 0; i < behind; i++) moduli[depth + i] = values;
    for (int l = 0; l < depth + behind; l++) widths[l] = width(moduli[l] + 1);
    for (int v = 0; v < nodes; v++) {
        int group = 0, bits = 0, l = depth;
        for (int i = 0; i < depth; i++) block[i][v] = -1;
        for (low[v] = 0; l > 0 && low[v] == 0; l--) {
            const struct level *p = &levels[l - 1];
            first[l - 1][v] = group;
            if (v - group >= p->blocks * p->below) low[v] = l;
            else block[l - 1][v] = (v - group) / p->below, group += block[l - 1][v] * p->below;
        }
        if (low[v] == 0) bits = base_width;
        for (int i = 0; i < depth + behind; i++)
            if (low[v] <= i + 1) bits += widths[i] + 1;
        bytes_of[v] = (bits + 7) / 8;
    }
}

/* States as bytes. */

static void read_state(int v, const uint8_t *bytes, struct state *s) {
    int at = 0;
    s->x = 0;
    if (low[v] == 0) {
        s->x = bits_at(bytes, 0, base_width);
        if (s->x >= base) s->x = 0;
        at = base_width;
    }
    for (int l = 0; l < depth + behind; l++) {
        s->regs[l] = (struct reg){0, 0};
        if (low[v] > l + 1) continue;
        uint64_t value = bits_at(bytes, at, widths[l]);
        at += widths[l];
        s->regs[l].value = value < moduli[l] ? value : INFINITE;
        s->regs[l].marked = bytes[at / 8] >> (7 - at % 8) & 1;
        at++;
    }
}

static void write_state(int v, const struct state *s, uint8_t *bytes) {
    int at = 0;
    memset(bytes, 0, (size_t)bytes_of[v]);
    if (low[v] == 0) put_bits(bytes, &at, s->x, base_width);
    for (int l = 0; l < depth + behind; l++) {
        if (low[v] > l + 1) continue;
        uint64_t value = s->regs[l].value;
        put_bits(bytes, &at, value == INFINITE ? moduli[l] : value, widths[l]);
        put_bits(bytes, &at, (uint64_t)s->regs[l].marked, 1);
    }
}

#include "hex.h"

static void put_state(int v, const struct state *s) {
    uint8_t bytes[MOST_BYTES];
    write_state(v, s, bytes);
    put_hex(bytes, bytes_of[v]);
}

/* What a receiver hears, in columns, and its step. */

static uint16_t pointers[MOST_LEVELS][MOST_NODES], parts[MOST_LEVELS][MOST_NODES];
static uint64_t values[MOST_LEVELS + 1][MOST_NODES];

/* What a state shows over the lowest l levels. */
static uint64_t shown(const struct state *s, int l) {
    if (l == 0) return s->x;
    return s->regs[l - 1].value == INFINITE ? 0 : s->regs[l - 1].value;
}

static void hear(int u, const struct state *s) {
    for (int l = 0; l < depth; l++) {
        const struct level *p = &levels[l];
        if (block[l][u] >= 0) {
            uint64_t o = shown(s, l);
            pointers[l][u] = (uint16_t)(o / p->interval[block[l][u]] % p->leaders);
            parts[l][u] = (uint16_t)(o % p->beat);
        }
        values[l][u] = s->regs[l].value;
    }
    for (int l = depth; l < depth + behind; l++) values[l][u] = s->regs[l].value;
}

static int majority(const uint16_t *numbers, int count) {
    int found = 0, more = 0, times = 0;
    for (int i = 0; i < count; i++) {
        if (more == 0) found = numbers[i];
        more += numbers[i] == found ? 1 : -1;
    }
    for (int i = 0; i < count; i++) times += numbers[i] == found;
    return 2 * times > count ? found : 0;
}

/* The beat that the group from node g on hears on a level, by the votes of its blocks. */
static int beat_heard(int l, int g) {
    const struct level *p = &levels[l];
    uint16_t votes[16];
    for (int i = 0; i < p->blocks; i++)
        votes[i] = (uint16_t)majority(&pointers[l][g + i * p->below], p->below);
    return majority(&parts[l][g + majority(votes, p->blocks) * p->below], p->below);
}

static int places(const uint64_t *column, int count, uint64_t value) {
    int found = 0;
    for (int i = 0; i < count; i++) found += column[i] == value;
    return found;
}

static uint64_t least_above(const uint64_t *column, int count, int borne) {
    uint64_t least = INFINITE;
    for (int i = 0; i < count; i++)
        if (column[i] < least && places(column, count, column[i]) > borne) least = column[i];
    return least;
}

/* An instruction of the phase king over a column, without increment. */
static struct reg instruct(int turn, struct reg own, const uint64_t *column, int count, int borne) {
    int many = count - borne;
    if (turn % 3 == 0) {
        if (places(column, count, own.value) < many) own.value = INFINITE;
    } else if (turn % 3 == 1) {
        own.marked = places(column, count, own.value) >= many;
        own.value = least_above(column, count, borne);
    } else {
        uint64_t king = column[turn / 3];
        if (own.value == INFINITE || !own.marked) own.value = king == INFINITE ? 0 : king;
        own.marked = 1;
    }
    return own;
}

/* The counter's step of a node from what stands in the columns. */
static void step(int v, const struct state *own, struct state *new) {
    *new = *own;
    if (low[v] == 0) new->x = own->x + 1 == base ? 0 : own->x + 1;
    for (int l = 0; l < depth; l++) {
        const struct level *p = &levels[l];
        if (low[v] > l + 1) continue;
        int g = first[l][v];
        struct reg r = instruct(beat_heard(l, g), own->regs[l], &values[l][g], p->nodes, p->faults);
        if (r.value != INFINITE) r.value = r.value + 1 == p->modulus ? 0 : r.value + 1;
        new->regs[l] = r;
    }
}
