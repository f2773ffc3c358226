/* The halving counter: its plan, states as bits, and the step of a node. What a node hears stands
 * in columns, one for each field of each level, over which its step counts. Inputs are taken as
 * accepted ones.
 */
#include "bits.h"

#define MOST_NODES 256
#define MOST_LEVELS 9 /* eight with halves, and a lone node's number below them */
#define INFINITE UINT64_MAX
#define INFINITE16 UINT16_MAX

struct group {
    int first, nodes, faults, level; /* level: 0 of the whole, one more of each half */
    uint64_t modulus;
};

/* A group of a node, with what its step needs, and where the level stands in a state's bits. */
struct level {
    struct group g, left, right;
    int right_share, left_period, value_at, value_width, seen_width;
};

struct reg {
    uint64_t value;
    int marked;
};

/* The level of the whole has any values, the others have small ones. Behind the levels of a node
 * that is alone in its last group `value` has its number, or `top` if it is alone in the plan. */
struct state {
    uint64_t top;
    uint16_t value[MOST_LEVELS], seen[MOST_LEVELS];
    uint8_t marked[MOST_LEVELS], trusted[MOST_LEVELS];
    struct reg layer; /* the register of a layer */
};

static struct group whole;
static int nodes, faults, behind; /* behind: a layer's registers, one or none */
static uint64_t modulus, bound, layer_values;
static int bytes_of[MOST_NODES], base_width[MOST_NODES], layer_at[MOST_NODES], layer_width;
/* depth_of: how many groups of a node have halves; is_alone: whether it is alone below them */
static int depth_of[MOST_NODES], is_alone[MOST_NODES];
static struct level levels_of[MOST_NODES][MOST_LEVELS];
static uint8_t common[MOST_NODES][MOST_NODES]; /* in how many groups with halves both nodes are */

/* Plans. */

static int left_faults(int borne) { return 5 * borne / 13; }

static int right_period(int borne) { return 3 * (borne - left_faults(borne)); }

static int left_period(int borne) {
    return right_period(borne) + 2 + 3 * (left_faults(borne) + 1);
}

static uint64_t bound_of(int borne) {
    if (borne == 0) return 0;
    int left = left_faults(borne), right = borne - 1 - left;
    uint64_t phases = (uint64_t)((left + 1) / (right + 1) + 2);
    uint64_t by_left = bound_of(left) + 2 * (uint64_t)left_period(borne);
    uint64_t by_right = bound_of(right) + phases * (uint64_t)right_period(borne) + 2;
    return by_left > by_right ? by_left : by_right;
}

static int has(const struct group *g, int v) { return g->first <= v && v < g->first + g->nodes; }

static void set_level(struct level *l, struct group g) {
    int left = left_faults(g.faults), right = g.faults - 1 - left, begin = g.first + 3 * left + 1;
    l->g = g, l->left_period = left_period(g.faults), l->right_share = right_period(g.faults) + 2;
    l->left = (struct group){g.first, 3 * left + 1, left, g.level + 1, (uint64_t)l->left_period};
    l->right = (struct group){begin, 3 * right + 1, right, g.level + 1,
                              (uint64_t)right_period(g.faults)};
}

/* The groups of node v, and where they stand in its states. */
static void set_node(int v) {
    struct group g = whole;
    int at, depth = 0, has_half = 1;
    for (; g.faults > 0 && has_half; depth++) {
        struct level *l = &levels_of[v][depth];
        set_level(l, g);
        l->value_width = width(g.modulus + 1), l->seen_width = width((uint64_t)l->left_period + 1);
        if (has(&l->left, v)) g = l->left;
        else if (has(&l->right, v)) g = l->right;
        else has_half = 0;
    }
    depth_of[v] = depth, is_alone[v] = has_half;
    if (has_half) levels_of[v][depth].g = g;
    at = base_width[v] = has_half ? width(g.modulus) : 0;
    for (int j = 0; j < depth; j++) {
        levels_of[v][j].value_at = at;
        at += levels_of[v][j].value_width + levels_of[v][j].seen_width + 2;
    }
    layer_at[v] = at;
    bytes_of[v] = (at + behind * (layer_width + 1) + 7) / 8;
}

static int common_of(int u, int v) {
    int j = 0;
    while (j < depth_of[u] && j < depth_of[v] && has(&levels_of[v][j].g, u)) j++;
    return j;
}

static void put_group(int count, int borne, uint64_t by) {
    whole = (struct group){0, count, borne, 0, by};
    nodes = count, faults = borne, modulus = by, bound = bound_of(borne);
}

/* Where each node stands in the groups, and how its state is written, with a layer's registers. */
static void end_plan(int registers_behind, uint64_t values) {
    behind = registers_behind, layer_values = values, layer_width = width(values + 1);
    for (int v = 0; v < nodes; v++) set_node(v);
    for (int u = 0; u < nodes; u++)
        for (int v = 0; v < nodes; v++) common[u][v] = (uint8_t)common_of(u, v);
}

/* States as bytes. */

static uint16_t small(uint64_t value, uint64_t most) {
    return value < most ? (uint16_t)value : INFINITE16;
}

/* The first levels of a state of node v, so many, and what it shows of the group below these. */
static void read_levels(int v, const uint8_t *bytes, int count, struct state *s) {
    int depth = depth_of[v];
    if (count >= depth && is_alone[v]) {
        uint64_t number = bits_at(bytes, 0, base_width[v]);
        if (number >= levels_of[v][depth].g.modulus) number = 0;
        if (depth == 0) s->top = number;
        else s->value[depth] = (uint16_t)number;
    }
    for (int j = 0; j < depth && j <= count; j++) {
        const struct level *l = &levels_of[v][j];
        int at = l->value_at;
        uint64_t value = bits_at(bytes, at, l->value_width);
        if (j == 0) s->top = value < l->g.modulus ? value : INFINITE;
        else s->value[j] = small(value, l->g.modulus);
        if (j == count) return;
        at += l->value_width, s->marked[j] = bytes[at / 8] >> (7 - at % 8) & 1, at++;
        s->seen[j] = small(bits_at(bytes, at, l->seen_width), (uint64_t)l->left_period);
        at += l->seen_width, s->trusted[j] = bytes[at / 8] >> (7 - at % 8) & 1;
    }
}

/* How many levels of a lie are read: those of which its receiver hears. */
static int levels_read = MOST_LEVELS;

static void read_state(int v, const uint8_t *bytes, struct state *s) {
    if (levels_read == MOST_LEVELS) memset(s, 0, sizeof *s);
    read_levels(v, bytes, levels_read, s);
    if (behind == 0) return;
    int at = layer_at[v];
    uint64_t value = bits_at(bytes, at, layer_width);
    s->layer.value = value < layer_values ? value : INFINITE;
    at += layer_width, s->layer.marked = bytes[at / 8] >> (7 - at % 8) & 1;
}

static void write_state(int v, const struct state *s, uint8_t *bytes) {
    int at = 0, depth = depth_of[v];
    memset(bytes, 0, (size_t)bytes_of[v]);
    put_bits(bytes, &at, depth == 0 ? s->top : s->value[depth], base_width[v]);
    for (int j = 0; j < depth; j++) {
        const struct level *l = &levels_of[v][j];
        uint64_t value = j == 0 ? s->top : s->value[j] == INFINITE16 ? INFINITE : s->value[j];
        put_bits(bytes, &at, value == INFINITE ? l->g.modulus : value, l->value_width);
        put_bits(bytes, &at, s->marked[j], 1);
        value = s->seen[j] == INFINITE16 ? (uint64_t)l->left_period : s->seen[j];
        put_bits(bytes, &at, value, l->seen_width);
        put_bits(bytes, &at, s->trusted[j], 1);
    }
}

#include "hex.h"

/* What a receiver hears, in columns. */

static uint64_t tops[MOST_NODES], layer_column[MOST_NODES];
static uint16_t values[MOST_LEVELS][MOST_NODES], seens[MOST_LEVELS][MOST_NODES];

/* Of the first levels of node u, so many, and what it shows of the group below these. */
static void hear_levels(int u, const struct state *s, int count) {
    tops[u] = s->top;
    if (behind > 0) layer_column[u] = s->layer.value;
    for (int j = 0; j < count && j < depth_of[u]; j++) {
        values[j][u] = s->value[j];
        seens[j][u] = s->seen[j] == INFINITE16 ? 0 : s->seen[j];
    }
    values[count][u] = s->value[count];
}

static void hear(int u, const struct state *s) { hear_levels(u, s, depth_of[u]); }

static inline int places16(const uint16_t *column, int count, uint16_t value) {
    uint16_t found = 0;
    for (int i = 0; i < count; i++) found += column[i] == value;
    return found;
}

static inline int places(const uint64_t *column, int count, uint64_t value) {
    uint64_t found = 0;
    for (int i = 0; i < count; i++) found += column[i] == value;
    return (int)found;
}

static inline int showing(const uint16_t *column, int count, uint16_t output) {
    int found = places16(column, count, output);
    return output == 0 ? found + places16(column, count, INFINITE16) : found;
}

/* What more than half of the nodes of a half show, 0 if they show no one number. */
static inline int shown_by(const struct group *half) {
    const uint16_t *column = values[half->level] + half->first;
    int count = half->nodes, lead = 0;
    uint16_t found = column[0] == INFINITE16 ? 0 : column[0];
    if (count == 1 || 2 * showing(column, count, found) > count) return found;
    for (int i = 0; i < count; i++) {
        uint16_t output = column[i] == INFINITE16 ? 0 : column[i];
        if (lead == 0) found = output;
        lead += output == found ? 1 : -1;
    }
    return found != 0 && 2 * places16(column, count, found) > count ? found : 0;
}

static uint64_t least_of_all(const uint64_t *column, int count, int borne) {
    uint64_t least = INFINITE;
    for (int i = 0; i < count - borne; i++)
        if (column[i] < least && places(column, count, column[i]) > borne) least = column[i];
    return least;
}

/* The least value that more nodes have than may be faulty. Of few nodes no more than two values
 * may be so common; they are left when others are struck out by threes. */
static uint64_t least_above(const uint64_t *column, int count, int borne) {
    uint64_t one = INFINITE, two = INFINITE;
    int ones = 0, twos = 0;
    if (count >= 3 * (borne + 1)) return least_of_all(column, count, borne);
    for (int i = 0; i < count; i++) {
        uint64_t value = column[i];
        if (value == one) ones++;
        else if (value == two) twos++;
        else if (ones == 0) one = value, ones = 1;
        else if (twos == 0) two = value, twos = 1;
        else ones--, twos--;
    }
    uint64_t lesser = one < two ? one : two, greater = one < two ? two : one;
    if (places(column, count, lesser) > borne) return lesser;
    return places(column, count, greater) > borne ? greater : INFINITE;
}

static uint16_t least_above16(const uint16_t *column, int count, int borne) {
    uint64_t wide[MOST_NODES];
    for (int i = 0; i < count; i++) wide[i] = column[i] == INFINITE16 ? INFINITE : column[i];
    return (uint16_t)least_above(wide, count, borne); /* the lowest bits of infinity are its own */
}

/* An instruction of the phase king over a column, without increment. */
static struct reg instruct_by(int kind, int king, struct reg own, const uint64_t *column, int count,
                              int borne) {
    int is_common = kind == 2 || places(column, count, own.value) >= count - borne;
    if (kind == 0) {
        if (!is_common) own.value = INFINITE;
    } else if (kind == 1) {
        /* beside a finite value with a quorum no other has more than may be faulty */
        if (!is_common || own.value == INFINITE) own.value = least_above(column, count, borne);
        own.marked = is_common;
    } else {
        if (own.value == INFINITE || !own.marked) own.value = column[king];
        if (own.value == INFINITE) own.value = 0;
        own.marked = 1;
    }
    return own;
}

/* The same of small values, one of which is a state's. */
static uint16_t obeyed(int kind, int king, uint16_t own, uint8_t *marked, const uint16_t *column,
                       int count, int borne) {
    int is_common = kind == 2 || places16(column, count, own) >= count - borne;
    if (kind == 0) return is_common ? own : INFINITE16;
    if (kind == 1) {
        *marked = (uint8_t)is_common;
        return is_common && own != INFINITE16 ? own : least_above16(column, count, borne);
    }
    if (own == INFINITE16 || !*marked) own = column[king];
    *marked = 1;
    return own == INFINITE16 ? 0 : own;
}

/* A turn of a slot of a layer. */
static struct reg instruct(int turn, struct reg own, const uint64_t *column, int count, int borne) {
    return instruct_by(turn % 3, turn / 3, own, column, count, borne);
}

/* A level of node v: which half it follows, what it sees and trusts, and its register. */
static void step_level(const struct level *l, const struct state *own, struct state *new) {
    int j = l->g.level, seen = own->seen[j] == INFINITE16 ? 0 : own->seen[j];
    int first = l->g.first, count = l->g.nodes, borne = l->g.faults;
    int is_backed = places16(seens[j] + first, count, (uint16_t)seen) >= count - borne;
    int follows_left = is_backed && own->trusted[j] && seen >= l->right_share;
    int instruction = follows_left ? seen - l->right_share : shown_by(&l->right);
    int king = (follows_left ? l->left.first : l->right.first) - first + instruction / 3;
    int left = shown_by(&l->left);
    new->seen[j] = (uint16_t)left;
    new->trusted[j] = (uint8_t)(is_backed && left == seen + 1 && (own->trusted[j] || seen == 0));
    if (j == 0) {
        struct reg r = {own->top, own->marked[0]};
        r = instruct_by(instruction % 3, king, r, tops, count, borne);
        new->top = r.value == INFINITE ? r.value : r.value + 1 == modulus ? 0 : r.value + 1;
        new->marked[0] = (uint8_t)r.marked;
        return;
    }
    new->marked[j] = own->marked[j];
    uint16_t value = obeyed(instruction % 3, king, own->value[j], &new->marked[j],
                            values[j] + first, count, borne);
    if (value != INFINITE16) value = value + 1 == (int)l->g.modulus ? 0 : (uint16_t)(value + 1);
    new->value[j] = value;
}

/* The counter's step of a node from what stands in the columns. */
static void step(int v, const struct state *own, struct state *new) {
    int depth = depth_of[v];
    for (int j = 0; j < depth; j++) step_level(&levels_of[v][j], own, new);
    if (!is_alone[v]) return;
    uint64_t base = levels_of[v][depth].g.modulus;
    if (depth == 0) new->top = own->top + 1 == base ? 0 : own->top + 1;
    else new->value[depth] = own->value[depth] + 1 == (int)base ? 0 : own->value[depth] + 1;
}

static uint64_t output_of(const struct state *s) { return s->top == INFINITE ? 0 : s->top; }
