/* Four nodes of a halving plan, one of them faulty: what they hold at their one level, the step of
 * a correct one by its definition, and what a liar can bring it to.
 */
#include "../c/halving_counter.h"

#define RIGHT_PERIOD 3
#define MOST_WORDS 12
#define MOST_STATES (64 * MOST_WORDS)

/* What a node holds at the level; the value `count` is infinite. */
struct local {
    int value, marked, seen, trusted;
};

/* A configuration: what the three correct nodes hold, and the numbers of nodes 0 and 1, of the
 * left half and of the right half. That of a faulty one is 0 and says nothing. */
struct config {
    struct local at[3];
    int left, right;
};

/* What the liar says to a correct node: its value, what it saw, and its number. */
struct message {
    int value, seen, number;
};

static int count, bad, right_share, left_share, period; /* count: the modulus */
static int states, words; /* of one node at the level; how many words have as many bits */
static int correct[3], left_numbers, right_numbers;

static struct local unpacked(int s) {
    return (struct local){s / (4 * period), s / (2 * period) % 2, s / 2 % period, s % 2};
}

static int packed(struct local l) {
    return ((l.value * 2 + l.marked) * period + l.seen) * 2 + l.trusted;
}

/* The step, by its definition. */

/* The register after an instruction: value and mark, from the values of the four nodes. */
static void obey(const int *values, int v, int kind, int king, struct local *own) {
    int same = 0, least = count;
    for (int u = 0; u < 4; u++) same += values[u] == values[v];
    for (int u = 0; u < 4; u++) {
        int places = 0;
        for (int w = 0; w < 4; w++) places += values[w] == values[u];
        if (places > 1 && values[u] < least) least = values[u];
    }
    if (kind == 0) own->value = same >= 3 ? own->value : count;
    else if (kind == 1) own->value = least, own->marked = same >= 3;
    else {
        if (own->value == count || !own->marked)
            own->value = values[king] == count ? 0 : values[king];
        own->marked = 1;
    }
    if (own->value < count) own->value = (own->value + 1) % count;
}

/* What the correct node at place v holds after a round in which the liar says this to it. */
static struct local stepped(const struct config *c, int v, struct message m) {
    struct local own = c->at[v];
    int values[4], saw = m.seen == own.seen, x = own.seen;
    int left = bad == 0 ? m.number : c->left, right = bad == 1 ? m.number : c->right;
    for (int u = 0; u < 3; u++) {
        values[correct[u]] = c->at[u].value;
        saw += c->at[u].seen == x;
    }
    values[bad] = m.value;
    int is_backed = saw >= 3, follows_left = is_backed && own.trusted && x >= right_share;
    int instruction = follows_left ? x - right_share : right;
    obey(values, correct[v], instruction % 3, follows_left ? 0 : 1, &own);
    own.seen = left;
    own.trusted = is_backed && left == x + 1 && (own.trusted || x == 0);
    return own;
}

/* The same for all messages at once. */

/* Of a node, the values of all correct ones, its mark and an instruction, the right half's or the
 * left half's: the registers that the liar can bring it to, a bit of each. */
static uint32_t *registers_of[3];

static void fill_registers(void) {
    int all = (count + 1) * (count + 1) * (count + 1);
    for (int v = 0; v < 3; v++) {
        registers_of[v] = calloc((size_t)all * 2 * 6, sizeof(uint32_t));
        for (int c = 0; c < all * 2 * 6; c++) {
            int values[4], i = c % 6, of = c / 12;
            int digits[3] = {of / (count + 1) / (count + 1), of / (count + 1) % (count + 1),
                             of % (count + 1)};
            for (int u = 0; u < 3; u++) values[correct[u]] = digits[u];
            for (int a = 0; a <= count; a++) {
                struct local own = {digits[v], c / 6 % 2, 0, 0};
                values[bad] = a;
                obey(values, correct[v], i % 3, i >= 3 ? 0 : 1, &own);
                registers_of[v][c] |= (uint32_t)1 << (own.value * 2 + own.marked);
            }
        }
    }
}

static void add(uint64_t *set, uint32_t registers, int seen, int trusted) {
    for (; registers; registers &= registers - 1) {
        int s = (__builtin_ctz(registers) * period + seen) * 2 + trusted;
        set[s / 64] |= (uint64_t)1 << s % 64;
    }
}

/* What the liar can bring the correct node at place v to, as a set of states. */
static void effects(const struct config *c, int v, uint64_t *set) {
    const struct local *l = c->at;
    int values = (l[0].value * (count + 1) + l[1].value) * (count + 1) + l[2].value;
    const uint32_t *registers = registers_of[v] + (values * 2 + l[v].marked) * 6;
    int saw = 0, x = l[v].seen;
    for (int u = 0; u < 3; u++) saw += l[u].seen == x;
    memset(set, 0, (size_t)words * 8);
    for (int says_same = 0; says_same < 2; says_same++) {
        int is_backed = saw + says_same >= 3, may_trust = is_backed && (l[v].trusted || x == 0);
        uint32_t can = registers[c->right];
        if (is_backed && l[v].trusted && x >= right_share)
            can = registers[3 + (x - right_share) % 3];
        else if (bad == 1) can = registers[0] | registers[1] | registers[2];
        for (int s = 0; s < period; s++)
            if (bad == 0 || s == c->left) add(set, can, s, may_trust && s == x + 1);
    }
}

static int members(const uint64_t *set, int *list) {
    int found = 0;
    for (int w = 0; w < words; w++)
        for (uint64_t m = set[w]; m; m &= m - 1) list[found++] = w * 64 + __builtin_ctzll(m);
    return found;
}

/* That both agree, and that the step is that of bench/c. */

static struct config drawn_config(void) {
    struct config c = {{{0}}, rand() % left_numbers, rand() % right_numbers};
    for (int u = 0; u < 3; u++) c.at[u] = unpacked(rand() % states);
    for (int u = 1; u < 3; u++)
        if (rand() % 4) c.at[u].seen = c.at[0].seen;
    if (rand() % 2 && bad != 0) c.left = (c.at[0].seen + 1) % period;
    return c;
}

/* A node's state as that of the engine: node u holds this, and its number. */
static struct state state_of(struct local l, int number) {
    struct state s;
    memset(&s, 0, sizeof s);
    s.top = l.value == count ? INFINITE : (uint64_t)l.value;
    s.marked[0] = (uint8_t)l.marked, s.trusted[0] = (uint8_t)l.trusted;
    s.seen[0] = (uint16_t)l.seen, s.value[1] = (uint16_t)number;
    return s;
}

static struct state correct_state(const struct config *c, int u) {
    return state_of(c->at[u], correct[u] == 0 ? c->left : correct[u] == 1 ? c->right : 0);
}

static struct state liar_state(struct message m) {
    return state_of((struct local){m.value, 0, m.seen, 0}, bad < 2 ? m.number : 0);
}

static int is_step_of_engine(const struct config *c, int v, struct message m, struct local after) {
    struct state s, own = correct_state(c, v), new = own;
    for (int u = 0; u < 3; u++) s = correct_state(c, u), hear(correct[u], &s);
    s = liar_state(m), hear(bad, &s);
    step(correct[v], &own, &new);
    return new.top == (after.value == count ? INFINITE : (uint64_t)after.value)
        && new.marked[0] == after.marked && new.seen[0] == after.seen
        && new.trusted[0] == after.trusted;
}

static int numbers_of_liar(void) { return bad == 0 ? period : bad == 1 ? RIGHT_PERIOD : 1; }

/* Whether the effects on a node are those of all messages. */
static int is_checked(const struct config *c, int v) {
    uint64_t set[MOST_WORDS], found[MOST_WORDS] = {0};
    int is_designed = right_share == RIGHT_PERIOD + 2 && left_share == 3;
    for (int value = 0; value <= count; value++)
        for (int seen = 0; seen < period; seen++)
            for (int number = 0; number < numbers_of_liar(); number++) {
                struct message m = {value, seen, number};
                struct local after = stepped(c, v, m);
                int s = packed(after);
                found[s / 64] |= (uint64_t)1 << s % 64;
                if (is_designed && !is_step_of_engine(c, v, m, after)) return 0;
            }
    effects(c, v, set);
    return memcmp(set, found, (size_t)words * 8) == 0;
}

static void check(void) {
    for (int i = 0; i < 3000; i++) {
        struct config c = drawn_config();
        for (int v = 0; v < 3; v++)
            if (!is_checked(&c, v)) puts("the steps differ"), exit(1);
    }
}

static void begin(int modulus, int faulty, int share, int after) {
    count = modulus, bad = faulty, right_share = share, left_share = after, period = share + after;
    states = 4 * (count + 1) * period, words = (states + 63) / 64;
    if (count < 2 || bad < 0 || bad > 3 || words > MOST_WORDS || after < 3) exit(2);
    for (int v = 0, u = 0; v < 4; v++)
        if (v != bad) correct[u++] = v;
    left_numbers = bad == 0 ? 1 : period, right_numbers = bad == 1 ? 1 : RIGHT_PERIOD;
    fill_registers();
    put_group(4, 1, (uint64_t)count), end_plan(0, 0);
    check();
}
