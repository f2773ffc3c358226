/* One level alone: one half counts from configuration 0 on, at each phase in turn, with one
 * correct king; the other half shows each receiver what the liars want, and as many nodes lie as
 * may. A crowd of configurations that are not locked is kept and stepped with drawn lies, those
 * first that agree least. It prints the latest lock beside what a level waits for: two left
 * periods if the left half counts, some right periods and two rounds if the right half does.
 *
 *   gcc -O2 -march=native -o level bench/exact/level.c
 *   ./level NODES FAULTS MODULUS SECONDS SEED [CROWD]
 */
#include "../c/halving_counter.h"
#include <time.h>

#define MOST_CROWD 4000

/* What nodes hold of the level alone. */
struct node {
    uint64_t value;
    uint16_t seen;
    uint8_t marked, trusted;
};

struct member {
    struct node nodes[MOST_NODES];
    int score;
};

static struct level top;
static int is_faulty[MOST_NODES], crowd_size = 300;
static struct member *crowd, *next_crowd, *sorted[4 * MOST_CROWD];
static uint64_t seed = 88172645463325252u;

static uint64_t drawn(void) {
    seed ^= seed << 13, seed ^= seed >> 7, seed ^= seed << 17;
    return seed >> 16;
}

static int below(int n) { return (int)(drawn() % (uint64_t)n); }

/* Faults so that the half that counts has one correct king, at place j. */
static void put_faults(const struct group *half, int j) {
    memset(is_faulty, 0, sizeof is_faulty);
    for (int i = 0; i <= half->faults; i++) is_faulty[half->first + i] = i != j;
    for (int left = faults - half->faults; left > 0; left--) {
        int u;
        do {
            u = below(nodes - half->nodes);
            if (u >= half->first) u += half->nodes;
        } while (is_faulty[u]);
        is_faulty[u] = 1;
    }
}

static int is_locked(const struct member *m) {
    const struct node *one = NULL;
    for (int u = 0; u < nodes; u++) {
        const struct node *n = &m->nodes[u];
        if (is_faulty[u]) continue;
        if (n->value == INFINITE || !n->marked || (one && one->value != n->value)) return 0;
        one = n;
    }
    return 1;
}

/* What a liar says that its value is: `own` is the receiver's. */
static uint64_t a_value(uint64_t own, uint64_t common, int how, const struct member *from) {
    switch (how) {
    case 0: return own;
    case 1: return INFINITE;
    case 2: return common % modulus;
    case 3: return own == INFINITE ? common % modulus : (own + 1) % modulus;
    case 4: return from->nodes[below(nodes)].value;
    default: return drawn() % modulus;
    }
}

static int draw_starts(void) {
    int size = 0;
    for (int i = 0; i < crowd_size; i++) {
        struct member *m = &crowd[size];
        int seen = below(top.left_period), odd = below(3);
        for (int u = 0; u < nodes; u++) {
            struct node *n = &m->nodes[u];
            n->value = drawn() % (modulus + 1);
            if (n->value == modulus) n->value = INFINITE;
            n->marked = (uint8_t)below(2), n->trusted = below(8) >= odd;
            n->seen = (uint16_t)(below(8) < odd ? below(top.left_period) : seen);
        }
        if (!is_locked(m)) size++;
    }
    return size;
}

/* What a round is like: how the half that does not count goes on, and who is left out of it. */
struct mood {
    int restarts, out, seens, odd, instruction, is_common, how, is_burst;
    uint64_t common;
};

static struct mood drawn_mood(int restart_every, int is_burst) {
    int right = (int)top.right.modulus;
    return (struct mood){below(restart_every) == 0, below(2) ? 0 : below(nodes), below(6), below(4),
                         below(right), below(2), below(6), is_burst, drawn()};
}

/* What the half that does not count shows node v. */
static int shown_to(int v, int left_counts, const struct mood *m, const struct node *n,
                    int is_odd) {
    int right = (int)top.right.modulus;
    if (left_counts) return m->is_common ? m->instruction : below(right);
    if (v < m->out ? below(2) : is_odd) return below(top.left_period);
    int is_late = m->is_burst && n->seen >= top.right_share && n->trusted && below(3) == 0;
    return m->restarts || is_late ? 0 : (n->seen + 1) % top.left_period;
}

/* The step of node v: it hears the truth of `from`, but of the liars. */
static struct node stepped(int v, const struct member *from, int left_counts, int shown,
                           const struct mood *m) {
    const struct node *own = &from->nodes[v];
    int is_odd = below(12) < m->odd, other = shown_to(v, left_counts, m, own, is_odd);
    for (int u = 0; u < top.left.nodes; u++)
        values[1][u] = (uint16_t)(left_counts ? shown : other);
    for (int u = 0; u < top.right.nodes; u++)
        values[1][top.right.first + u] = (uint16_t)(left_counts ? other : shown);
    for (int u = 0; u < nodes; u++) {
        if (!is_faulty[u]) continue;
        tops[u] = a_value(own->value, m->common, is_odd ? below(6) : m->how, from);
        seens[0][u] = (uint16_t)(m->seens == 0 && below(2) ? below(top.left_period) : own->seen);
    }
    struct state s = {.top = own->value}, new = {0};
    s.seen[0] = own->seen, s.marked[0] = own->marked, s.trusted[0] = own->trusted;
    step_level(&top, &s, &new);
    return (struct node){new.top, new.seen[0], new.marked[0], new.trusted[0]};
}

static int score_of(const struct member *m, int left_counts) {
    int most = 0, trusting = 0;
    for (int u = 0; u < nodes; u++) {
        int same = 0;
        if (is_faulty[u]) continue;
        for (int w = 0; w < nodes; w++)
            same += !is_faulty[w] && m->nodes[w].value == m->nodes[u].value;
        if (m->nodes[u].value != INFINITE && same > most) most = same;
        trusting += m->nodes[u].trusted;
    }
    return nodes - most + (left_counts ? 0 : trusting) + below(6);
}

static int by_score(const void *a, const void *b) {
    return (*(const struct member *const *)b)->score - (*(const struct member *const *)a)->score;
}

/* One of the crowd after a round, if it is not locked. */
static int is_kept(const struct member *from, int left_counts, int shown, struct mood m,
                   struct member *to) {
    for (int u = 0; u < nodes; u++)
        tops[u] = from->nodes[u].value, seens[0][u] = from->nodes[u].seen;
    for (int v = 0; v < nodes; v++)
        to->nodes[v] = is_faulty[v] ? from->nodes[v] : stepped(v, from, left_counts, shown, &m);
    to->score = score_of(to, left_counts);
    return !is_locked(to);
}

/* One attack; the first configuration of which no member is open. */
static int attack(int left_counts, int j, int phase) {
    int period = left_counts ? top.left_period : (int)top.right.modulus;
    int restart_every = 2 + below(2 * top.left_period), is_burst = below(2);
    put_faults(left_counts ? &top.left : &top.right, j);
    int size = draw_starts();
    for (int r = 0;; r++) {
        int kept = 0;
        if (size == 0) return r;
        for (int tries = 0; tries < 6 * crowd_size && kept < 3 * crowd_size; tries++) {
            struct mood m = drawn_mood(restart_every, is_burst);
            int shown = (phase + r) % period;
            kept += is_kept(&crowd[below(size)], left_counts, shown, m, &next_crowd[kept]);
        }
        for (int i = 0; i < kept; i++) sorted[i] = &next_crowd[i];
        qsort(sorted, (size_t)kept, sizeof sorted[0], by_score);
        size = kept < crowd_size ? kept : crowd_size;
        for (int i = 0; i < size; i++) crowd[i] = *sorted[i];
        if (r > 4 * top.left_period) puts("never locked"), exit(1);
    }
}

static void attack_half(int left_counts, int bound, double seconds) {
    const struct group *half = left_counts ? &top.left : &top.right;
    int latest = 0, king = 0, at_phase = 0, period = (int)half->modulus;
    long attacks = 0;
    clock_t start = clock();
    while ((double)(clock() - start) / CLOCKS_PER_SEC < seconds)
        for (int phase = 0; phase < period; phase++, attacks++) {
            int j = below(half->faults + 1), at = attack(left_counts, j, phase);
            if (at > latest) latest = at, king = j, at_phase = phase;
            if (at > bound) printf("PAST THE BOUND: king %d phase %d locked %d\n", j, phase, at);
        }
    printf("nodes %d faults %d modulus %llu, the %s half counts: ", nodes, faults,
           (unsigned long long)modulus, left_counts ? "left" : "right");
    printf("locked at %d of %d (king %d, phase %d), %ld attacks\n", latest, bound, king, at_phase,
           attacks);
}

int main(int given, char **words) {
    if (given < 6) return 2;
    put_group(atoi(words[1]), atoi(words[2]), strtoull(words[3], 0, 10)), end_plan(0, 0);
    top = levels_of[0][0];
    seed ^= (uint64_t)atoll(words[5]) * 0x9E3779B97F4A7C15u;
    if (given > 6) crowd_size = atoi(words[6]);
    crowd = calloc(MOST_CROWD, sizeof *crowd), next_crowd = calloc(4 * MOST_CROWD, sizeof *crowd);
    int phases = (top.left.faults + 1) / (top.right.faults + 1) + 2;
    attack_half(0, phases * (int)top.right.modulus + 2, atof(words[4]) / 2);
    attack_half(1, 2 * top.left_period, atof(words[4]) / 2);
    return 0;
}
