/* Four nodes of a halving plan, one of them faulty: after how many rounds the correct ones are
 * locked at the latest, over all starts and all liars. It goes backwards: W(0) are the
 * configurations that are not locked, W(k + 1) those from which the liar can lead into W(k). The
 * first k with W(k) empty is the answer; if W(k + 1) is W(k), the liar keeps the others from it
 * for ever. README.md says more.
 *
 *   gcc -O2 -o exact bench/exact/exact.c
 *   ./exact MODULUS FAULTY [K [L]]          the answer, where the shares of the left half's period
 *                                           are K and L rounds long, and not 5 and 3
 *   ./exact script MODULUS FAULTY           a script that locks so late
 *   ./exact vectors MODULUS FAULTY COUNT    drawn steps of the model, as docs/VECTORS.md has them
 */
#include "four.h"

/* Sets of configurations: of those whose nodes at places 0 and 1 hold a and b, a bit for each
 * state of the one at place 2. */

static size_t size_of_set(void) {
    return (size_t)left_numbers * (size_t)right_numbers * (size_t)states * (size_t)states
        * (size_t)words;
}

static size_t place(int left, int right, int a, int b) {
    size_t at = (size_t)(left * right_numbers + right);
    return ((at * (size_t)states + (size_t)a) * (size_t)states + (size_t)b) * (size_t)words;
}

static int has_state(const uint64_t *row, int s) { return (int)(row[s / 64] >> s % 64 & 1); }

static int is_locked(const struct config *c) {
    const struct local *l = c->at;
    return l[0].value < count && l[0].marked && l[1].marked && l[2].marked
        && l[1].value == l[0].value && l[2].value == l[0].value;
}

/* Whether a locked configuration is locked after any round, one number on. */
static int stays_locked(const struct config *c) {
    for (int v = 0; v < 3; v++) {
        uint64_t set[MOST_WORDS];
        int list[MOST_STATES];
        effects(c, v, set);
        for (int i = members(set, list); i > 0; i--) {
            struct local after = unpacked(list[i - 1]);
            if (after.value != (c->at[0].value + 1) % count || !after.marked) return 0;
        }
    }
    return 1;
}

static int next_left(int left) { return bad == 0 ? 0 : (left + 1) % period; }

static int next_right(int right) { return bad == 1 ? 0 : (right + 1) % RIGHT_PERIOD; }

/* Whether the liar can lead from a configuration into a set; then to where, as states. */
static int leads_into(const struct config *c, const uint64_t *set, int *to) {
    uint64_t can[3][MOST_WORDS];
    int first[MOST_STATES], second[MOST_STATES];
    for (int v = 0; v < 3; v++) effects(c, v, can[v]);
    int firsts = members(can[0], first), seconds = members(can[1], second);
    int left = next_left(c->left), right = next_right(c->right);
    for (int i = 0; i < firsts; i++)
        for (int j = 0; j < seconds; j++) {
            const uint64_t *row = set + place(left, right, first[i], second[j]);
            for (int w = 0; w < words; w++)
                if (row[w] & can[2][w]) {
                    to[0] = first[i], to[1] = second[j];
                    to[2] = w * 64 + __builtin_ctzll(row[w] & can[2][w]);
                    return 1;
                }
        }
    return 0;
}

struct counts {
    long all, open, breaking;
};

/* The configurations that are not locked; and how many locked ones do not stay so. */
static struct counts fill_first(uint64_t *set) {
    struct counts found = {0, 0, 0};
    struct config c;
    for (c.left = 0; c.left < left_numbers; c.left++)
        for (c.right = 0; c.right < right_numbers; c.right++)
            for (int a = 0; a < states; a++)
                for (int b = 0; b < states; b++) {
                    uint64_t *row = set + place(c.left, c.right, a, b);
                    c.at[0] = unpacked(a), c.at[1] = unpacked(b);
                    for (int s = 0; s < states; s++) {
                        c.at[2] = unpacked(s), found.all++;
                        if (is_locked(&c)) found.breaking += !stays_locked(&c);
                        else row[s / 64] |= (uint64_t)1 << s % 64, found.open++;
                    }
                }
    return found;
}

/* Of a set those from which the liar can lead into it again; how many. */
static long fill_next(const uint64_t *set, uint64_t *next) {
    long found = 0;
    struct config c;
    int to[3];
    for (c.left = 0; c.left < left_numbers; c.left++)
        for (c.right = 0; c.right < right_numbers; c.right++)
            for (int a = 0; a < states; a++)
                for (int b = 0; b < states; b++) {
                    size_t at = place(c.left, c.right, a, b);
                    c.at[0] = unpacked(a), c.at[1] = unpacked(b);
                    for (int s = 0; s < states; s++) {
                        c.at[2] = unpacked(s);
                        if (!has_state(set + at, s) || !leads_into(&c, set, to)) continue;
                        next[at + (size_t)(s / 64)] |= (uint64_t)1 << s % 64, found++;
                    }
                }
    return found;
}

/* The words. */

static uint64_t *empty_set(void) {
    uint64_t *set = calloc(size_of_set(), 8);
    if (set == NULL) puts("no memory"), exit(10);
    return set;
}

/* Goes back until no configuration is left, and gives how many rounds that are. The sets are kept
 * if there is an array for them. */
static int search(uint64_t **kept) {
    uint64_t *set = empty_set();
    struct counts first = fill_first(set);
    long open = first.open;
    printf("# %ld configurations, %ld not locked, %ld locked ones do not stay so\n", first.all,
           open, first.breaking);
    for (int k = 0;; k++) {
        uint64_t *next = empty_set();
        if (kept) kept[k] = set;
        long left = fill_next(set, next);
        printf("# after %d rounds the liar keeps %ld open\n", k + 1, left);
        fflush(stdout);
        if (left == 0) return k + 1;
        if (left == open) return -1;
        if (!kept) free(set);
        set = next, open = left;
    }
}

static void answer(void) {
    int latest = search(NULL);
    printf("modulus %d faulty %d shares %d %d: ", count, bad, right_share, left_share);
    if (latest < 0) puts("the liar keeps them open for ever");
    else printf("locked at %d at the latest\n", latest);
}

static void put_digits(int v, const struct state *s) {
    uint8_t bytes[MOST_BYTES];
    write_state(v, s, bytes);
    for (int i = 0; i < bytes_of[v]; i++) printf("%02x", bytes[i]);
}

/* The last configuration of a set, in the order of its numbers. */
static struct config last_of(const uint64_t *set) {
    size_t at = size_of_set() - 1;
    while (set[at] == 0) at--;
    int s = (int)(at % (size_t)words) * 64 + 63 - __builtin_clzll(set[at]);
    size_t row = at / (size_t)words;
    struct config c = {{{0}}, 0, 0};
    c.at[2] = unpacked(s);
    c.at[1] = unpacked((int)(row % (size_t)states)), row /= (size_t)states;
    c.at[0] = unpacked((int)(row % (size_t)states)), row /= (size_t)states;
    c.right = (int)(row % (size_t)right_numbers), c.left = (int)(row / (size_t)right_numbers);
    return c;
}

/* Writes the lie that brings a node to a state. */
static void put_lie(const struct config *c, int v, int round, int to) {
    struct message m;
    for (m.value = count; m.value >= 0; m.value--)
        for (m.seen = 0; m.seen < period; m.seen++)
            for (m.number = 0; m.number < numbers_of_liar(); m.number++)
                if (packed(stepped(c, v, m)) == to) {
                    struct state s = liar_state(m);
                    printf("lie %d %d %d to %d %d hex ", round, round, bad, correct[v], correct[v]);
                    put_digits(bad, &s), puts("");
                    return;
                }
}

static void put_script(void) {
    static uint64_t *kept[1000];
    int latest = search(kept), to[3];
    if (latest < 1) exit(1);
    struct config c = last_of(kept[latest - 1]);
    printf("halving 1\ngroup 4 1 %d\nend\nscript 1\nfaulty %d\nstart zero\n", count, bad);
    for (int u = 0; u < 3; u++) {
        struct state s = correct_state(&c, u);
        printf("start node %d ", correct[u]), put_digits(correct[u], &s), puts("");
    }
    for (int round = 0; round < latest - 1; round++) {
        if (!leads_into(&c, kept[latest - 2 - round], to)) exit(1);
        for (int v = 0; v < 3; v++) put_lie(&c, v, round, to[v]);
        for (int v = 0; v < 3; v++) c.at[v] = unpacked(to[v]);
        c.left = next_left(c.left), c.right = next_right(c.right);
    }
    printf("rounds %d\nshow 0 %d\nend\n", latest, latest);
}

static void put_vectors(int number) {
    printf("vectors 1\nhalving 1\ngroup 4 1 %d\nend\n", count);
    for (int i = 0; i < number; i++) {
        struct config c = drawn_config();
        struct message m = {rand() % (count + 1), rand() % period, rand() % numbers_of_liar()};
        int v = rand() % 3;
        if (rand() % 3) m.seen = c.at[v].seen;
        struct config next = c;
        next.at[v] = stepped(&c, v, m);
        next.left = next_left(c.left), next.right = next_right(c.right);
        struct state own = correct_state(&c, v), new = correct_state(&next, v);
        struct state liar = liar_state(m);
        printf("node %d state ", correct[v]), put_digits(correct[v], &own), printf("\ncells");
        for (int u = 0, place = 0; u < 4; u++) {
            struct state s = u == bad ? liar : correct_state(&c, place++);
            putchar(' '), put_digits(u, &s);
        }
        printf("\nnext "), put_digits(correct[v], &new), puts("");
    }
}

int main(int given, char **words_given) {
    int is_script = given == 4 && strcmp(words_given[1], "script") == 0;
    int is_vectors = given == 5 && strcmp(words_given[1], "vectors") == 0;
    char **numbers = words_given + (is_script || is_vectors ? 2 : 1);
    if (given < 3) return 2;
    int share = is_vectors || given < 4 || is_script ? 5 : atoi(words_given[3]);
    int after = is_vectors || given < 5 ? 3 : atoi(words_given[4]);
    begin(atoi(numbers[0]), atoi(numbers[1]), share, after);
    if (is_script) put_script();
    else if (is_vectors) put_vectors(atoi(words_given[4]));
    else answer();
    return 0;
}
