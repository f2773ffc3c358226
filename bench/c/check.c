/* Reads the certificate of a run line by line, plays the run that it states and judges its rows, as
 * the word `check` does. A line that no certificate has there is refused.
 *
 *   gcc -O2 -o check bench/c/check.c && ./record < bench/inputs/demo_seven.txt > demo_seven.cert
 *   time ./check < demo_seven.cert
 */
#include "counter.h"

#define MOST_FAULTY 85
#define LONGEST_LINE 4096

static char buffer[1 << 16], *line, *line_end;
static size_t from, held;
static uint64_t line_number;

static int run_version, faulty[MOST_FAULTY], faulty_count;
static char is_faulty[MOST_NODES], was_faulty[MOST_NODES];
static struct state configs[2][MOST_NODES], *config = configs[0], *next = configs[1];
static struct state told[MOST_FAULTY][MOST_NODES];

static void refuse(void) {
    end = 0;
    put_text("refused certificate line "), put_number(line_number), put_byte('\n');
    pass_on();
    exit(4);
}

/* Takes the next line; 0 if no byte is left. */
static int take_line(void) {
    char *found;
    line_number++;
    while (!(found = memchr(buffer + from, '\n', held - from))) {
        if (held - from > LONGEST_LINE) refuse();
        memmove(buffer, buffer + from, held - from);
        held -= from, from = 0;
        ssize_t got = read(0, buffer + held, sizeof buffer - held);
        if (got < 0) exit(6);
        if (got == 0 && held == 0) return 0;
        if (got == 0) refuse();
        held += (size_t)got;
    }
    line = buffer + from, line_end = found;
    *line_end = 0;
    from = (size_t)(found - buffer) + 1;
    if (line_end - line > LONGEST_LINE) refuse();
    return 1;
}

static void want_line(void) {
    if (!take_line()) refuse();
}

/* Takes a text from the front of the line, if it is there. */
static int takes(const char *text) {
    size_t length = strlen(text);
    if ((size_t)(line_end - line) < length || memcmp(line, text, length) != 0) return 0;
    line += length;
    return 1;
}

static void want(const char *text) {
    if (!takes(text)) refuse();
}

static void want_end(void) {
    if (line != line_end) refuse();
}

static uint64_t number(void) {
    uint64_t value = 0;
    char *begin = line;
    while (*line >= '0' && *line <= '9' && line - begin < 16)
        value = value * 10 + (uint64_t)(*line++ - '0');
    if (line == begin || line - begin > 15 || (*begin == '0' && line - begin > 1)) refuse();
    return value;
}

static int id(void) {
    uint64_t value = number();
    if (value >= (uint64_t)nodes) refuse();
    return (int)value;
}

/* The state of a node to the end of the line. */
static void state(int v, struct state *s) {
    if (line_end - line != 2 * bytes_of[v] || !read_hex(v, line, s)) refuse();
}

static void read_level(void) {
    uint64_t k = number(), f, c, s = 0, span;
    want(" "), f = number(), want(" "), c = number();
    if (run_version == 3) want(" spare "), s = number();
    want_end();
    if (k > 16 || f > 85 || c > (uint64_t)1 << 40 || s > 256) refuse();
    uint64_t n = k * (uint64_t)nodes + s, m = (k + 1) / 2;
    if (n > 256 || k < 3 || c < 2 || n <= 3 * f || f >= (uint64_t)(faults + 1) * m) refuse();
    span = 3 * (f + 2);
    for (uint64_t i = 0; i < k && span <= modulus; i++) span *= 2 * m;
    if (span > modulus || modulus % span != 0) refuse();
    put_level((int)k, (int)f, c, (int)s);
}

static void read_faulty(void) {
    memcpy(was_faulty, is_faulty, sizeof is_faulty);
    memset(is_faulty, 0, sizeof is_faulty);
    faulty_count = 0;
    while (takes(" ")) {
        int u = id();
        if (faulty_count >= faults || (faulty_count > 0 && u <= faulty[faulty_count - 1])) refuse();
        faulty[faulty_count++] = u;
        is_faulty[u] = 1;
    }
    want_end();
}

/* The line of a start after that of `above`, which may not leave out a node that needs one. */
static int read_start(int above) {
    int v = id();
    if (v <= above || is_faulty[v]) refuse();
    for (int u = above + 1; u < v; u++)
        if (was_faulty[u] && !is_faulty[u]) refuse();
    want(" ");
    state(v, &config[v]);
    return v;
}

static void read_starts(void) {
    int above = -1;
    for (want_line(); takes("start "); want_line()) above = read_start(above);
    for (int u = above + 1; u < nodes; u++)
        if (was_faulty[u] && !is_faulty[u]) refuse();
}

static void read_head(void) {
    want_line(), want("run "), run_version = (int)number();
    if (run_version < 1 || run_version > 3) refuse();
    want_end();
    want_line(), want("base "), put_base(number());
    if (base > (uint64_t)1 << 40 || base < 2) refuse();
    want_end();
    for (want_line(); takes("level "); want_line()) read_level();
    end_plan(0, 0);
    want("faulty"), read_faulty();
    memset(was_faulty, 1, sizeof was_faulty);
    read_starts();
}

/* Reads row t, which stands in the line; whether it shows the outputs of the configuration. */
static int read_row(uint64_t t) {
    int is_same = 1;
    want("row ");
    if (number() != t) refuse();
    for (int v = 0; v < nodes; v++) {
        want(" ");
        if (is_faulty[v]) want("*");
        else if (number() != shown(&config[v], depth)) is_same = 0;
    }
    want_end();
    return is_same;
}

/* Reads the lies of a round, the first of which stands in the line, if there are any. */
static void read_lies(void) {
    for (int i = 0; i < faulty_count; i++)
        for (int v = 0; v < nodes; v++) {
            if (is_faulty[v]) continue;
            want("lie ");
            if (id() != faulty[i]) refuse();
            want(" ");
            if (id() != v) refuse();
            want(" ");
            state(faulty[i], &told[i][v]);
            want_line();
        }
}

static void play(void) {
    for (int u = 0; u < nodes; u++)
        if (!is_faulty[u]) hear(u, &config[u]);
    for (int v = 0; v < nodes; v++) {
        if (is_faulty[v]) continue;
        for (int i = 0; i < faulty_count; i++) hear(faulty[i], &told[i][v]);
        step(v, &config[v], &next[v]);
    }
    struct state *spare = config;
    config = next, next = spare;
}

static int is_locked(void) {
    const struct reg *one = NULL;
    for (int v = 0; v < nodes && depth > 0; v++) {
        const struct reg *top = &config[v].regs[depth - 1];
        if (is_faulty[v]) continue;
        if (top->value == INFINITE || !top->marked || (one && one->value != top->value)) return 0;
        one = top;
    }
    return 1;
}

static int put_verdict(uint64_t rows, uint64_t differs, uint64_t locked) {
    if (differs != UINT64_MAX) {
        put_text("false row "), put_number(differs);
    } else {
        put_text("true rows "), put_number(rows), put_text(" locked ");
        if (locked == UINT64_MAX) put_text("none");
        else put_number(locked);
    }
    put_byte('\n');
    pass_on();
    return differs == UINT64_MAX ? 0 : 5;
}

int main(void) {
    uint64_t differs = UINT64_MAX, locked = UINT64_MAX, t = 0;
    int eras = 0;
    read_head();
    for (;; t++) {
        if (t > 1000000) refuse();
        if (!read_row(t) && differs == UINT64_MAX) differs = t;
        if (locked == UINT64_MAX && is_locked()) locked = t;
        want_line();
        if (takes("end")) break;
        if (t == 1000000) refuse();
        read_lies();
        play();
        if (run_version > 1 && takes("era ")) {
            if (++eras > 16 || number() != t + 1) refuse();
            locked = UINT64_MAX;
            read_faulty();
            read_starts();
        }
    }
    want_end();
    if (take_line()) refuse();
    return put_verdict(t + 1, differs, locked);
}
