/* Writes the certificate of a script's run, as the word `record` does.
 *
 *   gcc -O2 -o record bench/c/record.c && time ./record < bench/inputs/demo_seven.txt > demo_seven.cert
 */
#include "script.h"

static void put_ids(const char *word, const struct era *era) {
    put_text(word);
    for (int i = 0; i < era->count; i++) put_byte(' '), put_number((uint64_t)era->faulty[i]);
    put_byte('\n');
}

static void put_start(int v) {
    put_text("start "), put_number((uint64_t)v), put_byte(' ');
    put_state(v, &config[v]);
    put_byte('\n');
}

static void put_head(void) {
    put_text("run "), put_number(version == 2 ? 3 : (uint64_t)script_version);
    put_text("\nbase "), put_number(base), put_byte('\n');
    for (int l = 0; l < depth; l++) {
        put_text("level "), put_number((uint64_t)levels[l].blocks);
        put_byte(' '), put_number((uint64_t)levels[l].faults);
        put_byte(' '), put_number(levels[l].modulus);
        if (version == 2) put_text(" spare "), put_number((uint64_t)levels[l].spares);
        put_byte('\n');
    }
    put_ids("faulty", &eras[0]);
    for (int v = 0; v < nodes; v++)
        if (!eras[0].is_faulty[v]) put_start(v);
}

static void put_lies(uint64_t t, const struct era *era) {
    struct state told;
    for (int i = 0; i < era->count; i++)
        for (int v = 0, u = era->faulty[i]; v < nodes; v++) {
            if (era->is_faulty[v]) continue;
            lie(t, u, v, &told);
            put_text("lie "), put_number((uint64_t)u), put_byte(' ');
            put_number((uint64_t)v), put_byte(' ');
            put_state(u, &told);
            put_byte('\n');
        }
}

/* An era that begins: its faulty nodes, and the states of those that are correct now and were
 * faulty before, or are put into states. */
static void put_era(const struct era *before, const struct era *era) {
    char word[32];
    snprintf(word, sizeof word, "era %llu", (unsigned long long)era->at);
    put_ids(word, era);
    for (int v = 0; v < nodes; v++)
        if (!era->is_faulty[v] && (before->is_faulty[v] || era->is_hit[v])) put_start(v);
}

int main(void) {
    struct era *era = eras, *before = eras;
    read_input();
    read_plan();
    end_plan(0, 0);
    read_script();
    start_all();
    put_head();
    for (uint64_t t = 0;; t++) {
        if (era != before) put_era(before, era);
        put_row(t, era);
        if (t == rounds) break;
        put_lies(t, era);
        before = era;
        era = play(t, era, NULL);
    }
    put_text("end\n");
    pass_on();
    return 0;
}
