/* Plays a script on a halving plan, and writes what `halvinglab run` writes. With two numbers it
 * plays the script with the keys of COUNT numbers from FIRST on, and writes when each era locks,
 * as `sweep` does on a boosting plan.
 *
 *   gcc -O2 -o halving_run bench/c/halving_run.c
 *   ./halving_run < PLAN_AND_SCRIPT
 *   ./halving_run FIRST COUNT < PLAN_AND_SCRIPT
 */
#include "halving_script.h"

static void play_all(int shows) {
    struct era *era = eras;
    start_all();
    for (uint64_t t = 0;; t++) {
        look(t, era);
        if (shows && shown_from <= t && t <= shown_to) put_row(t, era);
        if (t == rounds) break;
        era = play(t, era, NULL);
    }
}

static void take_key(uint64_t number) {
    char text[65];
    snprintf(text, sizeof text, "%016llx%048d", (unsigned long long)number, 0);
    memset(key, 0, sizeof key);
    read_key(text);
    memset(streams, 0, (size_t)(nodes * nodes) * sizeof *streams);
    for (int i = 0; i < era_count; i++) eras[i].is_locked = 0;
}

/* For each era when it locks, in how many runs, and the first number that does; `none` last. */
static void sweep(uint64_t first, uint64_t count) {
    struct found { uint64_t runs, seed; } *found = calloc((rounds + 2) * MOST_ERAS, sizeof *found);
    for (uint64_t number = first; number < first + count; number++) {
        take_key(number);
        play_all(0);
        for (int i = 0; i < era_count; i++) {
            uint64_t at = eras[i].is_locked ? eras[i].locked : rounds + 1;
            struct found *one = &found[at * MOST_ERAS + (uint64_t)i];
            if (one->runs++ == 0) one->seed = number;
        }
    }
    for (int i = 0; i < era_count; i++)
        for (uint64_t at = 0; at <= rounds + 1; at++) {
            struct found *one = &found[at * MOST_ERAS + (uint64_t)i];
            if (one->runs == 0) continue;
            put_text("era "), put_number(eras[i].at), put_text(" locked ");
            if (at > rounds) put_text("none");
            else put_number(at);
            put_text(" runs "), put_number(one->runs);
            put_text(" seed "), put_number(one->seed), put_byte('\n');
        }
}

int main(int count, char **words) {
    if (count != 1 && count != 3) return 2;
    read_input();
    read_plan();
    end_plan(0, 0);
    read_script();
    begin_run();
    if (count == 3) sweep(strtoull(words[1], 0, 10), strtoull(words[2], 0, 10));
    else play_all(1), put_locks();
    pass_on();
    return 0;
}
