/* Plays a script and writes its rows, as the word `run` does.
 *
 *   gcc -O2 -o run bench/c/run.c && time ./run < bench/inputs/twelve_nodes.txt
 */
#include "script.h"

int main(void) {
    struct era *era = eras;
    read_input();
    read_plan();
    end_plan(0, 0);
    read_script();
    begin_run();
    for (uint64_t t = 0;; t++) {
        look(t, era);
        if (shown_from <= t && t <= shown_to) put_row(t, era);
        if (t == rounds) break;
        era = play(t, era, NULL);
    }
    put_locks();
    pass_on();
    return 0;
}
