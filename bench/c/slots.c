/* Plays a script and writes which nodes hold in each configuration, as the word `slots` does.
 *
 *   gcc -O2 -o slots bench/c/slots.c && time ./slots < bench/inputs/slots_twelve.txt > /dev/null
 */
#include "script.h"

struct stretch {
    int node;
    uint64_t from, to;
};

static struct stretch stretches[256];
static int count;

static void read_slots(void) {
    next_line(), want("slots", 2);
    for (next_line(); is_line("slot", 4) && count < 256; next_line(), count++)
        stretches[count] = (struct stretch){id_at(1), number_at(2), number_at(3)};
    want("end", 1);
}

static int holds(int v) {
    uint64_t output = shown(&config[v], depth);
    for (int i = 0; i < count; i++)
        if (stretches[i].from <= output && output <= stretches[i].to)
            return stretches[i].node == v;
    return 0;
}

int main(void) {
    struct era *era = eras;
    read_input();
    read_plan();
    end_plan(0, 0);
    read_slots();
    read_script();
    begin_run();
    for (uint64_t t = 0;; t++) {
        look(t, era);
        if (shown_from <= t && t <= shown_to) {
            put_text("hold "), put_number(t);
            for (int v = 0; v < nodes; v++)
                put_text(era->is_faulty[v] ? " *" : holds(v) ? " 1" : " .");
            put_byte('\n');
        }
        if (t == rounds) break;
        era = play(t, era, NULL);
    }
    put_locks();
    pass_on();
    return 0;
}
