/* Plays a script with a register of agreement and writes what its slots decide, as the word
 * `consensus` does, of `counterlab`, or of `halvinglab`.
 *
 *   gcc -O2 -o consensus bench/c/consensus.c && time ./consensus < bench/inputs/consensus_twelve.txt
 *   gcc -O2 -DHALVING -o halving_consensus bench/c/consensus.c
 */
#ifdef HALVING
#include "halving_script.h"
#else
#include "script.h"
#endif

static uint64_t inputs[MOST_NODES], decisions[MOST_NODES], slot;

static void read_agree(void) {
    uint64_t count;
    next_line(), want("agree", 2);
    next_line(), want("values", 2), count = number_at(1);
    next_line(), want("inputs", 1 + nodes);
    for (int v = 0; v < nodes; v++) inputs[v] = number_at(1 + v);
    next_line(), want("end", 1);
    end_plan(1, count);
    slot = 3 * (uint64_t)(faults + 1);
    if (modulus % slot != 0) exit(1);
}

static void agree(int v, struct state *new) {
    uint64_t turn = output_of(&config[v]) % slot;
    struct reg r = instruct((int)turn, *layer_of(&config[v]), layer_heard(), nodes, faults);
    if (turn == slot - 1) {
        decisions[v] = r.value;
        r = (struct reg){inputs[v], 0};
    }
    *layer_of(new) = r;
}

static void put_slot(uint64_t begin, const struct era *era) {
    put_text("slot "), put_number(begin);
    for (int v = 0; v < nodes; v++) {
        put_byte(' ');
        if (era->is_faulty[v]) put_byte('*');
        else put_number(decisions[v]);
    }
    put_byte('\n');
}

/* The output of the lowest correct node. */
static uint64_t lowest(const struct era *era) {
    int v = 0;
    while (v < nodes - 1 && era->is_faulty[v]) v++;
    return output_of(&config[v]);
}

int main(void) {
    struct era *era = eras;
    uint64_t begin = UINT64_MAX;
    read_input();
    read_plan();
    read_agree();
    read_script();
    begin_run();
    for (uint64_t t = 0;; t++) {
        look(t, era);
        /* From the bound on the outputs count, so within an era slots follow one another. */
        if (begin != UINT64_MAX && begin + slot == t && begin > era->at + bound &&
            shown_from <= begin && begin <= shown_to)
            put_slot(begin, era);
        if (t > era->at + bound && lowest(era) % slot == 0) begin = t;
        if (t == rounds) break;
        era = play(t, era, agree);
    }
    put_locks();
    pass_on();
    return 0;
}
