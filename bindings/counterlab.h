/* The proved step of a node, for C99 and later, and C++. Link libcounterlab.a, which install.sh
 * makes, by `pkg-config --libs counterlab`; or libcounterlab_c.a, and after it the kit's
 * c/liblibc_c.a.
 *
 * Each function reads its plan's text anew and keeps nothing: no call hangs on another, calls from
 * several threads need no lock, nothing has to be freed. Any bytes and any numbers may be given.
 *
 * What the caller owes: each pointer has as many bytes as its length says, and is not null, at the
 * length 0 either; what is written overlaps nothing else that is given, and nobody else writes what
 * is given while the call runs. A call takes memory by malloc and gives back all of it before it
 * returns; so it must not be made from a signal handler. */
#ifndef COUNTERLAB_H
#define COUNTERLAB_H
#include <stddef.h>
#include <stdint.h>

#define COUNTERLAB_VERSION "2.0" /* of the repository: its file VERSION */

/* What a call answers. */
struct counterlab_answer {
    uint32_t code;   /* one of those below */
    uint32_t detail; /* if the code says so, else 0 */
    uint64_t value;  /* the answer, or if the code says so, else 0 */
};

/* The codes are those by which the program `counterlab` ends for the like. After any but the first
 * nothing was written. */
enum {
    COUNTERLAB_OK = 0,        /* value: the answer */
    COUNTERLAB_PLAN = 1,      /* the plan is refused. value: its first line that fails, from 1;
                                 detail: the premise that this line fails */
    COUNTERLAB_ARGUMENT = 3,  /* detail: the argument that is wrong */
    COUNTERLAB_TOO_LONG = 8,  /* there are more than 1,000,000 packets */
    COUNTERLAB_CUT = 9,       /* the bytes end inside a packet. value: this packet, from 0;
                                 detail: the first node whose cell is not whole */
    COUNTERLAB_NO_MEMORY = 10 /* malloc or realloc gave none */
};

/* Wrong arguments: the plan has no such node; the state has another length than the node's. */
enum { COUNTERLAB_NO_NODE = 1, COUNTERLAB_LENGTH = 2 };

/* The premises of a line of a plan. Those of one construction are tested in this order. */
enum {
    COUNTERLAB_FORM = 1,
    COUNTERLAB_LIMIT,
    COUNTERLAB_BLOCKS,
    COUNTERLAB_MODULUS,
    COUNTERLAB_QUORUM,
    COUNTERLAB_SHARE,
    COUNTERLAB_MULTIPLE,
    COUNTERLAB_SINGLE /* of a halving plan: it tolerates no faults, and has more than one node */
};

/* What an answer's code and detail say, in words for a person. The text is a constant: never null,
 * and nobody frees it. */
static inline const char *counterlab_told(uint32_t code, uint32_t detail) {
    switch (code) {
    case COUNTERLAB_OK: return "answered";
    case COUNTERLAB_PLAN:
        switch (detail) {
        case COUNTERLAB_FORM: return "refused by form: the line is not one that may stand there";
        case COUNTERLAB_LIMIT: return "refused by limit: a number is too large";
        case COUNTERLAB_BLOCKS: return "refused by blocks: a level has fewer than three";
        case COUNTERLAB_MODULUS: return "refused by modulus: it is below 2";
        case COUNTERLAB_QUORUM: return "refused by quorum: too few nodes for so many faults";
        case COUNTERLAB_SHARE: return "refused by share: its blocks tolerate too few faults";
        case COUNTERLAB_MULTIPLE:
            return "refused by multiple: the modulus below is no multiple of the span";
        case COUNTERLAB_SINGLE: return "refused by single: no faults, but more than one node";
        default: return "the plan is refused";
        }
    case COUNTERLAB_ARGUMENT:
        switch (detail) {
        case COUNTERLAB_NO_NODE: return "the plan has no such node";
        case COUNTERLAB_LENGTH: return "the state has another length than the node's";
        default: return "an argument is wrong";
        }
    case COUNTERLAB_TOO_LONG: return "there are more than 1,000,000 packets";
    case COUNTERLAB_CUT: return "the bytes end inside a packet";
    case COUNTERLAB_NO_MEMORY: return "memory was refused";
    default: return "no code of this library";
    }
}

/* What the first line of a plan may be, that is not skipped: if line 1 is refused by form. */
static inline const char *counterlab_first_line(void) {
    return "`plan 1`, `plan 2` or `halving 1`";
}

/* The numbers of a plan. */
struct counterlab_plan_numbers {
    uint32_t nodes;   /* 1 to 256; their ids are 0 to nodes - 1 */
    uint32_t faults;  /* so many nodes may be faulty */
    uint64_t modulus; /* outputs count by it */
    uint64_t bound;   /* after so many rounds */
};

/* No state has more bytes than this. */
#define COUNTERLAB_MOST_BYTES 128

#ifdef __cplusplus
extern "C" {
#endif

/* Reads a plan and writes its numbers; value: 0. */
struct counterlab_answer counterlab_plan(const uint8_t *plan, size_t plan_size,
                                         struct counterlab_plan_numbers *numbers);

/* value: how many bytes a state of node `id` has. */
struct counterlab_answer counterlab_state_bytes(const uint8_t *plan, size_t plan_size, uint32_t id);

/* value: what node `id` shows in this state. */
struct counterlab_answer counterlab_output(const uint8_t *plan, size_t plan_size, uint32_t id,
                                           const uint8_t *state, size_t state_size);

/* Steps node `id` after each packet, and puts its new state in the place of the old one; value:
 * how many packets there were. A packet is a cell of each node, that of node 0 first; a cell is two
 * bytes of length, the high one first, and so many bytes of state. If that length is not that of
 * the sender's states, as 0 for a message that did not come, the zero state is heard. The own cell
 * is not looked at. The state may have any contents; no packet at all brings it into range. */
struct counterlab_answer counterlab_step(const uint8_t *plan, size_t plan_size, uint32_t id,
                                         uint8_t *state, size_t state_size,
                                         const uint8_t *packets, size_t packets_size);

#ifdef __cplusplus
}
#endif
#endif
