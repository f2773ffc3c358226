/* A node of a counter over UDP, a process of its own. It steps by the proved step of the library;
 * nothing else of this file is proved. docs/DEPLOY.md says why it does what it does, and what to do
 * about what it prints.
 *
 *   gcc -std=c11 -O2 -I bindings -o node examples/udp/node.c \
 *       crates/counterlab_c/out/libcounterlab_c.a KIT/c/liblibc_c.a
 *   ./node [-p] [--state FILE] PLAN PEERS ID WAIT < TICKS
 *   ./node PLAN                              prints the numbers of the plan
 *
 * PLAN is a plan's file. PEERS has a line for each node, that of node 0 first: its IPv4 address and
 * its port. A round begins when a byte comes on standard input, the tick, which all nodes get at
 * about the same time; what the byte is tells nothing. The node then steps from what came in since
 * the last tick, WAIT milliseconds later sends its new state to each other node, and then prints
 *
 *   TICKS NUMBER SURE HEARD AGREEING OTHER STRANGE
 *
 * TICKS is how many ticks came since the line before, 1 if it missed none. NUMBER is what it shows.
 * Only while SURE is 1 should a system act on NUMBER: the node then knows of no disturbance within
 * the last T rounds, N - F states that it heard showed what its own did, and it counts by one.
 * HEARD is how many states it stepped from, its own among them, or -1 if memory was refused, so
 * that it did not step, or NUMBER is not known. AGREEING is how many of these showed what its own
 * did before the step. OTHER is how many nodes sent a message of another plan, STRANGE how many
 * datagrams came from no address of PEERS. With -p each line has its new state, too, and the states
 * that came from each node, - if none did.
 *
 * It begins in the state that FILE has, else in one of random bytes: any will do. FILE has its
 * newest state at all times, and no second node has it as long as the first one runs. */
#define _DEFAULT_SOURCE
#include "counterlab.h"
#include <arpa/inet.h>
#include <errno.h>
#include <fcntl.h>
#include <inttypes.h>
#include <poll.h>
#include <signal.h>
#include <stdbool.h>
#include <stdio.h>
#include <stdlib.h>
#include <string.h>
#include <sys/file.h>
#include <sys/socket.h>
#include <time.h>
#include <unistd.h>

/* How it ends, and never by itself but so. After the first three a start with the same words and
 * files ends so again. */
enum {
    REFUSED = 1, /* the plan, or PEERS, or the id */
    USAGE = 2,
    TAKEN = 3,   /* another process has the port or FILE: most likely this node runs already */
    FAILED = 4,  /* a call of the system */
    NO_TICKS = 5 /* the ticks ended */
};

enum {
    NODES = 256,
    READS = 4096, /* datagrams that are read at once: nobody keeps a node from its tick */
    DIGEST = 8,   /* bytes of the plan's digest, before the state in each message */
    LONGEST = DIGEST + COUNTERLAB_MOST_BYTES + 1 /* what is longer is cut to this: no message */
};

static uint8_t plan[1 << 16], digest[DIGEST], state[COUNTERLAB_MOST_BYTES];
static size_t plan_size, sizes[NODES]; /* of a state of each node */
static struct counterlab_plan_numbers numbers;
static uint32_t id;
static struct sockaddr_in peers[NODES];
static int link_to_all, state_file = -1;

struct states {
    size_t size[NODES]; /* 0 if none came */
    uint8_t bytes[NODES][COUNTERLAB_MOST_BYTES];
    bool is_other[NODES]; /* the sender's last message is of another plan */
    int strange;
};

/* The last message of each sender since the last tick, and those of the round before that. */
static struct states coming, heard;

/* What a round was, as it is printed. */
struct round {
    ssize_t ticks;
    uint64_t number;
    int states, agreeing; /* -1, 0 if memory was refused */
    bool is_steady;       /* the number is one more than that before the step */
};

static void die(const char *what) {
    int why = errno;
    fprintf(stderr, "node: %s: %s\n", what, strerror(why));
    exit(why == EADDRINUSE || why == EWOULDBLOCK ? TAKEN : FAILED);
}

static void refuse(const char *what, const char *why) {
    fprintf(stderr, "node: %s: %s\n", what, why);
    exit(REFUSED);
}

static void refuse_answer(const char *what, struct counterlab_answer a) {
    fprintf(stderr, "node: %s: code %u, detail %u, value %" PRIu64 "\n", what, a.code, a.detail,
            a.value);
    exit(REFUSED);
}

static long number(const char *text, long least, long most) {
    char *end;
    long n = strtol(text, &end, 10);
    if (end != text && !*end && least <= n && n <= most) return n;
    fprintf(stderr, "node: %s is no number from %ld to %ld\n", text, least, most);
    exit(REFUSED);
}

/* ---- what it is given */

/* A digest tells plans apart that differ by mistake; it keeps no liar from naming the same one. */
static void make_digest(void) {
    uint64_t mixed = 0xcbf29ce484222325; /* FNV-1a, 64 bits */
    for (size_t i = 0; i < plan_size; i++) mixed = (mixed ^ plan[i]) * 0x100000001b3;
    for (int i = 0; i < DIGEST; i++) digest[i] = (uint8_t)(mixed >> (56 - 8 * i));
}

static void read_plan(const char *path) {
    FILE *file = fopen(path, "rb");
    if (!file) refuse(path, strerror(errno));
    plan_size = fread(plan, 1, sizeof plan, file);
    fclose(file);
    struct counterlab_answer a = counterlab_plan(plan, plan_size, &numbers);
    if (a.code) refuse_answer("plan", a);
    for (uint32_t u = 0; u < numbers.nodes; u++) {
        a = counterlab_state_bytes(plan, plan_size, u);
        if (a.code) refuse_answer("state_bytes", a);
        sizes[u] = a.value;
    }
    make_digest();
}

static void read_peers(const char *path) {
    char address[64], more[2];
    unsigned port;
    FILE *file = fopen(path, "r");
    if (!file) refuse(path, strerror(errno));
    for (uint32_t u = 0; u < numbers.nodes; u++) {
        peers[u].sin_family = AF_INET;
        if (fscanf(file, "%63s %u", address, &port) != 2 || port < 1 || port > 65535 ||
            inet_pton(AF_INET, address, &peers[u].sin_addr) != 1)
            refuse(path, "it wants an IPv4 address and a port for each node");
        peers[u].sin_port = htons((uint16_t)port);
    }
    if (fscanf(file, "%1s", more) == 1) refuse(path, "it has more lines than the plan has nodes");
    fclose(file);
}

static void begin_anywhere(void) {
    FILE *file = fopen("/dev/urandom", "rb");
    if (!file || fread(state, sizes[id], 1, file) != 1) die("/dev/urandom");
    fclose(file);
}

/* Opens the file of the state and keeps it for this process alone; whether it has a state. */
static bool open_state(const char *path) {
    uint8_t held[COUNTERLAB_MOST_BYTES + 1];
    if ((state_file = open(path, O_RDWR | O_CREAT | O_CLOEXEC, 0600)) < 0) die(path);
    if (flock(state_file, LOCK_EX | LOCK_NB)) die(path);
    if (pread(state_file, held, sizeof held, 0) != (ssize_t)sizes[id]) {
        if (ftruncate(state_file, 0)) die(path);
        return false;
    }
    memcpy(state, held, sizes[id]);
    return true;
}

/* ---- messages */

/* One socket, on the own address and port. It has no SO_REUSEADDR, so that no second node, and no
 * other user of this machine, gets the port beside it. */
static void open_link(void) {
    int room = 1 << 20;
    if ((link_to_all = socket(AF_INET, SOCK_DGRAM | SOCK_NONBLOCK | SOCK_CLOEXEC, 0)) < 0)
        die("socket");
    setsockopt(link_to_all, SOL_SOCKET, SO_RCVBUF, &room, sizeof room);
    if (bind(link_to_all, (struct sockaddr *)&peers[id], sizeof peers[id])) die("bind");
}

/* The node that has this address and port, or -1. */
static int sender(const struct sockaddr_in *from) {
    for (uint32_t u = 0; u < numbers.nodes; u++)
        if (u != id && from->sin_addr.s_addr == peers[u].sin_addr.s_addr &&
            from->sin_port == peers[u].sin_port)
            return (int)u;
    return -1;
}

static void take(int u, const uint8_t *message, size_t size) {
    coming.size[u] = 0;
    coming.is_other[u] = size < DIGEST || memcmp(message, digest, DIGEST) != 0;
    if (coming.is_other[u] || size - DIGEST != sizes[u]) return;
    coming.size[u] = sizes[u];
    memcpy(coming.bytes[u], message + DIGEST, sizes[u]);
}

/* Takes what came. It is called as soon as something does, so that one who sends much does not fill
 * the queue that all senders share. */
static void take_all(void) {
    for (int i = 0; i < READS; i++) {
        uint8_t message[LONGEST];
        struct sockaddr_in from;
        socklen_t length = sizeof from;
        ssize_t got = recvfrom(link_to_all, message, sizeof message, 0, (struct sockaddr *)&from,
                               &length);
        if (got < 0 && errno != EINTR && errno != ECONNREFUSED) return;
        if (got < 0) continue;
        int u = length == sizeof from ? sender(&from) : -1;
        if (u < 0) coming.strange++;
        else take(u, message, (size_t)got);
    }
}

static void send_all(void) {
    uint8_t message[DIGEST + COUNTERLAB_MOST_BYTES];
    memcpy(message, digest, DIGEST);
    memcpy(message + DIGEST, state, sizes[id]);
    for (uint32_t u = 0; u < numbers.nodes; u++)
        if (u != id) /* one that is not sent is lost */
            sendto(link_to_all, message, DIGEST + sizes[id], 0, (struct sockaddr *)&peers[u],
                   sizeof peers[u]);
}

/* ---- the round */

static int64_t milliseconds(void) {
    struct timespec now;
    clock_gettime(CLOCK_MONOTONIC, &now);
    return now.tv_sec * INT64_C(1000) + now.tv_nsec / 1000000;
}

/* Waits for a tick, and never for a message; how many came, and what came until then is heard. */
static ssize_t wait_for_tick(void) {
    static char ticks[1 << 16];
    struct pollfd from[2] = {{0, POLLIN, 0}, {link_to_all, POLLIN, 0}};
    for (;;) {
        int ready = poll(from, 2, -1);
        if (ready < 0 && errno != EINTR) die("poll");
        if (ready <= 0) continue;
        ssize_t got = from[0].revents ? read(0, ticks, sizeof ticks) : -1;
        if (from[0].revents && got < 0 && errno != EINTR && errno != EAGAIN) die("ticks");
        take_all();
        if (got < 0) continue;
        heard = coming;
        memset(&coming, 0, sizeof coming);
        return got;
    }
}

/* Takes what comes for so long. */
static void wait_to_send(long wait) {
    struct pollfd from = {link_to_all, POLLIN, 0};
    int64_t end = milliseconds() + wait;
    for (int64_t left = wait; left > 0; left = end - milliseconds())
        if (poll(&from, 1, (int)left) > 0) take_all();
}

/* What node u shows in a state; whether there was memory to tell. */
static bool shows(uint32_t u, const uint8_t *bytes, uint64_t *number) {
    struct counterlab_answer a = counterlab_output(plan, plan_size, u, bytes, sizes[u]);
    if (a.code && a.code != COUNTERLAB_NO_MEMORY) refuse_answer("output", a);
    *number = a.value;
    return a.code == 0;
}

/* How many of the states that were heard show what the own one does, that among them. */
static int agreeing_with(uint64_t mine) {
    int found = 1;
    for (uint32_t u = 0; u < numbers.nodes; u++) {
        uint64_t its;
        found += u != id && heard.size[u] > 0 && shows(u, heard.bytes[u], &its) && its == mine;
    }
    return found;
}

/* The step, from a packet of what was heard; how many states these were, -1 if it failed. */
static int step(void) {
    static uint8_t packet[NODES * (2 + COUNTERLAB_MOST_BYTES)];
    size_t size = 0;
    int states = 1;
    for (uint32_t u = 0; u < numbers.nodes; u++) {
        packet[size++] = 0;
        packet[size++] = (uint8_t)heard.size[u];
        memcpy(packet + size, heard.bytes[u], heard.size[u]);
        size += heard.size[u];
        states += heard.size[u] > 0;
    }
    struct counterlab_answer a =
        counterlab_step(plan, plan_size, id, state, sizes[id], packet, size);
    if (a.code == COUNTERLAB_NO_MEMORY) return -1;
    if (a.code) refuse_answer("step", a);
    return states;
}

static struct round make_round(ssize_t ticks) {
    struct round r = {.ticks = ticks, .states = -1};
    uint64_t before;
    bool is_known = shows(id, state, &before);
    if (is_known) r.agreeing = agreeing_with(before);
    int states = step();
    if (!shows(id, state, &r.number)) return r;
    r.states = states;
    r.is_steady = is_known && states > 0 && r.number == (before + 1) % numbers.modulus;
    return r;
}

static void keep_state(void) {
    if (state_file < 0 || pwrite(state_file, state, sizes[id], 0) == (ssize_t)sizes[id]) return;
    close(state_file); /* it has no use then: any state will do */
    state_file = -1;
}

/* Whether so many states showed one number that any two nodes that find this found the same. */
static bool is_agreed(const struct round *r) {
    return r->agreeing >= (int)(numbers.nodes - numbers.faults) && r->is_steady;
}

/* How many rounds are left until T have gone by since the last disturbance that the node knows of.
 * Whatever this number was, T good rounds later it is right. At 0 all correct nodes count: if they
 * don't, a premise has failed. */
static uint64_t rounds_left(uint64_t left, const struct round *r) {
    if (r->ticks != 1 || r->states < (int)(numbers.nodes - numbers.faults) ||
        left > numbers.bound || (left == 0 && !is_agreed(r)))
        return numbers.bound;
    return left > 0 ? left - 1 : 0;
}

static void print_bytes(const uint8_t *bytes, size_t size) {
    putchar(' ');
    for (size_t i = 0; i < size; i++) printf("%02x", bytes[i]);
    if (size == 0) putchar('-');
}

static void print_line(const struct round *r, bool is_sure, bool all) {
    int others = 0;
    for (uint32_t u = 0; u < numbers.nodes; u++) others += heard.is_other[u];
    printf("%zd %" PRIu64 " %d %d %d %d %d", r->ticks, r->number, is_sure, r->states, r->agreeing,
           others, heard.strange);
    if (all) print_bytes(state, sizes[id]);
    for (uint32_t u = 0; all && u < numbers.nodes; u++) print_bytes(heard.bytes[u], heard.size[u]);
    putchar('\n');
}

static int run(long wait, bool all) {
    uint64_t left = numbers.bound;
    for (ssize_t ticks; (ticks = wait_for_tick()) > 0;) {
        struct round r = make_round(ticks);
        left = rounds_left(left, &r);
        wait_to_send(wait);
        send_all();
        keep_state();
        print_line(&r, left == 0 && is_agreed(&r), all); /* and act on it, if it is sure */
    }
    fprintf(stderr, "node: the ticks ended\n");
    return NO_TICKS;
}

int main(int argc, char **argv) {
    const char *path = NULL;
    bool all = false;
    for (; argc > 1 && argv[1][0] == '-'; argc--, argv++) {
        if (!strcmp(argv[1], "-p")) all = true;
        else if (!strcmp(argv[1], "--state") && argc > 2) path = argv[2], argc--, argv++;
        else argc = 1;
    }
    if (argc != 2 && argc != 5) {
        fprintf(stderr, "usage: node [-p] [--state FILE] PLAN PEERS ID WAIT < TICKS\n"
                        "       node PLAN\n");
        return USAGE;
    }
    read_plan(argv[1]);
    if (argc == 2) {
        printf("nodes %" PRIu32 " faults %" PRIu32 " modulus %" PRIu64 " bound %" PRIu64 "\n",
               numbers.nodes, numbers.faults, numbers.modulus, numbers.bound);
        return 0;
    }
    read_peers(argv[2]);
    id = (uint32_t)number(argv[3], 0, numbers.nodes - 1);
    long wait = number(argv[4], 0, 999);
    open_link();
    if (!path || !open_state(path)) begin_anywhere();
    signal(SIGPIPE, SIG_IGN); /* a reader of its lines that is gone is no reason to end */
    setvbuf(stdout, NULL, _IOLBF, 0);
    return run(wait, all);
}
