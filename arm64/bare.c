/* The library with no C library: its own start, memcpy, memmove and memset, and the arena. It runs
 * under Linux too (qemu-aarch64), of which it takes two calls, write and exit; on bare metal put
 * others in the place of `call`. It steps each node of PLAN once on a packet of drawn bytes and
 * prints the sum of the states, and how many bytes of the arena and of the stack were used at most.
 *
 * In the folder of the tar:
 *
 *     aarch64-linux-gnu-gcc -O2 -ffreestanding -fno-tree-loop-distribute-patterns \
 *         -nostdlib -static -I include -DARENA=65536 '-DPLAN="halving 1\ngroup 4 1 10\nend\n"' \
 *         arm64/bare.c arm64/arena.c lib/libcounterlab_c.a -lgcc */
#include "counterlab.h"

#ifndef PLAN
#define PLAN "halving 1\ngroup 4 1 10\nend\n"
#endif
#ifndef STEPS
#define STEPS 1
#endif
#define STACK 65536
#define GIVEN (const uint8_t *)text, sizeof text - 1

size_t arena_most(void);

static const char text[] = PLAN;
static uint8_t packet[256 * (2 + COUNTERLAB_MOST_BYTES)], state[COUNTERLAB_MOST_BYTES];
_Alignas(16) uint8_t stack[STACK];

void *memcpy(void *restrict to, const void *restrict from, size_t n) {
    for (size_t i = 0; i < n; i++) ((uint8_t *)to)[i] = ((const uint8_t *)from)[i];
    return to;
}

void *memmove(void *to, const void *from, size_t n) {
    if ((uintptr_t)to - (uintptr_t)from >= n) return memcpy(to, from, n);
    while (n--) ((uint8_t *)to)[n] = ((const uint8_t *)from)[n];
    return to;
}

void *memset(void *to, int byte, size_t n) {
    for (size_t i = 0; i < n; i++) ((uint8_t *)to)[i] = (uint8_t)byte;
    return to;
}

static long call(long number, long a, long b, long c) { /* of Linux */
    register long x8 __asm__("x8") = number, x0 __asm__("x0") = a, x1 __asm__("x1") = b;
    register long x2 __asm__("x2") = c;
    __asm__ volatile("svc 0" : "+r"(x0) : "r"(x8), "r"(x1), "r"(x2) : "memory");
    return x0;
}

static void say(const char *word, uint64_t number) {
    char digits[20];
    size_t at = sizeof digits, size = 0;
    do digits[--at] = (char)('0' + number % 10);
    while (number /= 10);
    while (word[size]) size++;
    call(64, 1, (long)word, (long)size);
    call(64, 1, (long)(digits + at), (long)(sizeof digits - at));
}

static uint64_t drawn = 7;

static uint8_t draw(void) {
    drawn = drawn * 6364136223846793005u + 1442695040888963407u;
    return (uint8_t)(drawn >> 56);
}

int run(void) {
    uint8_t *here = __builtin_frame_address(0);
    for (uint8_t *at = stack; at < here - 1024; at++) *(volatile uint8_t *)at = 0xa5;
    struct counterlab_plan_numbers all = {0, 0, 0, 0};
    struct counterlab_answer answer = counterlab_plan(GIVEN, &all);
    uint64_t sum = 0;
    static uint8_t sizes[256];
    for (uint32_t u = 0; !answer.code && u < all.nodes; u++) {
        answer = counterlab_state_bytes(GIVEN, u);
        sizes[u] = (uint8_t)answer.value;
    }
    for (uint32_t id = 0; !answer.code && id < all.nodes; id += all.nodes > 64 ? 85 : 1) {
        size_t size = 0;
        for (uint32_t u = 0; u < all.nodes; u++) {
            packet[size++] = 0;
            packet[size++] = sizes[u];
            for (size_t i = 0; i < sizes[u]; i++) packet[size++] = draw();
        }
        for (size_t i = 0; i < sizes[id]; i++) state[i] = draw();
        for (int i = 0; i < STEPS && !answer.code; i++)
            answer = counterlab_step(GIVEN, id, state, sizes[id], packet, size);
        if (!answer.code) answer = counterlab_output(GIVEN, id, state, sizes[id]);
        for (size_t i = 0; i < sizes[id]; i++) sum = 31 * sum + state[i];
        if (STEPS != 1) break; /* to count instructions: of node 0 alone */
    }
    size_t unused = 0;
    while (unused < STACK && stack[unused] == 0xa5) unused++;
    say("code ", answer.code);
    say(" nodes ", all.nodes);
    say(" sum ", sum);
    say(" arena ", arena_most());
    say(" stack ", (uint64_t)(here - (stack + unused)));
    call(64, 1, (long)"\n", 1);
    return (int)answer.code;
}

__attribute__((noreturn, used)) static void begin(void) {
    call(93, run(), 0, 0);
    for (;;) {}
}

__asm__(".globl _start\n_start:\n\tadrp x0, stack\n\tadd x0, x0, :lo12:stack\n"
        "\tadd x0, x0, #65536 >> 12, lsl #12\n\tmov sp, x0\n\tmov x29, xzr\n\tmov x30, xzr\n"
        "\tb begin\n");
