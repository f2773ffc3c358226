/* A heap for the library without malloc, in the place of the kit's liblibc_c.a: ARENA bytes, which
 * are empty again when all that was taken is given back, as after each call. One call at a time. */
#include <stdbool.h>
#include <stddef.h>
#include <stdint.h>
#include <string.h>

#ifndef ARENA
#define ARENA 4096
#endif

struct taken {
    bool ok;
    void *at; /* where there is no room, the arena's first byte */
};

static _Alignas(16) uint8_t arena[ARENA];
static size_t used, blocks, most;

struct taken rattle_alloc(size_t size, size_t align) {
    size_t at = (used + align - 1) & ~(align - 1);
    if (at > ARENA || size > ARENA - at) return (struct taken){false, arena};
    used = at + size;
    if (used > most) most = used;
    blocks++;
    return (struct taken){true, arena + at};
}

void rattle_dealloc(void *at) {
    (void)at;
    if (--blocks == 0) used = 0;
}

struct taken rattle_realloc(void *at, size_t kept, size_t size, size_t align) {
    struct taken new = rattle_alloc(size, align);
    if (!new.ok) return new;
    memcpy(new.at, at, kept < size ? kept : size);
    rattle_dealloc(at);
    return new;
}

/* How many bytes of it were used at most so far. */
size_t arena_most(void) { return most; }
