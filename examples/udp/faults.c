/* What may befall a node, between it and its network: laid over its `sendto` by LD_PRELOAD, so that
 * the node itself has no word of it. The file that UDP_FAULTS names has three bytes, which may
 * change at any time: how many of 65,536 datagrams are lost, the high byte first, and how many lies
 * the node sends in the place of one message; with 0 it sends what it means to. Three lies of four
 * are messages of the node's plan, with a state of random bytes; the fourth is random bytes of
 * another length.
 *
 *   gcc -std=c11 -O2 -shared -fPIC -o faults.so examples/udp/faults.c */
#define _GNU_SOURCE
#include <fcntl.h>
#include <stdint.h>
#include <stdlib.h>
#include <string.h>
#include <sys/mman.h>
#include <sys/random.h>
#include <sys/socket.h>
#include <sys/uio.h>

enum { DIGEST = 8 }; /* the first bytes of a message, which say the plan */

static const volatile uint8_t *faults;

__attribute__((constructor)) static void find_faults(void) {
    const char *path = getenv("UDP_FAULTS");
    int file = path ? open(path, O_RDONLY) : -1;
    void *at = file < 0 ? MAP_FAILED : mmap(NULL, 3, PROT_READ, MAP_SHARED, file, 0);
    if (at == MAP_FAILED) abort();
    faults = at;
}

static void draw(uint8_t *bytes, size_t size) {
    if (getrandom(bytes, size, 0) != (ssize_t)size) abort();
}

static ssize_t pass(int link, const void *data, size_t size, int flags, const struct sockaddr *to,
                    socklen_t length) {
    struct iovec part = {(void *)data, size};
    struct msghdr all = {.msg_name = (void *)to, .msg_namelen = length, .msg_iov = &part,
                         .msg_iovlen = 1};
    return sendmsg(link, &all, flags);
}

ssize_t sendto(int link, const void *data, size_t size, int flags, const struct sockaddr *to,
               socklen_t length) {
    uint8_t chance[2], lie[256];
    draw(chance, sizeof chance);
    if ((chance[0] << 8 | chance[1]) < (faults[0] << 8 | faults[1])) return (ssize_t)size;
    ssize_t sent = 0;
    for (int lies = faults[2], i = 0; i < lies; i++) {
        draw(lie, sizeof lie);
        size_t is = lie[0] % 4 ? size : lie[1] % 200;
        if (is == size && size >= DIGEST) memcpy(lie + 2, data, DIGEST);
        sent = pass(link, lie + 2, is, flags, to, length);
    }
    return faults[2] ? sent : pass(link, data, size, flags, to, length);
}
