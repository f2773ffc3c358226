/* One node that hears packets and answers each with the cell of its state, as the word `node` does:
 * a cell is written before any byte after its packet is read.
 *
 *   gcc -O2 -o node bench/c/node.c
 *   python3 bench/tools/packets.py bench/inputs/node_twelve.txt 12 4 100000 > packets.bin
 *   time ./node < packets.bin > /dev/null
 */
#include "script.h"

#define MOST_PACKETS 1000000
#define LONGEST_CELL 65537

#define ROOM (1 << 21)

static char buffer[ROOM + 8], *next_byte = buffer, *held = buffer;

/* Reads until so many bytes stand before the next one, or the input ends. */
static int has(size_t count) {
    if ((size_t)(held - next_byte) >= count) return 1;
    if (next_byte + LONGEST_CELL > buffer + ROOM) {
        memmove(buffer, next_byte, (size_t)(held - next_byte));
        held -= next_byte - buffer, next_byte = buffer;
    }
    while ((size_t)(held - next_byte) < count) {
        size_t room = (size_t)(buffer + ROOM - held);
        ssize_t got = read(0, held, room < 4096 ? room : 4096);
        if (got < 0) exit(6);
        if (got == 0) return 0;
        held += got;
    }
    return 1;
}

/* Reads the lines of both parts of the header, and where the packets begin. */
static char *read_header(void) {
    char *at = buffer;
    for (int parts = 0; parts < 2;) {
        char *line = at;
        do {
            if (at == held && !has((size_t)(held - buffer) + 1)) exit(1);
        } while (*at++ != '\n');
        parts += at - line == 4 && memcmp(line, "end\n", 4) == 0;
    }
    return at;
}

static int read_node(struct state *own) {
    next_line(), want("node", 2);
    next_line(), want("id", 2);
    int id = id_at(1);
    next_line(), want("state", 2);
    if (!read_hex(id, words[1], own)) exit(1);
    next_line(), want("end", 1);
    return id;
}

static void put_cell(int id, const struct state *own) {
    put_byte((char)(bytes_of[id] >> 8)), put_byte((char)bytes_of[id]);
    write_state(id, own, (uint8_t *)gathered + end);
    end += (size_t)bytes_of[id];
    pass_on();
}

/* Hears the cell of node u. */
static void hear_cell(int u, int id) {
    struct state s;
    if (!has(2)) exit(9);
    size_t length = (size_t)(uint8_t)next_byte[0] << 8 | (uint8_t)next_byte[1];
    if (!has(2 + length)) exit(9);
    if (length == (size_t)bytes_of[u]) read_state(u, (const uint8_t *)next_byte + 2, &s);
    else memset(&s, 0, sizeof s);
    if (u != id) hear(u, &s);
    next_byte += 2 + length;
}

int main(void) {
    struct state own, new;
    char *packets = read_header();
    input = buffer, input_end = packets;
    read_plan();
    end_plan(0, 0);
    int id = read_node(&own);
    next_byte = packets;
    put_cell(id, &own);
    for (uint64_t count = 0; has(1); count++) {
        if (count == MOST_PACKETS) exit(8);
        for (int u = 0; u < nodes; u++) hear_cell(u, id);
        hear(id, &own);
        step(id, &own, &new);
        own = new;
        put_cell(id, &own);
    }
    return 0;
}
