/* One node of a halving plan that hears packets and answers each with the cell of its state, as
 * `halvinglab node` does; but it reads all packets first.
 *
 *   gcc -O2 -o halving_node bench/c/halving_node.c
 *   ./halving_node < INPUT > CELLS
 */
#include "halving_counter.h"

static uint8_t *input;
static size_t size;

static void read_all(void) {
    size_t room = 1 << 20, got;
    input = malloc(room);
    while (input && (got = fread(input + size, 1, room - size, stdin)) > 0)
        if ((size += got) == room) input = realloc(input, room *= 2);
    if (!input) exit(10);
}

static void put_cell(int v, const struct state *s) {
    uint8_t bytes[MOST_BYTES];
    write_state(v, s, bytes);
    put_byte((char)(bytes_of[v] >> 8)), put_byte((char)bytes_of[v]);
    for (int i = 0; i < bytes_of[v]; i++) put_byte((char)bytes[i]);
}

/* Hears the packet of all nodes but one, and gives the bytes behind it. */
static uint8_t *hear_packet(uint8_t *packet, int id) {
    static const struct state zero;
    struct state s;
    for (int u = 0; u < nodes; u++) {
        int length = packet[0] << 8 | packet[1];
        if (u != id && length == bytes_of[u]) {
            levels_read = common[u][id];
            read_state(u, packet + 2, &s), hear_levels(u, &s, levels_read);
        } else if (u != id) {
            hear(u, &zero);
        }
        packet += 2 + length;
    }
    return packet;
}

int main(void) {
    int count, borne, id, at = 0;
    unsigned long long by;
    char digits[257];
    struct state state, new = {0};
    read_all();
    input = realloc(input, size + 9), input[size] = 0;
    if (sscanf((char *)input, "halving 1 group %d %d %llu end node 1 id %d state %256s end%n",
               &count, &borne, &by, &id, digits, &at) != 5 || at == 0) return 1;
    put_group(count, borne, by), end_plan(0, 0);
    if (!read_hex(id, digits, &state)) return 1;
    put_cell(id, &state);
    for (uint8_t *next = input + at + 1; next < input + size;) {
        next = hear_packet(next, id);
        hear(id, &state);
        step(id, &state, &new);
        state = new;
        put_cell(id, &state);
    }
    pass_on();
    return 0;
}
