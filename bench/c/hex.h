/* States as hex digits, of either construction. What includes this has bytes_of and read_state. */
static int digit(char c) {
    return c >= '0' && c <= '9' ? c - '0' : c >= 'a' && c <= 'f' ? c - 'a' + 10 : -1;
}

/* Reads a state of a node from hex digits; whether they are just so many. */
static int read_hex(int v, const char *text, struct state *s) {
    uint8_t bytes[MOST_BYTES] = {0};
    int count = 2 * bytes_of[v];
    for (int i = 0; i < count; i++) {
        if (digit(text[i]) < 0) return 0;
        bytes[i / 2] = (uint8_t)(bytes[i / 2] << 4 | digit(text[i]));
    }
    if (text[count] != 0) return 0;
    read_state(v, bytes, s);
    return 1;
}
