/* What the programs share that play a script of either construction: its lines, the lies, noise by
 * ChaCha with 8 rounds, and what is written. A header that includes this one has the states before
 * it, and after it what is declared below. Inputs are taken as accepted ones: on another line the
 * programs give up.
 */

#define MOST_ERAS 17
#define MOST_RULES 256

enum kind { NOISE, COPY, HEX, SHIFT };

struct rule {
    uint64_t from, to;
    int sender, node;
    struct rule *next; /* of the same sender */
    char hears[MOST_NODES];
    enum kind kind;
    uint64_t by;
    struct state told;
};

struct era {
    uint64_t at;
    int faulty[MOST_NODES], count;
    char is_faulty[MOST_NODES], is_hit[MOST_NODES];
    struct state starts[MOST_NODES];
    uint64_t locked;
    int is_locked;
};

static int script_version, rule_count, era_count, is_noisy;
static struct rule rules[MOST_RULES], *rules_of[MOST_NODES]; /* of each sender the first one */
static struct era eras[MOST_ERAS];
static uint32_t key[8];
static uint64_t rounds, shown_from, shown_to;
static struct state configs[2][MOST_NODES], *config = configs[0], *next = configs[1];

static struct state shifted(int u, uint64_t by), copied(int u, int from);
static int are_locked(const struct era *era); /* whether the correct nodes are locked */
static uint64_t output_of(const struct state *s);

/* Lines. */

static char *input, *input_end, *words[300];
static int word_count;

static void read_input(void) {
    size_t room = 1 << 21, length = 0;
    ssize_t got;
    input = malloc(room);
    while ((got = read(0, input + length, room - 1 - length)) > 0) length += (size_t)got;
    input[length] = 0, input_end = input + length;
}

/* Cuts the next line that is not skipped into its words. */
static void next_line(void) {
    char *line;
    do {
        if (input >= input_end) exit(1);
        line = input;
        input = strchr(line, '\n');
        if (input == NULL) input = input_end;
        *input++ = 0;
    } while (*line == 0 || *line == '#');
    word_count = 0;
    for (char *word = strtok(line, " "); word && word_count < 300; word = strtok(NULL, " "))
        words[word_count++] = word;
}

static int is_line(const char *word, int least) {
    return word_count >= least && strcmp(words[0], word) == 0;
}

static void want(const char *word, int least) {
    if (!is_line(word, least)) exit(1);
}

static uint64_t number_at(int i) {
    char *rest;
    if (i >= word_count) exit(1);
    uint64_t number = strtoull(words[i], &rest, 10);
    if (*rest || rest == words[i]) exit(1);
    return number;
}

static int id_at(int i) {
    uint64_t id = number_at(i);
    if (id >= (uint64_t)nodes) exit(1);
    return (int)id;
}

/* Noise. */

struct stream {
    uint64_t block_behind; /* one more than the number of the block that is kept */
    uint32_t words[16];
};

static struct stream *streams;

#define QUARTER(a, b, c, d) \
    a += b, d ^= a, d = d << 16 | d >> 16, c += d, b ^= c, b = b << 12 | b >> 20, \
    a += b, d ^= a, d = d << 8 | d >> 24, c += d, b ^= c, b = b << 7 | b >> 25

static void chacha(uint64_t number, uint64_t stream, uint32_t out[16]) {
    uint32_t s[16] = {0x61707865, 0x3320646e, 0x79622d32, 0x6b206574}, x[16];
    memcpy(s + 4, key, sizeof key);
    s[12] = (uint32_t)number, s[13] = (uint32_t)(number >> 32);
    s[14] = (uint32_t)stream, s[15] = (uint32_t)(stream >> 32);
    memcpy(x, s, sizeof s);
    for (int i = 0; i < 4; i++) {
        QUARTER(x[0], x[4], x[8], x[12]);
        QUARTER(x[1], x[5], x[9], x[13]);
        QUARTER(x[2], x[6], x[10], x[14]);
        QUARTER(x[3], x[7], x[11], x[15]);
        QUARTER(x[0], x[5], x[10], x[15]);
        QUARTER(x[1], x[6], x[11], x[12]);
        QUARTER(x[2], x[7], x[8], x[13]);
        QUARTER(x[3], x[4], x[9], x[14]);
    }
    for (int i = 0; i < 16; i++) out[i] = x[i] + s[i];
}

/* The state of node v in the noise of a stream, `turn` states from its begin. */
static void noise(int v, struct stream *kept, uint64_t stream, uint64_t turn, struct state *s) {
    uint8_t bytes[MOST_BYTES];
    int count = (bytes_of[v] + 3) / 4;
    uint64_t place = turn * (uint64_t)count;
    for (int i = 0; i < count; i++, place++) {
        if (kept->block_behind != place / 16 + 1) {
            chacha(place / 16, stream, kept->words);
            kept->block_behind = place / 16 + 1;
        }
        memcpy(bytes + 4 * i, &kept->words[place % 16], 4); /* the low byte first */
    }
    read_state(v, bytes, s);
}

/* The lines of a script. */

static void read_faulty(struct era *era, int from) {
    for (int i = from; i < word_count; i++) {
        int id = id_at(i);
        era->faulty[era->count++] = id;
        era->is_faulty[id] = 1;
    }
}

static void read_starts(struct era *era) {
    for (next_line(); is_line("start", 4) && strcmp(words[1], "node") == 0; next_line()) {
        int v = id_at(2);
        if (!read_hex(v, words[3], &era->starts[v])) exit(1);
        era->is_hit[v] = 1;
    }
}

static void read_key(const char *text) {
    for (int i = 0; i < 64; i++) {
        if (digit(text[i]) < 0) exit(1);
        key[i / 8] |= (uint32_t)digit(text[i]) << (i / 2 % 4 * 8 + (i % 2 ? 0 : 4));
    }
}

static void read_rule(char names[][20], char members[][MOST_NODES], int groups) {
    struct rule *rule = &rules[rule_count++];
    int at = 6;
    rule->from = number_at(1), rule->to = number_at(2), rule->sender = id_at(3);
    if (strcmp(words[5], "all") == 0) {
        memset(rule->hears, 1, sizeof rule->hears);
    } else if (words[5][0] >= '0' && words[5][0] <= '9') {
        for (int v = id_at(5); v <= id_at(6); v++) rule->hears[v] = 1;
        at = 7;
    } else {
        for (int i = 0; i < groups; i++)
            if (strcmp(names[i], words[5]) == 0) memcpy(rule->hears, members[i], MOST_NODES);
    }
    if (strcmp(words[at], "copy") == 0) rule->kind = COPY, rule->node = id_at(at + 1);
    else if (strcmp(words[at], "shift") == 0) rule->kind = SHIFT, rule->by = number_at(at + 1);
    else if (strcmp(words[at], "hex") == 0) {
        rule->kind = HEX;
        if (!read_hex(rule->sender, words[at + 1], &rule->told)) exit(1);
    } else rule->kind = NOISE;
}

/* Puts the rules of each sender one behind the other. */
static void part_rules(void) {
    for (int i = rule_count - 1; i >= 0; i--) {
        rules[i].next = rules_of[rules[i].sender];
        rules_of[rules[i].sender] = &rules[i];
    }
}

static void read_rules(void) {
    static char names[256][20], members[256][MOST_NODES];
    int groups = 0;
    for (; is_line("group", 3); next_line(), groups++) {
        strncpy(names[groups], words[1], 19);
        for (int i = 2; i < word_count; i++) members[groups][id_at(i)] = 1;
    }
    for (; is_line("lie", 7); next_line()) read_rule(names, members, groups);
    part_rules();
}

static void read_script(void) {
    streams = calloc((size_t)(nodes * nodes), sizeof *streams);
    next_line(), want("script", 2), script_version = (int)number_at(1);
    next_line(), want("faulty", 1), read_faulty(&eras[era_count++], 1);
    next_line();
    if (is_line("seed", 2)) read_key(words[1]), next_line();
    want("start", 2), is_noisy = strcmp(words[1], "noise") == 0;
    read_starts(&eras[0]);
    while (is_line("era", 3)) {
        struct era *era = &eras[era_count++];
        era->at = number_at(1);
        read_faulty(era, 3);
        read_starts(era);
    }
    read_rules();
    want("rounds", 2), rounds = number_at(1);
    next_line(), want("show", 3), shown_from = number_at(1), shown_to = number_at(2);
    next_line(), want("end", 1);
}

/* Rounds. */

static void start_all(void) {
    for (int v = 0; v < nodes; v++) {
        struct stream kept = {0, {0}};
        if (eras[0].is_hit[v]) config[v] = eras[0].starts[v];
        else if (is_noisy) noise(v, &kept, 65536 + (uint64_t)v, 0, &config[v]);
        else memset(&config[v], 0, sizeof config[v]);
    }
}

/* Writes the bound, and lays the starts of configuration 0. */
static void begin_run(void) {
    put_text("bound "), put_number(bound), put_byte('\n');
    start_all();
}

/* What node v hears of the faulty node u in round t. */
static void lie(uint64_t t, int u, int v, struct state *s) {
    for (const struct rule *rule = rules_of[u]; rule; rule = rule->next) {
        if (t < rule->from || t > rule->to || !rule->hears[v]) continue;
        if (rule->kind == NOISE)
            noise(u, &streams[v * nodes + u], 256 * (uint64_t)u + (uint64_t)v, t, s);
        else if (rule->kind == COPY) *s = copied(u, rule->node);
        else if (rule->kind == SHIFT) *s = shifted(u, rule->by);
        else *s = rule->told;
        return;
    }
    *s = config[u];
}

/* Puts the starts of the era that begins with configuration t, if one does; gives the era of t. */
static struct era *enter(uint64_t t, struct era *era) {
    if (era + 1 == eras + era_count || era[1].at != t) return era;
    for (int v = 0; v < nodes; v++)
        if (era[1].is_hit[v]) config[v] = era[1].starts[v];
    return era + 1;
}

/* Looks whether configuration t is locked, if none of its era was. */
static void look(uint64_t t, struct era *era) {
    if (!era->is_locked && are_locked(era)) era->is_locked = 1, era->locked = t;
}

/* Prints the row of configuration t. */
static void put_row(uint64_t t, const struct era *era) {
    put_text("row "), put_number(t);
    for (int v = 0; v < nodes; v++) {
        put_byte(' ');
        if (era->is_faulty[v]) put_byte('*');
        else put_number(output_of(&config[v]));
    }
    put_byte('\n');
}

static void put_locks(void) {
    for (struct era *era = eras; era < eras + era_count; era++) {
        if (script_version == 2) put_text("era "), put_number(era->at), put_byte(' ');
        put_text("locked ");
        if (era->is_locked) put_number(era->locked);
        else put_text("none");
        put_byte('\n');
    }
}
