/* The C calls as a C programmer meets them, through include/nevelknop.h alone: the sample deck, every refusal
 * that a C call can give, what a refused call leaves, odd sizes, odd addresses, and canary bytes round each buffer.
 * Ends with 0 and one line that counts the checks, or names the first line that fails.
 */
#include <nevelknop.h>

extern long write(int file, const void *from, size_t size);
extern void _exit(int status);

#define NODES 5u
#define NONTERMINALS 4u
#define LABELS 3u
#define CELLS (NONTERMINALS * NODES * NODES)
#define RULE(a, b, c) a, 0, b, 0, c, 0
#define LABEL_RULE(a, x) a, 0, x, 0, 255, 255
#define EDGE(from, label, to) from, 0, label, 0, to, 0
#define REFUSED(number, place) ((uint64_t)(number) << 32 | (place))
#define CELL(a, i, j) (((a) * NODES + (i)) * NODES + (j))

static const uint8_t sample_rules[] = {LABEL_RULE(0, 1), LABEL_RULE(1, 2), LABEL_RULE(2, 3), RULE(0, 1, 2),
                                       RULE(0, 1, 3),    RULE(3, 0, 2),    RULE(0, 0, 0)};
static const uint8_t sample_edges[] = {EDGE(0, 2, 1), EDGE(1, 1, 2), EDGE(2, 3, 3), EDGE(3, 1, 4), EDGE(4, 1, 4)};

/* The lent buffers, each with canary bytes at both ends; `shift` moves them off any alignment. */
enum { GUARD = 32, CANARY = 0x5A, UNTOUCHED = 0xC3 };
static uint8_t table_memory[8 * 2048 + 64 + 2 * GUARD], lengths_memory[4 * 2048 + 64 + 2 * GUARD], path_memory[64 + 2 * GUARD];
static uint8_t many_edges[6 * 4097], many_rules[6 * 257];
static uint8_t *table, *lengths, *path;
static size_t table_size, lengths_size, path_size;
static unsigned checks;

/* What a call is given; each test changes a field of the sample's. */
struct call {
    uint32_t nodes, nonterminals, labels;
    const uint8_t *rules;
    size_t rules_size;
    const uint8_t *edges;
    size_t edges_size;
    uint32_t a, i, j;
};

static const struct call sample = {NODES, NONTERMINALS, LABELS, sample_rules, sizeof sample_rules,
                                   sample_edges, sizeof sample_edges, 0, 0, 4};

static void say(const char *text) {
    size_t size = 0;
    while (text[size])
        size++;
    write(1, text, size);
}

static void say_number(unsigned number) {
    char digits[12] = {0}, *at = digits + 11;
    do
        *--at = (char)('0' + number % 10);
    while (number /= 10);
    say(at);
}

static void expect(int right, unsigned line) {
    checks++;
    if (right)
        return;
    say("tests/header.c:");
    say_number(line);
    say(": not as include/nevelknop.h says\n");
    _exit(1);
}
#define EXPECT(right) expect(right, __LINE__)

static void fill(uint8_t *at, size_t size, uint8_t byte) {
    while (size-- > 0)
        *at++ = byte;
}

static int holds(const uint8_t *at, size_t size, uint8_t byte) {
    while (size-- > 0)
        if (*at++ != byte)
            return 0;
    return 1;
}

static uint64_t word(const uint8_t *at, size_t size) {
    uint64_t value = 0;
    while (size-- > 0)
        value = value << 8 | at[size];
    return value;
}

static void put_word(uint8_t *at, size_t size, uint64_t value) {
    for (; size-- > 0; value >>= 8)
        *at++ = (uint8_t)value;
}

static uint8_t *lend(uint8_t *memory, size_t memory_size, size_t size, size_t shift) {
    fill(memory, memory_size, CANARY);
    fill(memory + GUARD + shift, size, UNTOUCHED);
    return memory + GUARD + shift;
}

/* Fresh buffers of these sizes. */
static void lend_all(size_t for_table, size_t for_lengths, size_t for_path, size_t shift) {
    table = lend(table_memory, sizeof table_memory, table_size = for_table, shift);
    lengths = lend(lengths_memory, sizeof lengths_memory, lengths_size = for_lengths, shift);
    path = lend(path_memory, sizeof path_memory, path_size = for_path, shift);
}

static int guarded(const uint8_t *memory, size_t memory_size, const uint8_t *buffer, size_t size) {
    return holds(memory, (size_t)(buffer - memory), CANARY) &&
           holds(buffer + size, (size_t)(memory + memory_size - buffer) - size, CANARY);
}

static void canaries(unsigned line) {
    expect(guarded(table_memory, sizeof table_memory, table, table_size), line);
    expect(guarded(lengths_memory, sizeof lengths_memory, lengths, lengths_size), line);
    expect(guarded(path_memory, sizeof path_memory, path, path_size), line);
}

static uint64_t run(const struct call *c) {
    return nevelknop_run(c->nodes, c->nonterminals, c->labels, c->rules, c->rules_size, c->edges, c->edges_size,
                         table, table_size, lengths, lengths_size);
}

static uint64_t witness(const struct call *c) {
    return nevelknop_witness(c->nodes, c->nonterminals, c->labels, c->rules, c->rules_size, c->edges, c->edges_size,
                             c->a, c->i, c->j, table, table_size, lengths, lengths_size, path, path_size);
}

/* Both calls give this refusal and leave fresh buffers untouched. */
static void both_refuse(struct call c, uint64_t refusal, unsigned line) {
    lend_all(8 * 2048, 4 * 2048, 64, 1);
    expect(run(&c) == refusal, line);
    expect(witness(&c) == refusal, line);
    expect(holds(table, table_size, UNTOUCHED) && holds(lengths, lengths_size, UNTOUCHED), line);
    expect(holds(path, path_size, UNTOUCHED), line);
    canaries(line);
}
#define BOTH_REFUSE(change, number, place)                      \
    do {                                                        \
        struct call c = sample;                                 \
        change;                                                 \
        both_refuse(c, REFUSED(number, place), __LINE__);       \
    } while (0)

static void sample_report(size_t more, size_t shift) {
    static const struct { uint32_t i, j, height, middle, length, first; } pairs[] = {
        {0, 3, 3, 1, 3, 0}, {0, 4, 4, 3, 4, 0}, {1, 2, 1, 1, 1, 1}, {3, 4, 1, 3, 1, 3}, {4, 4, 1, 4, 1, 4}};
    lend_all(8 * CELLS + more, 4 * CELLS + more % 4, 8 + more % 2, shift);
    EXPECT(run(&sample) == 4);
    EXPECT(nevelknop_cells(NODES, NONTERMINALS) == CELLS);
    EXPECT(word(table + 8 * CELL(0, 0, 4), 8) == 17180065798u);
    EXPECT(word(table + 8 * CELL(3, 1, 3), 8) == (2ull << 32 | 2u << 16 | 5));
    EXPECT(word(table + 8 * CELL(0, 2, 3), 8) == NEVELKNOP_EMPTY);
    EXPECT(word(lengths + 4 * CELL(0, 2, 3), 4) == 0);
    EXPECT(holds(table + 8 * CELLS, more, UNTOUCHED) && holds(lengths + 4 * CELLS, more % 4, UNTOUCHED));
    EXPECT(holds(path, path_size, UNTOUCHED));
    unsigned filled = 0;
    for (uint32_t c = 0; c < NODES * NODES; c++)
        filled += word(table + 8 * c, 8) != NEVELKNOP_EMPTY;
    EXPECT(filled == sizeof pairs / sizeof *pairs);
    for (unsigned p = 0; p < filled; p++) {
        struct call c = sample;
        c.i = pairs[p].i, c.j = pairs[p].j;
        uint64_t key = word(table + 8 * CELL(0, c.i, c.j), 8);
        EXPECT(key >> 32 == pairs[p].height && (key >> 16 & 65535) == pairs[p].middle);
        EXPECT(word(lengths + 4 * CELL(0, c.i, c.j), 4) == pairs[p].length);
        fill(path, path_size, UNTOUCHED);
        EXPECT(witness(&c) == pairs[p].length);
        for (uint32_t e = 0; e < pairs[p].length; e++)
            EXPECT(word(path + 2 * e, 2) == pairs[p].first + e);
        EXPECT(holds(path + 2 * pairs[p].length, path_size - 2 * pairs[p].length, UNTOUCHED));
    }
    canaries(__LINE__);
}

static void list_refusals(void) {
    static const uint8_t no_such_rule[] = {LABEL_RULE(0, 1), RULE(0, 1, 4)}, label_0[] = {LABEL_RULE(0, 0)},
                         label_4[] = {LABEL_RULE(0, 4)}, no_such_edge[] = {EDGE(0, 1, 1), EDGE(0, 1, 5)},
                         edge_label_0[] = {EDGE(0, 0, 1)}, big_endian[] = {0, 1, 0, 1, 0, 1};
    BOTH_REFUSE(c.rules_size -= 1, NEVELKNOP_LIST, 0);
    BOTH_REFUSE(c.rules_size -= 3, NEVELKNOP_LIST, 0); /* a multiple of 3 bytes is no whole record */
    BOTH_REFUSE(c.edges_size -= 2, NEVELKNOP_LIST, 1);
    BOTH_REFUSE((c.rules_size -= 1, c.edges_size -= 1, c.nodes = 0), NEVELKNOP_LIST, 0); /* 5 comes before 4 */
    BOTH_REFUSE(c.nodes = 0, NEVELKNOP_NUMBER, 0);
    BOTH_REFUSE(c.nodes = 65, NEVELKNOP_NUMBER, 0);
    BOTH_REFUSE(c.nodes = 65536 + NODES, NEVELKNOP_NUMBER, 0);
    BOTH_REFUSE(c.nonterminals = 0, NEVELKNOP_NUMBER, 1);
    BOTH_REFUSE(c.nonterminals = 33, NEVELKNOP_NUMBER, 1);
    BOTH_REFUSE(c.labels = 0, NEVELKNOP_NUMBER, 2);
    BOTH_REFUSE(c.labels = 256, NEVELKNOP_NUMBER, 2);
    BOTH_REFUSE(c.labels = UINT32_MAX, NEVELKNOP_NUMBER, 2);
    BOTH_REFUSE((c.rules = many_rules, c.rules_size = sizeof many_rules), NEVELKNOP_NUMBER, 4);
    BOTH_REFUSE((c.edges = many_edges, c.edges_size = sizeof many_edges), NEVELKNOP_NUMBER, 5);
    BOTH_REFUSE((c.rules = no_such_rule, c.rules_size = sizeof no_such_rule), NEVELKNOP_RULE, 1);
    BOTH_REFUSE((c.rules = label_0, c.rules_size = sizeof label_0), NEVELKNOP_RULE, 0);
    BOTH_REFUSE((c.rules = label_4, c.rules_size = sizeof label_4), NEVELKNOP_RULE, 0);
    BOTH_REFUSE((c.rules = big_endian, c.rules_size = sizeof big_endian), NEVELKNOP_RULE, 0);
    BOTH_REFUSE((c.edges = no_such_edge, c.edges_size = sizeof no_such_edge), NEVELKNOP_EDGE, 1);
    BOTH_REFUSE((c.edges = edge_label_0, c.edges_size = sizeof edge_label_0), NEVELKNOP_EDGE, 0);
    BOTH_REFUSE(c.nodes = 17, NEVELKNOP_TOO_LARGE, 0);
    BOTH_REFUSE(c.nonterminals = 9, NEVELKNOP_TOO_LARGE, 1);
    BOTH_REFUSE((c.edges = many_edges, c.edges_size = 6 * 1025), NEVELKNOP_TOO_LARGE, 5);
    BOTH_REFUSE((c.nodes = 17, c.rules = label_4, c.rules_size = sizeof label_4), NEVELKNOP_RULE, 0); /* 13 comes after 7 */
    BOTH_REFUSE((c.nonterminals = 9, c.edges = edge_label_0, c.edges_size = sizeof edge_label_0), NEVELKNOP_EDGE, 0);
}

/* A buffer one byte short, for both calls: no byte of any buffer changes. */
static void room_refusals(void) {
    lend_all(8 * CELLS - 1, 4 * CELLS, 64, 0);
    EXPECT(run(&sample) == REFUSED(NEVELKNOP_ROOM, 0) && witness(&sample) == REFUSED(NEVELKNOP_ROOM, 0));
    EXPECT(holds(table, table_size, UNTOUCHED) && holds(lengths, lengths_size, UNTOUCHED) && holds(path, path_size, UNTOUCHED));
    lend_all(8 * CELLS, 4 * CELLS - 1, 64, 0);
    EXPECT(run(&sample) == REFUSED(NEVELKNOP_ROOM, 1) && witness(&sample) == REFUSED(NEVELKNOP_ROOM, 1));
    EXPECT(holds(table, table_size, UNTOUCHED) && holds(lengths, lengths_size, UNTOUCHED) && holds(path, path_size, UNTOUCHED));
    lend_all(0, 0, 0, 0);
    EXPECT(run(&sample) == REFUSED(NEVELKNOP_ROOM, 0) && witness(&sample) == REFUSED(NEVELKNOP_ROOM, 0));
    canaries(__LINE__);
}

/* One word of a right table or its lengths is changed: the cell is named, and the path stays as it was. */
static void wrong_cell(uint8_t *at, size_t size, uint64_t value, uint32_t cell, unsigned line) {
    uint64_t right = word(at, size);
    put_word(at, size, value);
    expect(witness(&sample) == REFUSED(NEVELKNOP_CELL, cell), line);
    expect(word(at, size) == value && holds(path, path_size, UNTOUCHED), line);
    put_word(at, size, right);
}

static void witness_refusals(void) {
    struct call c = sample;
    lend_all(8 * CELLS, 4 * CELLS, 8, 3);
    EXPECT(run(&sample) == 4);
    c.a = 4, c.i = 5, c.j = 5;
    EXPECT(witness(&c) == REFUSED(NEVELKNOP_ARGUMENT, 0));
    c.a = 65536;
    EXPECT(witness(&c) == REFUSED(NEVELKNOP_ARGUMENT, 0));
    c.a = 3;
    EXPECT(witness(&c) == REFUSED(NEVELKNOP_ARGUMENT, 1));
    c.i = 4;
    EXPECT(witness(&c) == REFUSED(NEVELKNOP_ARGUMENT, 2));
    table_size = 0;
    EXPECT(witness(&c) == REFUSED(NEVELKNOP_ARGUMENT, 2)); /* 15 comes before 10 */
    table_size = 8 * CELLS;
    c.j = 4;
    EXPECT(witness(&c) == REFUSED(NEVELKNOP_NO_PATH, CELL(3, 4, 4)));
    path_size = 7;
    EXPECT(witness(&sample) == REFUSED(NEVELKNOP_ROOM, 2));
    EXPECT(holds(path, 8, UNTOUCHED));
    path_size = 8;

    uint32_t top = CELL(0, 0, 4), empty = CELL(0, 2, 3), leaf = CELL(1, 0, 1);
    wrong_cell(table + 8 * top, 8, 17180065798u + 1, top, __LINE__);              /* no rule 7 */
    wrong_cell(table + 8 * top, 8, 17180065798u - 1, top, __LINE__);              /* rule 5 is none of 0's */
    wrong_cell(table + 8 * top, 8, 17180065798u + 65536, top, __LINE__);          /* the other side is empty */
    wrong_cell(table + 8 * top, 8, 17180065798u + (1ull << 32), top, __LINE__);   /* too high */
    wrong_cell(table + 8 * top, 8, 0, top, __LINE__);                             /* no height */
    wrong_cell(table + 8 * top, 8, NEVELKNOP_EMPTY, top, __LINE__);               /* empty with a length */
    wrong_cell(lengths + 4 * top, 4, 5, top, __LINE__);
    wrong_cell(lengths + 4 * empty, 4, 1, empty, __LINE__);
    wrong_cell(table + 8 * leaf, 8, 1ull << 32 | 1u << 16 | 1, leaf, __LINE__);   /* middle is not i */
    wrong_cell(table + 8 * CELL(0, 0, 0), 8, 1ull << 32, CELL(0, 0, 0), __LINE__); /* no such edge */
    canaries(__LINE__);

    put_word(table + 8 * top, 8, NEVELKNOP_EMPTY);
    put_word(lengths + 4 * top, 4, 0);
    EXPECT(witness(&sample) == REFUSED(NEVELKNOP_NO_PATH, top)); /* an unfinished table is a right one */
    c = sample, c.j = 3;
    EXPECT(witness(&c) == 3 && word(path, 6) == (2ull << 32 | 1u << 16));
}

/* Edge number 1023, whose high byte is not 0. */
static void high_edge(void) {
    struct call c = sample;
    c.edges = many_edges, c.edges_size = 6 * 1024, c.j = 1;
    put_word(many_edges + 6 * 1023, 6, (uint64_t)1 << 32 | 1 << 16);
    lend_all(8 * CELLS, 4 * CELLS, 2, 0);
    EXPECT(run(&c) == 1 && witness(&c) == 1 && word(path, 2) == 1023);
    canaries(__LINE__);
}

int main(void) {
    for (unsigned e = 0; e < sizeof many_edges; e += 6)
        many_edges[e + 2] = 2;
    EXPECT(nevelknop_refused(REFUSED(9, 4)) == 9 && nevelknop_place(REFUSED(9, 4)) == 4 && nevelknop_refused(4) == 0);
    for (size_t shift = 0; shift < 8; shift++)
        for (size_t more = 0; more < 20; more++)
            sample_report(more, shift);
    list_refusals();
    room_refusals();
    witness_refusals();
    high_edge();
    struct call none = sample;
    none.edges_size = none.rules_size = 0;
    lend_all(8 * CELLS, 4 * CELLS, 0, 0);
    EXPECT(run(&none) == 0 && holds(table, table_size, 255) && holds(lengths, lengths_size, 0));
    say("header: ");
    say_number(checks);
    say(" checks of the C calls\n");
    return 0;
}
