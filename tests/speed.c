/* Times the run and the rows against the same loops in C, and the reader; tests/speed.py says on what.
 *
 * Reads cases on standard input: a tag, then for 1 a net (nodes, nonterminals, labels, rules, edges and the words of both
 * lists), for 2 a deck (its size and its bytes). Writes a line a case, in nanoseconds of processor time, best of five.
 * Every answer, table, length and row is compared first; a difference ends it.
 */
#include <stdint.h>
#include <stdio.h>
#include <stdlib.h>
#include <string.h>
#include <time.h>

enum { CELLS = 131072, ROWS = 2048, TIMES = 5 };
#define EMPTY UINT64_MAX

/* Rattle passes a slice as a pointer and a length. */
uint64_t speed_run(uint32_t nodes, uint32_t nonterminals, uint32_t labels, const uint16_t *rules, size_t rule_words,
                   const uint16_t *edges, size_t edge_words, uint64_t *table, size_t cells, uint32_t *lengths, size_t room);
uint64_t speed_rows(uint32_t nodes, uint32_t nonterminals, uint32_t labels, const uint16_t *rules, size_t rule_words,
                    const uint16_t *edges, size_t edge_words, uint64_t *rows, size_t count);
uint64_t speed_read(const uint8_t *deck, size_t size, uint16_t *rules, size_t rule_words, uint16_t *edges, size_t edge_words);

static uint32_t nodes, nonterminals, labels, rule_count, edge_count;
static uint16_t rules[768], edges[12288];
static uint64_t table[2][CELLS], rows[2][ROWS];
static uint32_t lengths[2][CELLS];
static uint64_t depths[2];

static size_t cell(size_t a, size_t i, size_t j) { return (a * nodes + i) * nodes + j; }

static void start(uint64_t *t) {
    for (size_t c = 0; c < cell(nonterminals, 0, 0); c++) t[c] = EMPTY;
    for (uint64_t r = 0; r < rule_count; r++) {
        if (rules[3 * r + 2] != 65535) continue;
        for (size_t e = 0; e < edge_count; e++) {
            const uint16_t *edge = edges + 3 * e;
            if (edge[1] != rules[3 * r + 1]) continue;
            uint64_t key = (uint64_t)1 << 32 | (uint64_t)edge[0] << 16 | r;
            uint64_t *to = t + cell(rules[3 * r], edge[0], edge[2]);
            if (key < *to) *to = key;
        }
    }
}

static int pass(uint64_t *t) {
    int moved = 0;
    for (uint64_t r = 0; r < rule_count; r++) {
        const uint16_t *rule = rules + 3 * r;
        if (rule[2] == 65535) continue;
        for (size_t i = 0; i < nodes; i++)
            for (uint64_t k = 0; k < nodes; k++) {
                uint64_t left = t[cell(rule[1], i, k)];
                if (left == EMPTY) continue;
                for (size_t j = 0; j < nodes; j++) {
                    uint64_t right = t[cell(rule[2], k, j)], *to = t + cell(rule[0], i, j);
                    if (right == EMPTY) continue;
                    uint64_t key = ((left > right ? left : right) >> 32) + 1;
                    key = key << 32 | k << 16 | r;
                    if (key < *to) *to = key, moved = 1;
                }
            }
    }
    return moved;
}

static int sweep(const uint64_t *t, uint32_t *ls) {
    int moved = 0;
    for (size_t c = 0; c < cell(nonterminals, 0, 0); c++) {
        if (t[c] == EMPTY || ls[c]) continue;
        const uint16_t *rule = rules + 3 * (t[c] & 65535);
        size_t k = t[c] >> 16 & 65535;
        uint64_t sum = 1;
        if (t[c] >> 32 != 1) {
            uint32_t left = ls[cell(rule[1], c / nodes % nodes, k)], right = ls[cell(rule[2], k, c % nodes)];
            if (!left || !right) continue;
            sum = (uint64_t)left + right;
        }
        ls[c] = sum < UINT32_MAX ? (uint32_t)sum : UINT32_MAX;
        moved = 1;
    }
    return moved;
}

static void c_run(void) {
    start(table[0]);
    while (pass(table[0])) {}
    for (size_t c = 0; c < cell(nonterminals, 0, 0); c++) lengths[0][c] = 0;
    while (sweep(table[0], lengths[0])) {}
    depths[0] = 0;
    for (size_t c = 0; c < cell(nonterminals, 0, 0); c++)
        if (table[0][c] != EMPTY && table[0][c] >> 32 > depths[0]) depths[0] = table[0][c] >> 32;
}

static int c_round(uint64_t *rs) {
    int changed = 0;
    for (size_t r = 0; r < rule_count; r++) {
        const uint16_t *rule = rules + 3 * r;
        if (rule[2] == 65535) continue;
        for (size_t i = 0; i < nodes; i++) {
            uint64_t row = rs[rule[0] * nodes + i], old = row;
            for (uint64_t left = rs[rule[1] * nodes + i]; left; left &= left - 1)
                row |= rs[rule[2] * nodes + (size_t)__builtin_ctzll(left)];
            rs[rule[0] * nodes + i] = row;
            changed |= row != old;
        }
    }
    return changed;
}

static void c_rows(void) {
    for (size_t i = 0; i < nonterminals * nodes; i++) rows[0][i] = 0;
    for (size_t r = 0; r < rule_count; r++)
        for (size_t e = 0; rules[3 * r + 2] == 65535 && e < edge_count; e++)
            if (edges[3 * e + 1] == rules[3 * r + 1])
                rows[0][rules[3 * r] * nodes + edges[3 * e]] |= (uint64_t)1 << edges[3 * e + 2];
    while (c_round(rows[0])) {}
}

static void our_run(void) {
    depths[1] = speed_run(nodes, nonterminals, labels, rules, 3 * rule_count, edges, 3 * edge_count,
                          table[1], CELLS, lengths[1], CELLS);
}

static void our_rows(void) {
    if (speed_rows(nodes, nonterminals, labels, rules, 3 * rule_count, edges, 3 * edge_count, rows[1], ROWS)) exit(2);
}

static uint8_t deck[29696];
static uint32_t deck_size;

static void our_read(void) {
    if (!speed_read(deck, deck_size, rules, 768, edges, 12288)) exit(3);
}

static long best(void (*work)(void)) {
    long least = -1;
    for (int n = 0; n < TIMES; n++) {
        struct timespec a, b;
        clock_gettime(CLOCK_PROCESS_CPUTIME_ID, &a);
        work();
        clock_gettime(CLOCK_PROCESS_CPUTIME_ID, &b);
        long took = (b.tv_sec - a.tv_sec) * 1000000000L + (b.tv_nsec - a.tv_nsec);
        if (least < 0 || took < least) least = took;
    }
    return least;
}

static void take(void *to, size_t size) {
    if (fread(to, 1, size, stdin) != size) exit(4);
}

static void time_net(void) {
    uint32_t *numbers[] = {&nodes, &nonterminals, &labels, &rule_count, &edge_count};
    for (int n = 0; n < 5; n++) take(numbers[n], 4);
    take(rules, 6 * rule_count);
    take(edges, 6 * edge_count);
    long c = best(c_run), ours = best(our_run), c_bits = best(c_rows), our_bits = best(our_rows);
    size_t cells = cell(nonterminals, 0, 0), filled = 0;
    if (depths[0] != depths[1] || memcmp(table[0], table[1], 8 * cells) || memcmp(lengths[0], lengths[1], 4 * cells)
        || memcmp(rows[0], rows[1], 8 * nonterminals * nodes)) exit(5);
    for (size_t n = 0; n < cells; n++) filled += table[1][n] != EMPTY;
    printf("%zu %ld %ld %ld %ld\n", filled, c, ours, c_bits, our_bits);
}

int main(void) {
    uint32_t tag;
    while (fread(&tag, 1, 4, stdin) == 4) {
        if (tag == 1) {
            time_net();
            continue;
        }
        take(&deck_size, 4);
        take(deck, deck_size);
        printf("%ld\n", best(our_read));
    }
    return 0;
}
