/* Nevelknop: paths in a labelled graph whose labels a grammar derives.
 *
 * nevelknop_run closes a table over a graph and a grammar; nevelknop_witness writes one path out of such a table.
 * Both are proved, allocate nothing, keep nothing between calls, and take any numbers and any bytes, in buffers lent as said
 * below: what they cannot serve they refuse. 1 MB of the caller's stack is enough for every call. Link with libnevelknop.a
 * (x86-64 Linux).
 *
 * Lists. A list is bytes that hold 16-bit words, low byte first, three words to a record:
 *   a rule   A, B, C       A -> B C, three nonterminals from 0
 *            A, x, 65535   A -> x, a label from 1
 *   an edge  from, label, to, two nodes from 0 and a label from 1
 * Served: nodes 1 to 16, nonterminals 1 to 8, labels 1 to 255, rules 0 to 256, edges 0 to 1,024.
 *
 * Buffers. All memory is the caller's and is only lent for the call: no pointer is kept. No two buffers may
 * overlap, none may be NULL even where its size is 0, and none needs an alignment. Every size is in bytes.
 *   table    8 bytes for each cell: a 64-bit word, low byte first: NEVELKNOP_EMPTY, or
 *            height * 2^32 + middle node * 65536 + rule number
 *   lengths  4 bytes for each cell: a 32-bit word, low byte first: the number of edges of the cell's path, 0 where the
 *            cell is empty, 4294967295 where it is that or more
 *   path     2 bytes for each edge of the path, whose number is in lengths: an edge number from 0, a 16-bit word, low byte first
 * There are nevelknop_cells(nodes, nonterminals) cells; the cell of A, i, j (from i to j by A) has the number
 * (A * nodes + i) * nodes + j. A larger buffer is fine; what lies past the words needed is left as it is,
 * and bytes at the end that make no whole word are neither read nor written.
 *
 * Answers. A call answers a count below 2^32, or refusal * 2^32 + place: ask nevelknop_refused first. A refused call
 * has changed no byte. (A run refused with NEVELKNOP_TOO_HIGH would leave all cells empty and all
 * lengths 0, but no table within the limits can be that high.)
 */
#ifndef NEVELKNOP_H
#define NEVELKNOP_H

#include <stddef.h>
#include <stdint.h>

#ifdef __cplusplus
extern "C" {
#endif

/* The word of an empty cell. */
#define NEVELKNOP_EMPTY UINT64_MAX

/* Refusals, and what their place says, in the order in which a call looks for them. */
enum nevelknop_refusal {
    NEVELKNOP_LIST = 5,       /* a list is no whole number of records: rules 0, edges 1 */
    NEVELKNOP_NUMBER = 4,     /* nodes not 1 to 64: 0, nonterminals not 1 to 32: 1, labels not 1 to 255: 2, over 256 rules: 4, over 4,096 edges: 5 */
    NEVELKNOP_RULE = 7,       /* a rule names no such nonterminal or label: the rule */
    NEVELKNOP_EDGE = 8,       /* an edge names no such node or label: the edge */
    NEVELKNOP_TOO_LARGE = 13, /* right so far, but over 16 nodes: 0, over 8 nonterminals: 1, over 1,024 edges: 5 */
    NEVELKNOP_ARGUMENT = 15,  /* a witness's argument is out of range: a 0, i 1, j 2 */
    NEVELKNOP_ROOM = 10,      /* a buffer is too short: table 0, lengths 1, and after NEVELKNOP_NO_PATH path 2 */
    NEVELKNOP_CELL = 11,      /* the table or its lengths are wrong: the lowest such cell */
    NEVELKNOP_NO_PATH = 14,   /* the cell is empty, there is no path: the cell */
    NEVELKNOP_TOO_HIGH = 12   /* a key over height 131,072: the cell */
};

/* Close the table: fill `table` and `lengths` for the graph and grammar. Answers the greatest height, 0 if no cell is filled. */
uint64_t nevelknop_run(uint32_t nodes, uint32_t nonterminals, uint32_t labels,
                       const uint8_t *rules, size_t rules_size,
                       const uint8_t *edges, size_t edges_size,
                       uint8_t *table, size_t table_size,
                       uint8_t *lengths, size_t lengths_size);

/* Write the path of cell (a, i, j), out of a table that is checked first, whoever made it. Answers how many edges it has.
 * NEVELKNOP_ROOM at 2 is given where `path` has no room for them, or their number is not known (4294967295). */
uint64_t nevelknop_witness(uint32_t nodes, uint32_t nonterminals, uint32_t labels,
                           const uint8_t *rules, size_t rules_size,
                           const uint8_t *edges, size_t edges_size,
                           uint32_t a, uint32_t i, uint32_t j,
                           const uint8_t *table, size_t table_size,
                           const uint8_t *lengths, size_t lengths_size,
                           uint8_t *path, size_t path_size);

/* The number of cells: `table` needs 8 bytes and `lengths` 4 bytes for each. */
static inline size_t nevelknop_cells(uint32_t nodes, uint32_t nonterminals) {
    return (size_t)nodes * nodes * nonterminals;
}

/* The refusal number of an answer, or 0 where the call was accepted. */
static inline uint32_t nevelknop_refused(uint64_t answer) {
    return (uint32_t)(answer >> 32);
}

/* The place of a refused answer, or the count of an accepted one. */
static inline uint32_t nevelknop_place(uint64_t answer) {
    return (uint32_t)answer;
}

#ifdef __cplusplus
}
#endif

#endif
