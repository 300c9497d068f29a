/* A server of C calls for tests/compare.py: cases on standard input, what each call answered and left on standard output.
 *
 * A case is 17 words of 32 bits: 0 for a run or 1 for a witness; nodes, nonterminals, labels; a, i, j; then for rules,
 * edges, table, lengths and path their size in bytes, and for each how far off an aligned address it is to lie; then
 * the bytes of these five buffers. The reply is the 64-bit answer; 32 bits, where bit b says that the call wrote
 * outside buffer b, or into it where it is only read; and the bytes of table, lengths and path. A path of size 2^32 - 1
 * has no bytes in either: it stands for 2^33 bytes of addresses that nobody may touch.
 */
#include <nevelknop.h>

extern long read(int file, void *to, size_t size);
extern long write(int file, const void *from, size_t size);
extern void *mmap(void *at, size_t size, int protection, int flags, int file, long offset);

enum { RULES, EDGES, TABLE, LENGTHS, PATH, BUFFERS };
enum { GUARD = 64, CANARY = 0xA5, MOST = 4 << 20 };
enum { UNTOUCHABLE = 0, PRIVATE_ANONYMOUS_NORESERVE = 0x4022 }; /* Linux's numbers for mmap */
#define FAR ((size_t)1 << 33)

static uint8_t memory[BUFFERS][MOST + 3 * GUARD], copies[BUFFERS][MOST];
static uint8_t *buffer[BUFFERS];

static int get(void *to, size_t size) {
    for (uint8_t *at = to; size > 0;) {
        long some = read(0, at, size);
        if (some <= 0)
            return 0;
        at += some;
        size -= (size_t)some;
    }
    return 1;
}

static int put(const void *from, size_t size) {
    for (const uint8_t *at = from; size > 0;) {
        long some = write(1, at, size);
        if (some <= 0)
            return 0;
        at += some;
        size -= (size_t)some;
    }
    return 1;
}

static void fill(uint8_t *at, size_t size, uint8_t byte) {
    while (size-- > 0)
        *at++ = byte;
}

static int filled(const uint8_t *at, size_t size, uint8_t byte) {
    while (size-- > 0)
        if (*at++ != byte)
            return 0;
    return 1;
}

static int same(const uint8_t *one, const uint8_t *other, size_t size) {
    while (size-- > 0)
        if (*one++ != *other++)
            return 0;
    return 1;
}

/* Put one buffer's bytes between guards. */
static int lend(int b, uint32_t size, uint32_t off) {
    if (size > MOST || off >= GUARD)
        return 0;
    buffer[b] = memory[b] + GUARD + off;
    fill(buffer[b] - GUARD, GUARD, CANARY);
    fill(buffer[b] + size, GUARD, CANARY);
    if (!get(buffer[b], size))
        return 0;
    for (size_t at = 0; at < size; at++)
        copies[b][at] = buffer[b][at];
    return 1;
}

/* Whether a call wrote outside a buffer, or into one that it only reads: a run writes table and lengths, a witness the path. */
static int harmed(int b, uint32_t size, int witness) {
    int written = witness ? b == PATH : b == TABLE || b == LENGTHS;
    return !filled(buffer[b] - GUARD, GUARD, CANARY) || !filled(buffer[b] + size, GUARD, CANARY) ||
           (!written && !same(buffer[b], copies[b], size));
}

static uint64_t call(const uint32_t *head, uint8_t *path, size_t path_size) {
    const uint32_t *size = head + 7;
    if (head[0] == 0)
        return nevelknop_run(head[1], head[2], head[3], buffer[RULES], size[RULES], buffer[EDGES], size[EDGES],
                             buffer[TABLE], size[TABLE], buffer[LENGTHS], size[LENGTHS]);
    return nevelknop_witness(head[1], head[2], head[3], buffer[RULES], size[RULES], buffer[EDGES], size[EDGES],
                             head[4], head[5], head[6], buffer[TABLE], size[TABLE], buffer[LENGTHS], size[LENGTHS],
                             path, path_size);
}

int main(void) {
    uint32_t head[17], *size = head + 7, *off = head + 12;
    uint8_t *far = mmap(0, FAR, UNTOUCHABLE, PRIVATE_ANONYMOUS_NORESERVE, -1, 0);
    while (get(head, sizeof head)) {
        int is_far = size[PATH] == UINT32_MAX;
        if (is_far)
            size[PATH] = 0;
        for (int b = 0; b < BUFFERS; b++)
            if (!lend(b, size[b], off[b]))
                return 2;
        uint64_t answer = is_far ? call(head, far, FAR) : call(head, buffer[PATH], size[PATH]);
        uint32_t harm = 0;
        for (int b = 0; b < BUFFERS; b++)
            harm |= (uint32_t)harmed(b, size[b], head[0] != 0) << b;
        if (!put(&answer, sizeof answer) || !put(&harm, sizeof harm))
            return 2;
        for (int b = TABLE; b < BUFFERS; b++)
            if (!put(buffer[b], size[b]))
                return 2;
    }
    return 0;
}
