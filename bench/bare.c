/* Bare loops, the limits with which the benches compare the program: see bench/bare.sh.
   Usage: bare ITEMS SLOTS CYCLES READERS. Prints for each loop its name, what it did, and the least milliseconds of five runs. */
#include <stdint.h>
#include <stdio.h>
#include <stdlib.h>
#include <string.h>
#include <time.h>

enum { RUNS = 5, HEAD = 24, LENGTH = 4 };

static uint32_t items, slots, cycles, readers;
static size_t record; /* bytes of a record: its length, the head, an entry of four bytes for each item */
static uint8_t *piece; /* the records of one cycle */
static uint32_t *columns; /* items rows of items entries */

static double now(void) {
    struct timespec t;
    clock_gettime(CLOCK_MONOTONIC, &t);
    return t.tv_sec * 1e3 + t.tv_nsec / 1e6;
}

/* the compiler takes each byte of the memory for read */
static void keep(void *p) { __asm__ volatile("" : : "r"(p) : "memory"); }

static void put(uint8_t *at, unsigned bytes, uint64_t n) {
    for (unsigned k = 0; k < bytes; k++) at[k] = (uint8_t)(n >> 8 * (bytes - 1 - k));
}

/* a copy of the bytes of the tape, a cycle at a time into the same room */
static uint64_t copies(void) {
    static uint8_t *from;
    if (!from && !(from = calloc(slots, record))) exit(1);
    for (uint32_t c = 0; c < cycles; c++) {
        put(from, 4, c);
        keep(from);
        memcpy(piece, from, slots * record);
        keep(piece);
    }
    return (uint64_t)cycles * slots * record;
}

/* three words of PCG (XSH RR, 64 and 32 bits) for each push of each reader, and what they say: lost, twice, late */
static uint64_t words(void) {
    uint64_t heard = 0;
    for (uint32_t r = 0; r < readers; r++) {
        uint64_t state = 7 + r, step = 2 * (uint64_t)r + 1;
        for (uint64_t push = 0; push < (uint64_t)cycles * slots; push++) {
            uint32_t word[3];
            for (int k = 0; k < 3; k++) {
                uint64_t old = state;
                state = old * 6364136223846793005u + step;
                uint32_t mixed = (uint32_t)((old >> 18 ^ old) >> 27), turn = (uint32_t)(old >> 59);
                word[k] = mixed >> turn | mixed << (-turn & 31);
            }
            uint64_t due = push + (word[2] % 100 < 30 ? 1 + word[2] / 100 % 8 : 0);
            heard += word[0] % 100 < 10 ? 0 : word[1] % 100 < 10 ? 2 : 1;
            __asm__ volatile("" : : "r"(due));
        }
    }
    return heard;
}

/* the records of each cycle, from rows of entries: the length, the head, and each entry with its greatest byte first */
static uint64_t records(void) {
    for (uint32_t c = 1; c <= cycles; c++) {
        for (uint32_t s = 0; s < slots; s++) {
            uint8_t *restrict at = piece + s * record;
            uint32_t item = s % items, n = items;
            const uint32_t *restrict row = columns + (size_t)item * n;
            put(at, 4, record - LENGTH);
            at += LENGTH;
            memcpy(at, "AD\1\1", 4);
            put(at + 4, 2, 0), put(at + 6, 2, items), put(at + 8, 4, c), put(at + 12, 2, s), put(at + 14, 2, item), put(at + 16, 8, item * 1000003ull);
            at += HEAD;
            for (uint32_t e = 0; e < n; e++) {
                uint32_t big = __builtin_bswap32(row[e]);
                memcpy(at + 4 * e, &big, 4);
            }
        }
        keep(piece);
        columns[c % items * items + c % 7] = c;
    }
    return (uint64_t)cycles * slots * record;
}

/* a copy of each record as it was in the cycle before, with its cycle written in */
static uint64_t stamped(void) {
    static uint8_t *kept;
    if (!kept && !(kept = calloc(items, record))) exit(1);
    for (uint32_t c = 1; c <= cycles; c++) {
        for (uint32_t s = 0; s < slots; s++) {
            uint8_t *at = piece + s * record;
            memcpy(at, kept + (size_t)(s % items) * record, record);
            put(at + LENGTH + 8, 4, c), put(at + LENGTH + 12, 2, s);
        }
        keep(piece);
    }
    return (uint64_t)cycles * slots * record;
}

static void row(const char *name, uint64_t (*loop)(void), const char *unit) {
    double least = 1e99;
    uint64_t did = 0;
    for (int r = 0; r < RUNS; r++) {
        double began = now();
        did = loop();
        double took = now() - began;
        if (took < least) least = took;
    }
    printf("%-44s %14llu %-10s %10.1f\n", name, (unsigned long long)did, unit, least);
}

int main(int count, char **word) {
    if (count != 5) return 2;
    items = (uint32_t)atoi(word[1]), slots = (uint32_t)atoi(word[2]), cycles = (uint32_t)atoi(word[3]), readers = (uint32_t)atoi(word[4]);
    record = LENGTH + HEAD + 4 * (size_t)items;
    piece = calloc(slots, record);
    columns = calloc((size_t)items * items, sizeof *columns);
    if (!items || !piece || !columns) return 1;
    row("a copy of the bytes of the tape", copies, "bytes");
    row("three words a push", words, "heard");
    row("the records, encoded from rows of entries", records, "bytes");
    row("the records, copied and given their cycle", stamped, "bytes");
    return 0;
}
