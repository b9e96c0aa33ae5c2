/* An example, outside the proved program: a receiver for small machines, in C99. docs/FORMATS.md is all that it was written from, and ../README.md
 * says how it is used. It allocates nothing, has no floating point, and calls no library but memcmp and memset.
 *
 *     static struct air_receiver receiver;
 *     air_init(&receiver, air_plan, sizeof air_plan / sizeof *air_plan, 0);
 *     for each datagram:
 *         air_hear(&receiver, bytes, length);
 *         while (air_next(&receiver, &verdict)) ..;
 *
 * There are two builds. The full one does what FORMATS says, on every input. The thin one (-DAIR_THIN) keeps no entries: it is for air that comes in
 * order of cycles, under F-Matrix, and for readers without copies.
 */
#ifndef AIR_H
#define AIR_H

#include <stddef.h>
#include <stdint.h>

/* How many items a deck may have, a query may want, and for how many copies a reader may have room. ../README.md says what each costs. */
#ifndef AIR_ITEMS
#define AIR_ITEMS 256
#endif
#ifndef AIR_READS
#define AIR_READS 16
#endif
#ifdef AIR_THIN
#undef AIR_ROOM
#define AIR_ROOM 0
#endif
#ifndef AIR_ROOM
#define AIR_ROOM 0
#endif
#if AIR_ITEMS < 1 || AIR_ITEMS > 1024 || AIR_READS < 1 || AIR_READS > 16 || AIR_ROOM > 256
#error "AIR_ITEMS is 1 to 1024, AIR_READS 1 to 16, AIR_ROOM 0 to 256"
#endif

/* The item of an idle slot, and of none. */
#define AIR_NO_ITEM 65535u
/* What air_wake answers if nothing is wanted any more. */
#define AIR_FOREVER UINT32_MAX

enum air_policy { AIR_F_MATRIX, AIR_DATACYCLE, AIR_R_MATRIX };
enum air_kind { AIR_IDLE, AIR_COLUMN, AIR_VECTOR };
/* The faults of bytes that are no bucket: the first that applies. */
enum air_fault { AIR_BUCKET, AIR_SHORT, AIR_MAGIC, AIR_VERSION, AIR_KIND, AIR_LENGTH, AIR_SHAPE };
/* What becomes of what is heard, and `copied`. `earlier` is of the thin build alone: a wanted bucket of an earlier cycle than the last held read. */
enum air_count { AIR_OPENED, AIR_DOZED, AIR_LATE, AIR_REFUSED, AIR_FOREIGN, AIR_COPIED, AIR_EARLIER, AIR_COUNTS };
/* How an attempt ends. */
enum air_end { AIR_GOES_ON, AIR_ACCEPT, AIR_ABORT, AIR_AGED, AIR_UNFINISHED };
/* Why there is no receiver of a plan: it isn't one, it needs a build of greater sizes, or it isn't for the thin build. */
enum air_refusal { AIR_READY, AIR_NO_PLAN, AIR_TOO_LARGE, AIR_NOT_THIN };

/* A bucket. Its entries are still in the bytes that it was parsed of. */
struct air_bucket {
    uint8_t version, kind;
    uint16_t edition, count, slot, item;
    uint32_t cycle;
    uint64_t value;
    const uint8_t *entries;
};

/* A verdict. Its reads are those of the receiver, up to its next call: the first `reads` of the items are read, in these cycles and with these
 * values. Of an abort and of an aged attempt there is the item and the cycle of the read that ended it, and of an abort the item that it clashes with. */
struct air_verdict {
    uint8_t end, attempt, reads;
    uint16_t query, item, clash;
    uint32_t cycle;
    const uint16_t *items;
    const uint32_t *cycles;
    const uint64_t *values;
};

/* A receiver. Its fields are its own, except for `counts`, which may be read. */
struct air_receiver {
    uint32_t counts[AIR_COUNTS];
    /* the plan; of it the reader, and the query at hand */
    const uint16_t *plan, *reader, *wants;
    uint16_t query, end_item, clash, heard_slot;
    uint8_t attempt, reads, end, is_told, is_over;
    uint32_t end_cycle, heard_cycle;
    /* the held reads */
    uint32_t cycles[AIR_READS];
    uint64_t values[AIR_READS];
#ifndef AIR_THIN
    /* of each held read the entries of the query's items: no other is ever looked at */
    uint32_t entries[AIR_READS][AIR_READS];
    uint32_t newest;
#endif
#if AIR_ROOM > 0
    uint16_t copies, copy_items[AIR_ROOM];
    uint32_t copy_cycles[AIR_ROOM];
    uint64_t copy_values[AIR_ROOM];
    uint32_t copy_entries[AIR_ROOM][AIR_ITEMS];
#endif
};

/* Reads a bucket. Answers AIR_BUCKET, or the fault of bytes that are none, of which nothing is told. */
enum air_fault air_parse(const uint8_t *bytes, size_t length, struct air_bucket *bucket);

/* The entry of an item, below the bucket's count, that is no idle one. */
uint32_t air_entry(const struct air_bucket *bucket, uint16_t item);

/* Makes a receiver of the reader of this number. The plan is this many words, as plan.py makes them, and is kept in use. */
enum air_refusal air_init(struct air_receiver *receiver, const uint16_t *plan, size_t words, uint16_t reader);

/* Hears what a datagram or a record holds, whatever it is, and answers the count that it raised. Verdicts that nobody took are dropped. */
enum air_count air_hear(struct air_receiver *receiver, const uint8_t *bytes, size_t length);

/* The next verdict, or 0 if there is none before more is heard. */
int air_next(struct air_receiver *receiver, struct air_verdict *verdict);

/* After all is heard: as air_next, and after that each query that is left is unfinished. Nothing is heard after it. */
int air_finish(struct air_receiver *receiver, struct air_verdict *verdict);

/* How many slots after that of the last bucket that fitted don't matter, within its edition: the receiver may sleep through them. It is 0 before
 * there was one and as long as there are verdicts to take, and AIR_FOREVER after the last query. */
uint32_t air_wake(const struct air_receiver *receiver);

#endif
