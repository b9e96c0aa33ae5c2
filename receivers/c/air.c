/* An example, outside the proved program: see air.h. The headings are those of docs/FORMATS.md. */
#include "air.h"

#include <string.h>

#define HEAD 24u
/* the age that tells the entry 0; reads that lie this many cycles apart can't be judged by ages */
#define OLD 255u

/* Bucket */

static uint16_t two(const uint8_t *bytes)
{
    return (uint16_t)(bytes[0] << 8 | bytes[1]);
}

static uint32_t four(const uint8_t *bytes)
{
    return (uint32_t)two(bytes) << 16 | two(bytes + 2);
}

/* How many bytes an entry has, and how many items a bucket may be of; 0 of a version that isn't known. A version more is a case in each of these. */
static unsigned width_of(uint8_t version)
{
    return version == 1 ? 4 : version == 2 ? 1 : 0;
}

static unsigned most_of(uint8_t version)
{
    return version == 1 ? 256 : 1024;
}

/* Whether the bytes at an entry are one in a bucket of this version and cycle. */
static int is_entry(uint8_t version, const uint8_t *at, uint32_t cycle)
{
    switch (version) {
    case 1:
        return four(at) < cycle;
    default:
        return *at == OLD || (*at > 0 && *at < cycle);
    }
}

uint32_t air_entry(const struct air_bucket *bucket, uint16_t item)
{
    const uint8_t *at = bucket->entries + (size_t)item * width_of(bucket->version);

    switch (bucket->version) {
    case 1:
        return four(at);
    default:
        return *at == OLD ? 0 : bucket->cycle - *at;
    }
}

/* Whether the fields and the entries of a bucket are of its row. */
static int is_shaped(const struct air_bucket *bucket)
{
    unsigned width = width_of(bucket->version), at;

    if (bucket->count == 0 || bucket->count > most_of(bucket->version) || bucket->cycle == 0)
        return 0;
    if (bucket->kind == AIR_IDLE)
        return bucket->item == AIR_NO_ITEM && bucket->value == 0;
    for (at = 0; at < bucket->count; at++)
        if (!is_entry(bucket->version, bucket->entries + at * width, bucket->cycle))
            return 0;
    return bucket->item < bucket->count;
}

enum air_fault air_parse(const uint8_t *bytes, size_t length, struct air_bucket *bucket)
{
    struct air_bucket b;

    if (length < HEAD)
        return AIR_SHORT;
    if (memcmp(bytes, "AD", 2) != 0)
        return AIR_MAGIC;
    b.version = bytes[2], b.kind = bytes[3], b.edition = two(bytes + 4), b.count = two(bytes + 6), b.cycle = four(bytes + 8);
    b.slot = two(bytes + 12), b.item = two(bytes + 14), b.value = (uint64_t)four(bytes + 16) << 32 | four(bytes + 20);
    b.entries = bytes + HEAD;
    if (width_of(b.version) == 0)
        return AIR_VERSION;
    if (b.kind > AIR_VECTOR)
        return AIR_KIND;
    if (length != HEAD + (b.kind == AIR_IDLE ? 0 : (size_t)b.count * width_of(b.version)))
        return AIR_LENGTH;
    if (!is_shaped(&b))
        return AIR_SHAPE;
    *bucket = b;
    return AIR_BUCKET;
}

/* The plan: the form's number, policy, version, items, editions, readers; then each edition, and then each reader.
 * An edition is its first cycle, its number of slots, the item of each slot, and the place of each item in the order in which copies stay.
 * A reader is its room, age, tries, the number of its queries, and each of these: how many items it has, and these. */

enum { FORM, POLICY, VERSION, ITEMS, EDITIONS, READERS, PLAN_HEAD };
enum { FIRST, SLOTS, EDITION_HEAD };
enum { ROOM, AGE, TRIES, QUERIES, READER_HEAD };

static const uint16_t *slots_of(const uint16_t *edition)
{
    return edition + EDITION_HEAD;
}

static const uint16_t *after_edition(const uint16_t *plan, const uint16_t *edition)
{
    return edition + EDITION_HEAD + edition[SLOTS] + plan[ITEMS];
}

/* The edition in force in a cycle, and its number. */
static const uint16_t *edition_at(const uint16_t *plan, uint32_t cycle, uint16_t *number)
{
    const uint16_t *edition = plan + PLAN_HEAD, *next;

    for (*number = 0; *number + 1 < plan[EDITIONS]; ++*number) {
        next = after_edition(plan, edition);
        if (cycle < next[FIRST])
            break;
        edition = next;
    }
    return edition;
}

/* The words after the reader at these words, where there are so many left; NULL if it isn't a reader. */
static const uint16_t *after_reader(const uint16_t *plan, const uint16_t *reader, const uint16_t *end, enum air_refusal *why)
{
    const uint16_t *at = reader + READER_HEAD;
    unsigned query, item;

    if (end - reader < READER_HEAD || reader[TRIES] == 0 || reader[TRIES] > 255)
        return NULL;
    for (query = 0; query < reader[QUERIES]; query++, at += 1 + *at) {
        if (end - at < 1 || end - at - 1 < *at || *at == 0)
            return NULL;
        for (item = 1; item <= *at; item++)
            if (at[item] >= plan[ITEMS])
                return NULL;
        if (*at > AIR_READS)
            *why = AIR_TOO_LARGE;
    }
    return at;
}

enum air_refusal air_init(struct air_receiver *receiver, const uint16_t *plan, size_t words, uint16_t reader)
{
    const uint16_t *at = plan + PLAN_HEAD, *end = plan + words;
    enum air_refusal why = AIR_READY;
    uint16_t number;

    if (words < PLAN_HEAD || plan[FORM] != 1 || plan[POLICY] > AIR_R_MATRIX || plan[EDITIONS] == 0 || reader >= plan[READERS])
        return AIR_NO_PLAN;
    for (number = 0; number < plan[EDITIONS]; number++, at = after_edition(plan, at))
        if (end - at < EDITION_HEAD || end - at - EDITION_HEAD < (ptrdiff_t)at[SLOTS] + plan[ITEMS])
            return AIR_NO_PLAN;
    memset(receiver->counts, 0, sizeof receiver->counts);
    for (number = 0; number <= reader; number++) {
        why = plan[ITEMS] > AIR_ITEMS ? AIR_TOO_LARGE : AIR_READY;
        receiver->reader = at;
        at = after_reader(plan, at, end, &why);
        if (at == NULL)
            return AIR_NO_PLAN;
    }
#ifdef AIR_THIN
    if (plan[POLICY] != AIR_F_MATRIX || receiver->reader[ROOM] > 0)
        return AIR_NOT_THIN;
#else
    receiver->newest = 0;
#endif
#if AIR_ROOM > 0
    receiver->copies = 0;
#endif
    if (receiver->reader[ROOM] > AIR_ROOM)
        why = AIR_TOO_LARGE;
    receiver->plan = plan;
    receiver->wants = receiver->reader + READER_HEAD;
    receiver->query = receiver->end_item = receiver->clash = receiver->heard_slot = 0;
    receiver->reads = receiver->end = receiver->is_told = receiver->is_over = 0;
    receiver->end_cycle = receiver->heard_cycle = 0;
    receiver->attempt = 1;
    return why;
}

/* The query and the attempt */

static int has_query(const struct air_receiver *receiver)
{
    return receiver->query < receiver->reader[QUERIES];
}

/* How many items the query has, and these. */
static uint16_t query_length(const struct air_receiver *receiver)
{
    return receiver->wants[0];
}

static const uint16_t *query_items(const struct air_receiver *receiver)
{
    return receiver->wants + 1;
}

/* The item that an attempt waits for. */
static uint16_t wanted(const struct air_receiver *receiver)
{
    return has_query(receiver) ? query_items(receiver)[receiver->reads] : AIR_NO_ITEM;
}

/* The attempt ends with the read of the wanted item in this cycle. */
static void end_attempt(struct air_receiver *receiver, enum air_end end, uint32_t cycle, uint16_t clash)
{
    receiver->end = (uint8_t)end;
    receiver->end_item = wanted(receiver);
    receiver->end_cycle = cycle;
    receiver->clash = clash;
    receiver->is_told = 0;
}

/* Begins the next attempt, or the next query, if an attempt has ended. */
static void begin(struct air_receiver *receiver)
{
    int again = (receiver->end == AIR_ABORT || receiver->end == AIR_AGED) && receiver->attempt < receiver->reader[TRIES];

    if (receiver->end == AIR_GOES_ON)
        return;
    if (!again) {
        receiver->wants += 1 + query_length(receiver);
        receiver->query++;
    }
    receiver->attempt = (uint8_t)(again ? receiver->attempt + 1 : 1);
    receiver->reads = 0;
    receiver->end = AIR_GOES_ON;
}

static void tell(struct air_receiver *receiver, struct air_verdict *verdict)
{
    receiver->is_told = 1;
    verdict->end = receiver->end;
    verdict->query = receiver->query;
    verdict->attempt = receiver->attempt;
    verdict->reads = receiver->reads;
    verdict->items = query_items(receiver);
    verdict->cycles = receiver->cycles;
    verdict->values = receiver->values;
    verdict->item = receiver->end_item;
    verdict->cycle = receiver->end_cycle;
    verdict->clash = receiver->clash;
}

/* Judge. A read is judged by its row: its entry of each of the query's items. */

static int is_far(const struct air_receiver *receiver, uint32_t cycle)
{
    uint8_t read;

    for (read = 0; read < receiver->reads; read++) {
        uint32_t held = receiver->cycles[read];
        if ((held < cycle ? cycle - held : held - cycle) >= OLD)
            return receiver->plan[VERSION] >= 2;
    }
    return 0;
}

static int is_earlier(const struct air_receiver *receiver, uint32_t cycle)
{
    return receiver->reads > 0 && cycle < receiver->cycles[receiver->reads - 1];
}

static int is_late(const struct air_receiver *receiver, uint32_t cycle)
{
    return receiver->plan[POLICY] == AIR_R_MATRIX && is_earlier(receiver, cycle);
}

#ifdef AIR_THIN

static int clashes_with(const struct air_receiver *receiver, uint8_t read, uint32_t cycle, const uint32_t *row)
{
    (void)cycle;
    return row[read] >= receiver->cycles[read];
}

#else

/* The first held read of the greatest cycle. */
static uint8_t newest_read(const struct air_receiver *receiver)
{
    uint8_t newest = 0, read;

    for (read = 1; read < receiver->reads; read++)
        if (receiver->cycles[read] > receiver->cycles[newest])
            newest = read;
    return newest;
}

/* Whether the wanted item's read, in this cycle and with this row, clashes with a held one. */
static int clashes_with(const struct air_receiver *receiver, uint8_t read, uint32_t cycle, const uint32_t *row)
{
    int is_stale = row[read] >= receiver->cycles[read];
    uint8_t newest;

    switch (receiver->plan[POLICY]) {
    case AIR_F_MATRIX:
        return is_stale || receiver->entries[read][receiver->reads] >= cycle;
    case AIR_DATACYCLE:
        newest = newest_read(receiver);
        if (cycle >= receiver->cycles[newest])
            return is_stale;
        return receiver->entries[newest][receiver->reads] >= cycle && receiver->cycles[read] == receiver->cycles[newest];
    default:
        return is_stale && row[receiver->reads] >= receiver->cycles[0];
    }
}

#endif

/* The least item among the held reads with which the wanted item's read clashes; AIR_NO_ITEM if there is none. */
static uint16_t clash_of(const struct air_receiver *receiver, uint32_t cycle, const uint32_t *row)
{
    uint16_t least = AIR_NO_ITEM;
    uint8_t read;

    for (read = 0; read < receiver->reads; read++)
        if (query_items(receiver)[read] < least && clashes_with(receiver, read, cycle, row))
            least = query_items(receiver)[read];
    return least;
}

/* Holds the wanted item's read; with the last item the query is accepted. */
static void hold(struct air_receiver *receiver, uint32_t cycle, uint64_t value, const uint32_t *row)
{
    receiver->cycles[receiver->reads] = cycle;
    receiver->values[receiver->reads] = value;
#ifndef AIR_THIN
    memcpy(receiver->entries[receiver->reads], row, sizeof receiver->entries[0]);
#else
    (void)row;
#endif
    if (receiver->reads + 1 == query_length(receiver))
        end_attempt(receiver, AIR_ACCEPT, 0, AIR_NO_ITEM);
    receiver->reads++;
}

#if AIR_ROOM > 0

/* The number of the copy of an item; that of all copies if there is none. */
static uint16_t copy_of(const struct air_receiver *receiver, uint16_t item)
{
    uint16_t copy = 0;

    while (copy < receiver->copies && receiver->copy_items[copy] != item)
        copy++;
    return copy;
}

static int has_copy(const struct air_receiver *receiver, uint16_t item)
{
    return copy_of(receiver, item) < receiver->copies;
}

/* Drops the copy of an item, if there is one: the last copy takes its place. */
static void drop_copy(struct air_receiver *receiver, uint16_t item)
{
    uint16_t copy = copy_of(receiver, item), last = (uint16_t)(receiver->copies - 1);

    if (copy == receiver->copies)
        return;
    receiver->copies = last;
    receiver->copy_items[copy] = receiver->copy_items[last];
    receiver->copy_cycles[copy] = receiver->copy_cycles[last];
    receiver->copy_values[copy] = receiver->copy_values[last];
    if (copy != last)
        memcpy(receiver->copy_entries[copy], receiver->copy_entries[last], receiver->plan[ITEMS] * sizeof(uint32_t));
}

/* Keep */

/* The place at which a bucket of this item is kept: that of its copy, one that is free, or that of the item that goes; the number of all copies
 * that there is room for if this one goes. */
static uint16_t place_for(struct air_receiver *receiver, uint16_t item)
{
    uint16_t copy = copy_of(receiver, item), other, number, room = receiver->reader[ROOM];
    const uint16_t *edition, *ranks;

    if (copy < receiver->copies)
        return copy;
    if (receiver->copies < room)
        return receiver->copies++;
    edition = edition_at(receiver->plan, receiver->newest, &number);
    ranks = slots_of(edition) + edition[SLOTS];
    for (other = 0; other < room; other++)
        if (ranks[receiver->copy_items[other]] > ranks[copy < room ? receiver->copy_items[copy] : item])
            copy = other;
    return copy;
}

static void keep(struct air_receiver *receiver, const struct air_bucket *bucket)
{
    uint16_t copy = place_for(receiver, bucket->item), item;

    if (copy == receiver->reader[ROOM])
        return;
    receiver->copy_items[copy] = bucket->item;
    receiver->copy_cycles[copy] = bucket->cycle;
    receiver->copy_values[copy] = bucket->value;
    for (item = 0; item < receiver->plan[ITEMS]; item++)
        receiver->copy_entries[copy][item] = air_entry(bucket, item);
}

/* Settle */

static int is_usable(const struct air_receiver *receiver, uint32_t cycle, const uint32_t *row)
{
    return receiver->newest - cycle <= receiver->reader[AGE] && !is_late(receiver, cycle) && !is_far(receiver, cycle) &&
           clash_of(receiver, cycle, row) == AIR_NO_ITEM;
}

/* Reads the wanted item from its copy, as long as there is one, and up to an accept. */
static void settle(struct air_receiver *receiver)
{
    uint32_t row[AIR_READS] = {0};
    uint16_t copy, read;

    while (receiver->end == AIR_GOES_ON && (copy = copy_of(receiver, wanted(receiver))) < receiver->copies) {
        for (read = 0; read < query_length(receiver); read++)
            row[read] = receiver->copy_entries[copy][query_items(receiver)[read]];
        if (is_usable(receiver, receiver->copy_cycles[copy], row)) {
            receiver->counts[AIR_COPIED]++;
            hold(receiver, receiver->copy_cycles[copy], receiver->copy_values[copy], row);
        } else {
            drop_copy(receiver, wanted(receiver));
        }
    }
}

#else

static int has_copy(const struct air_receiver *receiver, uint16_t item) { (void)receiver, (void)item; return 0; }
static void drop_copy(struct air_receiver *receiver, uint16_t item) { (void)receiver, (void)item; }
static void keep(struct air_receiver *receiver, const struct air_bucket *bucket) { (void)receiver, (void)bucket; }
static void settle(struct air_receiver *receiver) { (void)receiver; }

#endif

/* Hear */

static int fits(const uint16_t *plan, const struct air_bucket *bucket)
{
    uint16_t number, item;
    const uint16_t *edition = edition_at(plan, bucket->cycle, &number);

    if (bucket->version > plan[VERSION] || bucket->edition != number || bucket->slot >= edition[SLOTS] || bucket->count != plan[ITEMS])
        return 0;
    item = slots_of(edition)[bucket->slot];
    if (item == AIR_NO_ITEM)
        return bucket->kind == AIR_IDLE;
    return bucket->item == item && bucket->kind == (plan[POLICY] == AIR_F_MATRIX ? AIR_COLUMN : AIR_VECTOR);
}

/* Judges a wanted bucket and keeps it; the thin build leaves an earlier one. */
static enum air_count open_bucket(struct air_receiver *receiver, const struct air_bucket *bucket)
{
    uint32_t row[AIR_READS] = {0};
    uint16_t clash, read;

    if (is_far(receiver, bucket->cycle)) {
        end_attempt(receiver, AIR_AGED, bucket->cycle, AIR_NO_ITEM);
        keep(receiver, bucket);
        return AIR_OPENED;
    }
#ifdef AIR_THIN
    if (is_earlier(receiver, bucket->cycle))
        return AIR_EARLIER;
#endif
    for (read = 0; read < query_length(receiver); read++)
        row[read] = air_entry(bucket, query_items(receiver)[read]);
    clash = clash_of(receiver, bucket->cycle, row);
    if (clash == AIR_NO_ITEM) {
        hold(receiver, bucket->cycle, bucket->value, row);
    } else {
        end_attempt(receiver, AIR_ABORT, bucket->cycle, clash);
        drop_copy(receiver, clash);
    }
    keep(receiver, bucket);
    return AIR_OPENED;
}

static enum air_count hear(struct air_receiver *receiver, const uint8_t *bytes, size_t length)
{
    struct air_bucket bucket;

    if (air_parse(bytes, length, &bucket) != AIR_BUCKET)
        return AIR_REFUSED;
    if (!fits(receiver->plan, &bucket))
        return AIR_FOREIGN;
    receiver->heard_cycle = bucket.cycle;
    receiver->heard_slot = bucket.slot;
#ifndef AIR_THIN
    if (receiver->newest < bucket.cycle)
        receiver->newest = bucket.cycle;
#endif
    if (bucket.kind == AIR_IDLE || bucket.item != wanted(receiver))
        return AIR_DOZED;
    if (is_late(receiver, bucket.cycle))
        return AIR_LATE;
    return open_bucket(receiver, &bucket);
}

enum air_count air_hear(struct air_receiver *receiver, const uint8_t *bytes, size_t length)
{
    struct air_verdict untaken;
    enum air_count count;

    while (air_next(receiver, &untaken)) {
    }
    count = hear(receiver, bytes, length);
    receiver->counts[count]++;
    return count;
}

int air_next(struct air_receiver *receiver, struct air_verdict *verdict)
{
    if (receiver->end == AIR_GOES_ON || receiver->is_told) {
        begin(receiver);
        settle(receiver);
    }
    if (receiver->end == AIR_GOES_ON)
        return 0;
    tell(receiver, verdict);
    return 1;
}

int air_finish(struct air_receiver *receiver, struct air_verdict *verdict)
{
    if (!receiver->is_over && air_next(receiver, verdict))
        return 1;
    receiver->is_over = 1;
    begin(receiver);
    if (!has_query(receiver))
        return 0;
    end_attempt(receiver, AIR_UNFINISHED, 0, AIR_NO_ITEM);
    tell(receiver, verdict);
    return 1;
}

/* How many slots of the edition are after the slot of the last bucket that fitted, up to its last cycle. */
static uint32_t slots_left(const struct air_receiver *receiver, const uint16_t *edition, uint16_t number)
{
    uint32_t cycles;

    if (number + 1 >= receiver->plan[EDITIONS])
        return AIR_FOREVER;
    cycles = after_edition(receiver->plan, edition)[FIRST] - receiver->heard_cycle;
    return cycles * edition[SLOTS] - receiver->heard_slot - 1;
}

uint32_t air_wake(const struct air_receiver *receiver)
{
    const uint16_t *edition;
    uint16_t number, item;
    uint32_t away, left, slots;

    if (receiver->end != AIR_GOES_ON || receiver->heard_cycle == 0)
        return 0;
    item = wanted(receiver);
    if (item == AIR_NO_ITEM)
        return AIR_FOREVER;
    if (has_copy(receiver, item))
        return 0;
    edition = edition_at(receiver->plan, receiver->heard_cycle, &number);
    slots = edition[SLOTS];
    for (away = 0; away < slots && slots_of(edition)[(receiver->heard_slot + 1 + away) % slots] != item; away++) {
    }
    left = slots_left(receiver, edition, number);
    return away < left ? away : left;
}
