/* An example, outside the proved program: lets libFuzzer try air_parse, air_init and air_hear over any bytes. An input is a number of two bytes, that many words of
 * a plan, the number of a reader, and records, each of them with its length in two bytes before it. */
#include <stdlib.h>

#include "air.h"

int LLVMFuzzerTestOneInput(const uint8_t *bytes, size_t length);

#define MOST_WORDS 4096

static uint16_t plan[MOST_WORDS];
static struct air_receiver receiver;

static size_t two(const uint8_t *bytes)
{
    return (size_t)bytes[0] << 8 | bytes[1];
}

/* Stops the run if something isn't as it has to be. */
static void need(int holds)
{
    if (!holds)
        abort();
}

/* Takes all verdicts that there are: each has as many reads as there is room for, and one that ended by a read names it. */
static void take(int (*next)(struct air_receiver *, struct air_verdict *))
{
    struct air_verdict verdict;

    while (next(&receiver, &verdict)) {
        need(verdict.end >= AIR_ACCEPT && verdict.end <= AIR_UNFINISHED && verdict.reads <= AIR_READS);
        need((verdict.end == AIR_ABORT || verdict.end == AIR_AGED) == (verdict.cycle > 0));
        need(verdict.end != AIR_ABORT || verdict.clash < AIR_ITEMS);
    }
}

/* Hears a record, in memory of its own, so that each byte outside it is seen to be looked at: one count rises by one, and it is `refused` if and only if the
 * bytes are no bucket. */
static void hear(const uint8_t *bytes, size_t length)
{
    uint8_t *own = malloc(length + !length);
    struct air_bucket bucket;
    uint32_t before;
    enum air_count count;
    enum air_fault fault;

    need(own != NULL);
    for (size_t at = 0; at < length; at++)
        own[at] = bytes[at];
    fault = air_parse(own, length, &bucket);
    before = receiver.counts[AIR_OPENED] + receiver.counts[AIR_DOZED] + receiver.counts[AIR_LATE] + receiver.counts[AIR_REFUSED] +
             receiver.counts[AIR_FOREIGN] + receiver.counts[AIR_EARLIER];
    count = air_hear(&receiver, own, length);
    need((count == AIR_REFUSED) == (fault != AIR_BUCKET));
    need(before + 1 == receiver.counts[AIR_OPENED] + receiver.counts[AIR_DOZED] + receiver.counts[AIR_LATE] + receiver.counts[AIR_REFUSED] +
                           receiver.counts[AIR_FOREIGN] + receiver.counts[AIR_EARLIER]);
    for (uint16_t item = 0; fault == AIR_BUCKET && bucket.kind != AIR_IDLE && item < bucket.count; item++)
        need(air_entry(&bucket, item) < bucket.cycle);
    free(own);
}

int LLVMFuzzerTestOneInput(const uint8_t *bytes, size_t length)
{
    size_t at = 2, words, size;

    words = length < 3 ? 0 : two(bytes);
    if (words > MOST_WORDS || length < 3 + 2 * words)
        return 0;
    for (size_t word = 0; word < words; word++, at += 2)
        plan[word] = (uint16_t)two(bytes + at);
    if (air_init(&receiver, plan, words, bytes[at++]) != AIR_READY)
        return 0;
    for (; length - at >= 2; at += size) {
        size = two(bytes + at);
        at += 2;
        if (size > length - at)
            size = length - at;
        hear(bytes + at, size);
        if (bytes[at - 1] & 1)
            take(air_next);
        air_wake(&receiver);
    }
    take(air_finish);
    return 0;
}
