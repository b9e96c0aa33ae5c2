/* An example, outside the proved program: what tune.c and listen.c share, which is how a plan is read, and how rows are printed. */
#ifndef HOST_H
#define HOST_H

#include <inttypes.h>
#include <stdio.h>

#include "air.h"

/* as many words and readers as the plan of any deck has */
#ifndef HOST_WORDS
#define HOST_WORDS 500000
#endif
#ifndef HOST_READERS
#define HOST_READERS 64
#endif

static uint16_t plan[HOST_WORDS];
static struct air_receiver receivers[HOST_READERS];
static unsigned readers;

/* Reads a plan from a file, and makes its receivers. Whether that could be done; if not, why is said. */
static int read_plan(const char *name)
{
    static const char *const why[] = {"", "no plan", "too large a plan for this build", "no plan for the thin build, which takes F-Matrix alone and no copies"};
    enum air_refusal refusal = AIR_READY;
    FILE *file = fopen(name, "rb");
    size_t words;
    int high, low = 0;

    for (words = 0; file && words < HOST_WORDS && (high = getc(file)) != EOF && (low = getc(file)) != EOF; words++)
        plan[words] = (uint16_t)(high << 8 | low);
    if (file)
        fclose(file);
    for (readers = 0; refusal == AIR_READY && (readers == 0 || readers < plan[5]) && readers < HOST_READERS; readers++)
        refusal = air_init(&receivers[readers], plan, words, (uint16_t)readers);
    if (refusal != AIR_READY || readers < plan[5])
        fprintf(stderr, "%s: %s\n", name, why[refusal ? refusal : AIR_TOO_LARGE]);
    return refusal == AIR_READY && readers == plan[5];
}

/* Prints a value in digits: the printf of a small machine may know no number of 64 bits. */
static void print_value(FILE *out, uint64_t value)
{
    char digits[21];
    size_t at = sizeof digits - 1;

    digits[at] = 0;
    do
        digits[--at] = (char)('0' + value % 10);
    while (value /= 10);
    fputs(digits + at, out);
}

static void print_reads(FILE *out, const struct air_verdict *verdict)
{
    unsigned read;

    for (read = 0; read < verdict->reads; read++) {
        fprintf(out, "%s%u@%" PRIu32 "=", read ? " " : "", verdict->items[read], verdict->cycles[read]);
        print_value(out, verdict->values[read]);
    }
}

static void print_verdict(FILE *out, unsigned reader, const struct air_verdict *verdict)
{
    static const char *const ends[] = {"", "accept", "abort", "aged", "unfinished"};

    fprintf(out, "%s,%u,%u,%u,", ends[verdict->end], reader, verdict->query, verdict->attempt);
    print_reads(out, verdict);
    if (verdict->end == AIR_ABORT || verdict->end == AIR_AGED)
        fprintf(out, ",%u@%" PRIu32, verdict->item, verdict->cycle);
    if (verdict->end == AIR_ABORT)
        fprintf(out, ",%u", verdict->clash);
    putc('\n', out);
}

/* The counts of all readers; of the thin build also how many were left as earlier, if any were. */
static void print_counts(FILE *out)
{
    unsigned reader, count;

    for (reader = 0; reader < readers; reader++) {
        fprintf(out, "counts,%u", reader);
        for (count = 0; count < AIR_COUNTS; count++)
            if (count != AIR_EARLIER || receivers[reader].counts[count])
                fprintf(out, ",%" PRIu32, receivers[reader].counts[count]);
        putc('\n', out);
    }
}

#endif
