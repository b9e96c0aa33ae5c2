/* An example, outside the proved program: lets the readers of a plan hear a tape, and prints the rows that `airdisk tune` prints.
 *
 *     tune PLAN TAPE             as `airdisk tune DECK TAPE`
 *     tune --sleep PLAN TAPE     each reader hears no record that air_wake lets it sleep through
 *     tune --dropped PLAN TAPE   prints in place of rows, for each reader, the numbers of the records that the thin build left as earlier
 *     tune --tape TAPE           what each record says, or its fault
 *
 * Where the tape is cut, the line of that is printed, and the status is 6.
 */
#include <string.h>

#include "host.h"

/* as many bytes as a record needs to be told from a bucket, if it has more than any */
#define MOST_BYTES 2048

static uint8_t record[MOST_BYTES];

/* The length of the record at hand, of which `record` has the first bytes; -1 at the tape's end, and -2 where it is cut. */
static int64_t next_record(FILE *tape)
{
    uint8_t length[4];
    size_t got = fread(length, 1, 4, tape);
    uint32_t left, most;

    if (got < 4)
        return got ? -2 : -1;
    left = (uint32_t)length[0] << 24 | (uint32_t)length[1] << 16 | (uint32_t)length[2] << 8 | length[3];
    most = left < MOST_BYTES ? left : MOST_BYTES;
    if (fread(record, 1, most, tape) < most)
        return -2;
    for (got = most; got < left; got++)
        if (getc(tape) == EOF)
            return -2;
    return left;
}

/* How many of a record's bytes are heard. */
static size_t heard(int64_t length)
{
    return length < MOST_BYTES ? (size_t)length : MOST_BYTES;
}

/* The status of a tape: 6 where it is cut, which is told. */
static int look_through(FILE *tape)
{
    uint64_t at = 0;
    int64_t length;

    while ((length = next_record(tape)) >= 0)
        at += 4 + (uint64_t)length;
    rewind(tape);
    if (length == -1)
        return 0;
    printf("fault,6,");
    print_value(stdout, at);
    puts("");
    return 6;
}

static void print_bucket(const struct air_bucket *bucket)
{
    uint16_t item;

    printf("version=%u kind=%u edition=%u count=%u cycle=%" PRIu32 " slot=%u item=%u value=", bucket->version, bucket->kind, bucket->edition,
           bucket->count, bucket->cycle, bucket->slot, bucket->item);
    print_value(stdout, bucket->value);
    printf(" entries=(");
    for (item = 0; bucket->kind != AIR_IDLE && item < bucket->count; item++)
        printf("%s%" PRIu32, item ? ", " : "", air_entry(bucket, item));
    puts(bucket->kind != AIR_IDLE && bucket->count == 1 ? ",)" : ")");
}

static void print_tape(FILE *tape)
{
    static const char *const faults[] = {"", "Short", "Magic", "Version", "Kind", "Length", "Shape"};
    struct air_bucket bucket;
    enum air_fault fault;
    int64_t length;

    while ((length = next_record(tape)) >= 0) {
        fault = air_parse(record, heard(length), &bucket);
        if (fault)
            puts(faults[fault]);
        else
            print_bucket(&bucket);
    }
}

/* Lets a reader hear the tape, and prints its verdicts, or the records that it left. */
static void hear_tape(FILE *tape, unsigned reader, int sleeps, int drops)
{
    struct air_receiver *receiver = &receivers[reader];
    struct air_verdict verdict;
    uint32_t asleep = 0, number = 0;
    int64_t length;

    rewind(tape);
    for (; (length = next_record(tape)) >= 0; number++) {
        if (asleep) {
            asleep--;
            continue;
        }
        if (air_hear(receiver, record, heard(length)) == AIR_EARLIER && drops)
            printf("%u,%" PRIu32 "\n", reader, number);
        while (air_next(receiver, &verdict))
            if (!drops)
                print_verdict(stdout, reader, &verdict);
        if (sleeps)
            asleep = air_wake(receiver);
    }
    while (air_finish(receiver, &verdict))
        if (!drops)
            print_verdict(stdout, reader, &verdict);
}

int main(int count, char **words)
{
    const char *option = count == 4 || (count == 3 && words[1][0] == '-') ? words[1] : "";
    int is_tape = strcmp(option, "--tape") == 0, sleeps = strcmp(option, "--sleep") == 0, drops = strcmp(option, "--dropped") == 0, status;
    FILE *tape = count == 3 || count == 4 ? fopen(words[count - 1], "rb") : NULL;
    unsigned reader;

    if (!tape || (count == 3 ? *option && !is_tape : !sleeps && !drops)) {
        fputs("usage: tune [--sleep | --dropped] PLAN TAPE, or tune --tape TAPE; or there is no such tape\n", stderr);
        return 1;
    }
    if (!is_tape && !read_plan(words[count - 2]))
        return 1;
    status = look_through(tape);
    if (status == 0 && is_tape)
        print_tape(tape);
    for (reader = 0; status == 0 && !is_tape && reader < readers; reader++)
        hear_tape(tape, reader, sleeps, drops);
    if (status == 0 && !is_tape && !drops)
        print_counts(stdout);
    fclose(tape);
    return status;
}
