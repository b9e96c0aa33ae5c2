/* An example, outside the proved program: lets the readers of a plan hear datagrams at 127.0.0.1, and prints the rows that `airdisk listen` prints.
 *
 *     listen PLAN PORT [MOST]
 *
 * It ends at an empty datagram; after MOST datagrams, the setting `hears` of a deck, or 1,000,000; or after AIRDISK_SILENCE seconds without one,
 * or 30, where 0 stands for no end. It runs on any system with POSIX sockets.
 */
#define _POSIX_C_SOURCE 200809L

#include <arpa/inet.h>
#include <netinet/in.h>
#include <stdlib.h>
#include <string.h>
#include <sys/socket.h>
#include <sys/time.h>

#include "host.h"

/* as many bytes of a datagram as are taken */
#define MOST_BYTES 2048

static FILE *rows[HOST_READERS];

/* A socket that hears at the port; -1 if it can't be had. */
static int ear_at(unsigned port)
{
    int ear = socket(AF_INET, SOCK_DGRAM, 0), room = 1 << 22;
    struct sockaddr_in here;

    memset(&here, 0, sizeof here);
    here.sin_family = AF_INET;
    here.sin_port = htons((uint16_t)port);
    here.sin_addr.s_addr = htonl(INADDR_LOOPBACK);
    if (ear >= 0)
        setsockopt(ear, SOL_SOCKET, SO_RCVBUF, &room, sizeof room);
    return ear < 0 || bind(ear, (const struct sockaddr *)&here, sizeof here) < 0 ? -1 : ear;
}

/* Ends the wait for a datagram after this many seconds; 0 stands for no end. */
static void wait_for(int ear, long seconds)
{
    struct timeval time;

    memset(&time, 0, sizeof time);
    time.tv_sec = seconds;
    setsockopt(ear, SOL_SOCKET, SO_RCVTIMEO, &time, sizeof time);
}

static void all_hear(const uint8_t *bytes, size_t length)
{
    struct air_verdict verdict;
    unsigned reader;

    for (reader = 0; reader < readers; reader++) {
        air_hear(&receivers[reader], bytes, length);
        while (air_next(&receivers[reader], &verdict))
            print_verdict(rows[reader], reader, &verdict);
    }
}

/* Prints the rows of a reader, which were kept so that they are sorted. */
static void print_rows(unsigned reader)
{
    struct air_verdict verdict;
    int byte;

    while (air_finish(&receivers[reader], &verdict))
        print_verdict(rows[reader], reader, &verdict);
    rewind(rows[reader]);
    while ((byte = getc(rows[reader])) != EOF)
        putchar(byte);
}

int main(int count, char **words)
{
    static uint8_t bytes[MOST_BYTES];
    const char *silence = getenv("AIRDISK_SILENCE");
    long port = count > 2 ? strtol(words[2], NULL, 10) : 0, most = count > 3 ? strtol(words[3], NULL, 10) : 1000000;
    ssize_t length = 1;
    unsigned reader;
    int ear;

    if (count < 3 || count > 4 || port < 1 || port > 65535 || most < 1) {
        fputs("usage: listen PLAN PORT [MOST]\n", stderr);
        return 1;
    }
    if (!read_plan(words[1]))
        return 1;
    for (reader = 0; reader < readers; reader++)
        if (!(rows[reader] = tmpfile()))
            return 1;
    if ((ear = ear_at((unsigned)port)) < 0) {
        perror(words[2]);
        return 10;
    }
    for (; length > 0 && most > 0; most--) {
        length = recv(ear, bytes, sizeof bytes, 0);
        if (length > 0) {
            all_hear(bytes, (size_t)length);
            wait_for(ear, silence ? strtol(silence, NULL, 10) : 30);
        }
    }
    for (reader = 0; reader < readers; reader++)
        print_rows(reader);
    print_counts(stdout);
    return 0;
}
