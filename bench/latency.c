// Measures how long a request takes to be answered on open connections, or echoes what comes.
//
//   latency echo PORT
//   latency ROUNDS TIMES CONNECTION SIZE [CONNECTION SIZE]..
//
// The first takes one connection at that port of this machine, and sends back what it reads until
// that ends. The second reads a request of at most 64 KiB from standard input. It sends that over
// each connection in turn, an open file with this number, and reads an answer of so many bytes, so
// many times; that is a round. It writes a line for each round: the median for each connection, in
// nanoseconds.

#include <arpa/inet.h>
#include <netinet/tcp.h>
#include <stdio.h>
#include <stdlib.h>
#include <string.h>
#include <sys/socket.h>
#include <time.h>
#include <unistd.h>

enum { ROOM = 65536, MOST = 8 };

static char room[ROOM];

static int echo(int port) {
    struct sockaddr_in place = {.sin_family = AF_INET, .sin_port = htons(port)};
    int listening = socket(AF_INET, SOCK_STREAM, 0), yes = 1;
    place.sin_addr.s_addr = htonl(INADDR_LOOPBACK);
    setsockopt(listening, SOL_SOCKET, SO_REUSEADDR, &yes, sizeof yes);
    if (bind(listening, (struct sockaddr *)&place, sizeof place) || listen(listening, 1))
        return 1;
    int connection = accept(listening, 0, 0);
    setsockopt(connection, IPPROTO_TCP, TCP_NODELAY, &yes, sizeof yes);
    for (ssize_t n; (n = read(connection, room, ROOM)) > 0;)
        if (write(connection, room, n) != n)
            return 1;
    return 0;
}

static long now(void) {
    struct timespec time;
    clock_gettime(CLOCK_MONOTONIC, &time);
    return time.tv_sec * 1000000000L + time.tv_nsec;
}

// The time from a request to the last byte of its answer, or -1 if that doesn't come.
static long exchange(int connection, const char *request, ssize_t length, ssize_t size) {
    long began = now();
    if (write(connection, request, length) != length)
        return -1;
    for (ssize_t n; size > 0; size -= n)
        if ((n = read(connection, room, size < ROOM ? size : ROOM)) <= 0)
            return -1;
    return now() - began;
}

static int ascending(const void *a, const void *b) {
    long x = *(const long *)a, y = *(const long *)b;
    return (x > y) - (x < y);
}

static int measure(int rounds, int times, int count, char **words) {
    static char request[ROOM];
    ssize_t length = read(0, request, ROOM);
    long *taken[MOST];
    for (int at = 0; at < count; at++)
        taken[at] = malloc(times * sizeof(long));
    for (int round = 0; round < rounds; round++) {
        for (int time = 0; time < times; time++)
            for (int at = 0; at < count; at++) {
                int connection = atoi(words[2 * at]);
                taken[at][time] = exchange(connection, request, length, atoi(words[2 * at + 1]));
                if (taken[at][time] < 0)
                    return 1;
            }
        for (int at = 0; at < count; at++) {
            qsort(taken[at], times, sizeof(long), ascending);
            printf("%ld%c", taken[at][times / 2], at + 1 < count ? ' ' : '\n');
        }
    }
    return 0;
}

int main(int count, char **words) {
    if (count == 3 && !strcmp(words[1], "echo"))
        return echo(atoi(words[2]));
    if (count < 5 || count % 2 == 0 || count > 3 + 2 * MOST)
        return 2;
    return measure(atoi(words[1]), atoi(words[2]), (count - 3) / 2, words + 3);
}
