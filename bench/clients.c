// Sends a session over each of some open connections at once, and reads the answers.
//
//   clients SIZE CONNECTION..
//
// The session stands on standard input. Each connection is an open file with this number, on which
// so many bytes of answers are due. They are sent to and read from as they are ready, in turns of at
// most 64 KiB. Where no more is to be sent to a connection, its direction is ended. Writes how many
// nanoseconds it took from the first byte sent to the last one read.

#include <fcntl.h>
#include <poll.h>
#include <stdio.h>
#include <stdlib.h>
#include <sys/socket.h>
#include <time.h>
#include <unistd.h>

enum { ROOM = 65536, MOST = 1024 };

static char room[ROOM];
static struct pollfd ends[MOST];
static size_t sent[MOST], due[MOST];

static long now(void) {
    struct timespec time;
    clock_gettime(CLOCK_MONOTONIC, &time);
    return time.tv_sec * 1000000000L + time.tv_nsec;
}

static char *session(size_t *length) {
    size_t space = ROOM;
    char *bytes = malloc(space);
    ssize_t n = 0;
    for (*length = 0; bytes && (n = read(0, bytes + *length, space - *length)) > 0; *length += n)
        if (*length + n == space)
            bytes = realloc(bytes, space *= 2);
    return n ? 0 : bytes;
}

// Sends the next bytes of the session, and ends the direction behind the last one.
static int send_on(int i, const char *bytes, size_t length) {
    size_t left = length - sent[i];
    ssize_t n = write(ends[i].fd, bytes + sent[i], left < ROOM ? left : ROOM);
    if (n < 0)
        return 1;
    sent[i] += n;
    if (sent[i] < length)
        return 0;
    ends[i].events &= ~POLLOUT;
    return shutdown(ends[i].fd, SHUT_WR);
}

// Reads what has come. A connection that has sent all that is due isn't looked at again.
static int read_on(int i, int *left) {
    ssize_t n = read(ends[i].fd, room, due[i] < ROOM ? due[i] : ROOM);
    if (n <= 0)
        return 1;
    due[i] -= n;
    if (due[i])
        return 0;
    *left -= 1;
    ends[i].fd = -1;
    return 0;
}

int main(int count, char **words) {
    size_t length;
    char *bytes = session(&length);
    int connections = count - 2, left = connections;
    if (!bytes || connections < 1 || connections > MOST)
        return 1;
    for (int i = 0; i < connections; i++) {
        ends[i] = (struct pollfd){.fd = atoi(words[i + 2]), .events = POLLIN | POLLOUT};
        due[i] = strtoul(words[1], 0, 10);
        if (fcntl(ends[i].fd, F_SETFL, O_NONBLOCK))
            return 1;
    }
    long began = now();
    while (left) {
        if (poll(ends, connections, -1) < 0)
            return 1;
        for (int i = 0; i < connections; i++) {
            short ready = ends[i].fd < 0 ? 0 : ends[i].revents;
            if (ready & POLLOUT && send_on(i, bytes, length))
                return 1;
            if (ready & (POLLIN | POLLHUP | POLLERR) && read_on(i, &left))
                return 1;
        }
    }
    printf("%ld\n", now() - began);
    return 0;
}
