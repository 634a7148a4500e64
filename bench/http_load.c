/* Sends requests over keep-alive connections, and measures each: bench/serve.py builds it.
 *
 *     http_load PORT CONNECTIONS COUNT FILE    each connection has a thread, which sends the bytes of FILE COUNT times, each once the
 *                                              reply before has come. Prints the seconds of all, and of the time from a request to
 *                                              its reply, in microseconds, the median, 99 of 100, and the longest.
 *
 * A connection begins with its first request. If the server ends it between two replies, it is made again, once for a request. The
 * status is 0 if each reply is a 200.
 */
#define _GNU_SOURCE
#include <arpa/inet.h>
#include <netinet/in.h>
#include <netinet/tcp.h>
#include <pthread.h>
#include <stdint.h>
#include <stdio.h>
#include <stdlib.h>
#include <string.h>
#include <sys/socket.h>
#include <time.h>
#include <unistd.h>

enum { MOST = 1 << 20 }; /* bytes of a request, and of a reply */

static char request[MOST];
static size_t request_size;
static int port, count;
static pthread_barrier_t start;

static void fail(const char *what) {
    perror(what);
    exit(1);
}

static uint64_t now(void) {
    struct timespec at;
    clock_gettime(CLOCK_MONOTONIC, &at);
    return at.tv_sec * 1000000000ull + at.tv_nsec;
}

static int connection_made(void) {
    struct sockaddr_in to = {.sin_family = AF_INET, .sin_port = htons(port), .sin_addr.s_addr = htonl(INADDR_LOOPBACK)};
    int made = socket(AF_INET, SOCK_STREAM | SOCK_CLOEXEC, 0), on = 1;
    if (made < 0 || connect(made, (struct sockaddr *)&to, sizeof to)) fail("connect");
    setsockopt(made, IPPROTO_TCP, TCP_NODELAY, &on, sizeof on);
    return made;
}

/* Whether the whole of a 200 came. A connection that ended before the reply's first byte gives 0. */
static int exchange(int connection, char *reply) {
    if (send(connection, request, request_size, MSG_NOSIGNAL) != (ssize_t)request_size) return 0;
    size_t came = 0, length = 0;
    while (!length || came < length) {
        ssize_t more = read(connection, reply + came, MOST - came);
        if (more <= 0 && !came) return 0;
        if (more <= 0) fail("read");
        came += more;
        reply[came] = 0;
        char *end = strstr(reply, "\r\n\r\n");
        char *field = strcasestr(reply, "\r\nContent-Length:");
        if (end) length = end + 4 - reply + (field ? strtoul(field + 17, 0, 10) : 0);
    }
    if (strncmp(reply, "HTTP/1.1 200 ", 13)) {
        fprintf(stderr, "http_load: %.300s\n", reply);
        exit(1);
    }
    return 1;
}

static void *run(void *times) {
    uint64_t *time = times;
    char *reply = malloc(MOST + 1);
    if (!reply) fail("malloc");
    pthread_barrier_wait(&start);
    int connection = connection_made();
    for (int at = 0; at < count; at++) {
        uint64_t began = now();
        if (!exchange(connection, reply)) {
            close(connection);
            connection = connection_made();
            if (!exchange(connection, reply)) fail("a new connection ended");
        }
        time[at] = now() - began;
    }
    close(connection);
    free(reply);
    return 0;
}

static int compare(const void *one, const void *other) {
    uint64_t a = *(const uint64_t *)one, b = *(const uint64_t *)other;
    return (a > b) - (a < b);
}

int main(int words_count, char **words) {
    FILE *file = words_count == 5 ? fopen(words[4], "rb") : 0;
    if (!file) {
        fprintf(stderr, "usage: http_load PORT CONNECTIONS COUNT FILE\n");
        return 2;
    }
    request_size = fread(request, 1, MOST, file);
    port = atoi(words[1]);
    int connections = atoi(words[2]);
    count = atoi(words[3]);
    size_t all = (size_t)connections * count;
    uint64_t *times = calloc(all, sizeof *times);
    pthread_t *threads = calloc(connections, sizeof *threads);
    if (!times || !threads) fail("calloc");
    pthread_barrier_init(&start, 0, connections + 1);
    for (int at = 0; at < connections; at++) {
        if (pthread_create(&threads[at], 0, run, times + (size_t)at * count)) fail("thread");
    }
    uint64_t began = now();
    pthread_barrier_wait(&start);
    for (int at = 0; at < connections; at++) pthread_join(threads[at], 0);
    double seconds = (now() - began) / 1e9;
    qsort(times, all, sizeof *times, compare);
    printf("%.6f %.1f %.1f %.1f\n", seconds, times[all / 2] / 1e3, times[all - 1 - all / 100] / 1e3, times[all - 1] / 1e3);
    return 0;
}
