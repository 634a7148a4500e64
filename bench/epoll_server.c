/* Answers HTTP/1.1 requests over keep-alive connections, each with the same reply: the baseline of bench/serve.py, which builds it.
 *
 *     epoll_server THREADS FILE    listens at a free port of 127.0.0.1 and prints it. Each thread has an epoll of its own. FILE has
 *                                  the reply's bytes. It ends when standard input ends.
 *
 * Of a request it reads only the end of the head and Content-Length.
 */
#define _GNU_SOURCE
#include <arpa/inet.h>
#include <errno.h>
#include <netinet/in.h>
#include <netinet/tcp.h>
#include <pthread.h>
#include <stdint.h>
#include <stdio.h>
#include <stdlib.h>
#include <string.h>
#include <sys/epoll.h>
#include <sys/socket.h>
#include <unistd.h>

enum { MOST = 1 << 20, EVENTS = 64 }; /* bytes of a request, and of the reply; events of one wait */

struct connection {
    int file;
    size_t size;
    char text[MOST + 1];
};

static char reply[MOST];
static size_t reply_size;
static int listener;

static void fail(const char *what) {
    perror(what);
    exit(1);
}

/* The length of the request that begins the text, or 0 if its head is not complete yet. */
static size_t length_of(const char *text) {
    const char *end = strstr(text, "\r\n\r\n");
    if (!end) return 0;
    const char *field = strcasestr(text, "\r\nContent-Length:");
    return end + 4 - text + (field && field < end ? strtoul(field + 17, 0, 10) : 0);
}

static void watch(int epoll, int file, void *data, uint32_t events) {
    struct epoll_event event = {.events = events, .data.ptr = data};
    if (epoll_ctl(epoll, EPOLL_CTL_ADD, file, &event)) fail("epoll_ctl");
}

static void take(int epoll) {
    int file = accept4(listener, 0, 0, SOCK_CLOEXEC | SOCK_NONBLOCK), on = 1;
    if (file < 0) {
        if (errno == EAGAIN) return;
        fail("accept");
    }
    setsockopt(file, IPPROTO_TCP, TCP_NODELAY, &on, sizeof on);
    struct connection *made = malloc(sizeof *made);
    if (!made) fail("malloc");
    made->file = file;
    made->size = 0;
    watch(epoll, file, made, EPOLLIN);
}

/* Reads what came, and answers each request that is complete. Returns whether the connection goes on. */
static int serve(struct connection *it) {
    ssize_t more = read(it->file, it->text + it->size, MOST - it->size);
    if (more < 0) return errno == EAGAIN;
    if (more == 0) return 0;
    it->size += more;
    it->text[it->size] = 0;
    size_t length;
    while (it->size && (length = length_of(it->text)) && it->size >= length) {
        if (write(it->file, reply, reply_size) != (ssize_t)reply_size) return 0;
        it->size -= length;
        memmove(it->text, it->text + length, it->size + 1);
    }
    return it->size < MOST;
}

static void *work(void *unused) {
    int epoll = epoll_create1(EPOLL_CLOEXEC);
    if (epoll < 0) fail("epoll_create1");
    watch(epoll, listener, 0, EPOLLIN | EPOLLEXCLUSIVE);
    struct epoll_event events[EVENTS];
    for (;;) {
        int count = epoll_wait(epoll, events, EVENTS, -1);
        if (count < 0 && errno != EINTR) fail("epoll_wait");
        for (int at = 0; at < count; at++) {
            struct connection *it = events[at].data.ptr;
            if (!it) {
                take(epoll);
            } else if (!serve(it)) {
                close(it->file);
                free(it);
            }
        }
    }
    return unused;
}

int main(int count, char **words) {
    FILE *file = count == 3 ? fopen(words[2], "rb") : 0;
    if (!file) {
        fprintf(stderr, "usage: epoll_server THREADS FILE\n");
        return 2;
    }
    reply_size = fread(reply, 1, MOST, file);
    listener = socket(AF_INET, SOCK_STREAM | SOCK_CLOEXEC | SOCK_NONBLOCK, 0);
    struct sockaddr_in at = {.sin_family = AF_INET, .sin_addr.s_addr = htonl(INADDR_LOOPBACK)};
    socklen_t size = sizeof at;
    if (listener < 0 || bind(listener, (struct sockaddr *)&at, size) || listen(listener, 128)) fail("listen");
    if (getsockname(listener, (struct sockaddr *)&at, &size)) fail("getsockname");
    for (int left = atoi(words[1]); left > 0; left--) {
        pthread_t thread;
        if (pthread_create(&thread, 0, work, 0)) fail("thread");
    }
    printf("%d\n", ntohs(at.sin_port));
    fflush(stdout);
    char byte;
    while (read(0, &byte, 1) > 0) {}
    return 0;
}
