/* Answers sends, and makes them: bench/deliveries.py builds it.
 *
 *     sends sink COUNT                 listens at COUNT ports of 127.0.0.1 and prints them. Answers each request with 200 at
 *                                      once and closes its connection. When standard input ends, prints how many it answered.
 *     sends client COUNT FILE PORT ..  sends the bytes of FILE COUNT times, each over a connection of its own, to the ports in
 *                                      turn. The status is 0 if each send is answered with 200.
 */
#define _GNU_SOURCE
#include <arpa/inet.h>
#include <netinet/in.h>
#include <pthread.h>
#include <stdint.h>
#include <stdio.h>
#include <stdlib.h>
#include <string.h>
#include <sys/socket.h>
#include <unistd.h>

enum { MOST = 65536 }; /* bytes of a request, and of a reply's head */

static const char ok[] = "HTTP/1.1 200 OK\r\nContent-Length: 0\r\nConnection: close\r\n\r\n";
static long answered;

static void fail(const char *what) {
    perror(what);
    exit(1);
}

static struct sockaddr_in address(int port) {
    return (struct sockaddr_in){.sin_family = AF_INET, .sin_port = htons(port), .sin_addr.s_addr = htonl(INADDR_LOOPBACK)};
}

/* The length of the message that begins the text, or 0 if its head is not complete yet. */
static size_t length_of(char *text, size_t size) {
    text[size] = 0;
    char *end = strstr(text, "\r\n\r\n");
    if (!end) return 0;
    char *field = strcasestr(text, "\r\nContent-Length:");
    return end + 4 - text + (field && field < end ? strtoul(field + 17, 0, 10) : 0);
}

static _Noreturn void *sink(void *listener) {
    static _Thread_local char text[MOST + 1];
    for (;;) {
        int connection = accept4((int)(intptr_t)listener, 0, 0, SOCK_CLOEXEC);
        if (connection < 0) fail("accept");
        size_t size = 0, length;
        ssize_t more = 1;
        while ((length = length_of(text, size), length == 0 || size < length) && size < MOST && more > 0) {
            more = read(connection, text + size, MOST - size);
            if (more > 0) size += more;
        }
        if (length && size == length && write(connection, ok, sizeof ok - 1) == sizeof ok - 1) {
            __atomic_fetch_add(&answered, 1, __ATOMIC_RELAXED);
        }
        close(connection);
    }
}

static void listen_at_a_port(void) {
    int listener = socket(AF_INET, SOCK_STREAM | SOCK_CLOEXEC, 0);
    struct sockaddr_in at = address(0);
    socklen_t size = sizeof at;
    pthread_t thread;
    if (bind(listener, (struct sockaddr *)&at, size) || listen(listener, 1024)) fail("listen");
    if (getsockname(listener, (struct sockaddr *)&at, &size)) fail("getsockname");
    if (pthread_create(&thread, 0, sink, (void *)(intptr_t)listener)) fail("thread");
    printf("%d ", ntohs(at.sin_port));
}

/* Sends a text, and reads until the end of the reply's head. */
static void send_once(int port, const char *text, size_t size) {
    char reply[MOST + 1];
    size_t came = 0;
    struct sockaddr_in to = address(port);
    int connection = socket(AF_INET, SOCK_STREAM | SOCK_CLOEXEC, 0);
    if (connection < 0 || connect(connection, (struct sockaddr *)&to, sizeof to)) fail("connect");
    for (size_t done = 0; done < size;) {
        ssize_t more = write(connection, text + done, size - done);
        if (more < 0) fail("write");
        done += more;
    }
    while (!length_of(reply, came)) {
        ssize_t more = read(connection, reply + came, MOST - came);
        if (more <= 0) fail("read");
        came += more;
    }
    if (strncmp(reply, "HTTP/1.1 200 ", 13)) fail("not 200");
    close(connection);
}

int main(int count, char **words) {
    if (count == 3 && !strcmp(words[1], "sink")) {
        for (int left = atoi(words[2]); left > 0; left--) listen_at_a_port();
        printf("\n");
        fflush(stdout);
        char byte;
        while (read(0, &byte, 1) > 0) {}
        printf("%ld\n", answered);
        return 0;
    }
    if (count >= 5 && !strcmp(words[1], "client")) {
        static char text[MOST];
        FILE *file = fopen(words[3], "rb");
        if (!file) fail(words[3]);
        size_t size = fread(text, 1, MOST, file);
        for (int at = 0; at < atoi(words[2]); at++) send_once(atoi(words[4 + at % (count - 4)]), text, size);
        return 0;
    }
    fprintf(stderr, "usage: sends sink COUNT, or sends client COUNT FILE PORT ..\n");
    return 2;
}
