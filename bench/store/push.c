/* Pushes to `hg_pushd host` over the loopback, each by a request of its own on a connection that stays. Arguments:
   the port, the bytes of a bundle, how many connections there are, each on a thread, and for how many seconds they
   push, one if left out. The bundle has one advisory part of a type that is not known, so that the repository has
   nothing to do. It prints pushes a second that were answered as done. */
#define _GNU_SOURCE
#include <arpa/inet.h>
#include <netinet/tcp.h>
#include <pthread.h>
#include <stdio.h>
#include <stdlib.h>
#include <string.h>
#include <sys/socket.h>
#include <time.h>
#include <unistd.h>

static int port;
static size_t size, length;
static char *request;
static double until;
static long done;

static const char reply[] = "HG20\0\0\0\0\0\0\0\0";

static double now(void) {
    struct timespec time;
    clock_gettime(CLOCK_MONOTONIC, &time);
    return time.tv_sec + time.tv_nsec * 1e-9;
}

static void fail(const char *why) {
    fprintf(stderr, "push: %s\n", why);
    exit(1);
}

static char *put_number(char *to, unsigned long number) {
    for (int shift = 24; shift >= 0; shift -= 8)
        *to++ = number >> shift;
    return to;
}

static void make_request(void) {
    char head[300];
    int count = snprintf(head, sizeof head,
                         "POST /?cmd=unbundle HTTP/1.1\r\nhost: 127.0.0.1\r\nx-hgarg-1: heads=666f726365\r\n"
                         "content-type: application/mercurial-0.1\r\ncontent-length: %zu\r\n\r\n", size);
    length = count + size;
    request = malloc(length);
    memcpy(request, head, count);
    char *to = request + count;
    memcpy(to, "HG20\0\0\0\0\0\0\0\x0e\x07x-bytes\0\0\0\0\0\0", 26);
    to = put_number(to + 26, size - 38);
    memset(to, 'x', size - 38);
    memset(to + size - 38, 0, 8);
}

static void *push(void *unused) {
    (void)unused;
    struct sockaddr_in to = {.sin_family = AF_INET, .sin_port = htons(port)};
    inet_pton(AF_INET, "127.0.0.1", &to.sin_addr);
    int one = 1, file = socket(AF_INET, SOCK_STREAM, 0);
    setsockopt(file, IPPROTO_TCP, TCP_NODELAY, &one, sizeof one);
    if (connect(file, (struct sockaddr *)&to, sizeof to) != 0)
        fail("no connection");
    while (now() < until) {
        for (size_t sent = 0; sent < length;) {
            ssize_t count = write(file, request + sent, length - sent);
            if (count <= 0)
                fail("a write failed");
            sent += count;
        }
        char answer[4096];
        size_t got = 0;
        char *body = NULL;
        while (body == NULL || answer + got < body + 12) {
            ssize_t count = read(file, answer + got, sizeof answer - 1 - got);
            if (count <= 0)
                fail("no answer");
            got += count;
            answer[got] = 0;
            body = memmem(answer, got, "\r\n\r\n", 4);
            if (body != NULL)
                body += 4;
        }
        if (answer + got != body + 12 || memcmp(body, reply, 12) != 0)
            fail("an answer that is not done");
        __atomic_fetch_add(&done, 1, __ATOMIC_SEQ_CST);
    }
    close(file);
    return NULL;
}

int main(int count, char **words) {
    if (count != 4 && count != 5)
        return 2;
    port = atoi(words[1]);
    size = strtoul(words[2], NULL, 10);
    long number = strtol(words[3], NULL, 10);
    make_request();
    pthread_t threads[number];
    double start = now();
    until = start + (count == 5 ? atof(words[4]) : 1);
    for (long i = 0; i < number; i++)
        if (pthread_create(&threads[i], NULL, push, NULL) != 0)
            fail("no thread");
    for (long i = 0; i < number; i++)
        pthread_join(threads[i], NULL);
    printf("host %zu %ld 0 %.1f\n", size, number, done / (now() - start));
    return 0;
}
