// Clients that push to a server, each on a connection and a thread of its own, and wait for each reply.
//
//   load PORT CONNECTIONS PUSHES CHANGESETS [HUNKS]
//
// Each connection sends PUSHES bundles. With 0 changesets a bundle has `REPLYCAPS` and a `CHECK:HEADS` that
// the empty repository is content with, 86 bytes in all. With more it brings so many new changesets, each
// the child of the one before, with its text in so many hunks (1): in one, the server hashes it before the lock,
// in 2 under it. All bundles are made before the clock starts. Written: pushes a second, and
// the 50th, the 99th and the slowest of 100 replies, in microseconds.
#include <arpa/inet.h>
#include <netinet/in.h>
#include <netinet/tcp.h>
#include <pthread.h>
#include <stdint.h>
#include <stdio.h>
#include <stdlib.h>
#include <string.h>
#include <sys/socket.h>
#include <time.h>
#include <unistd.h>

typedef struct { uint8_t *at; size_t len, room; } Bytes;

static void add(Bytes *b, const void *from, size_t len) {
    while (b->len + len > b->room) {
        b->room = b->room ? b->room * 2 : 4096;
        b->at = realloc(b->at, b->room);
        if (!b->at) { perror("memory"); exit(2); }
    }
    memcpy(b->at + b->len, from, len);
    b->len += len;
}

static void add_number(Bytes *b, uint32_t n) {
    uint32_t big = htonl(n);
    add(b, &big, 4);
}

static uint32_t turned(uint32_t x, int by) { return x << by | x >> (32 - by); }

// SHA-1 of at most 119 bytes.
static void sha1(const uint8_t *text, size_t len, uint8_t out[20]) {
    uint8_t block[128] = {0};
    size_t total = len < 56 ? 64 : 128;
    uint32_t h[5] = {0x67452301, 0xEFCDAB89, 0x98BADCFE, 0x10325476, 0xC3D2E1F0}, w[80];
    memcpy(block, text, len);
    block[len] = 0x80;
    for (int i = 0; i < 8; i++) block[total - 1 - i] = (uint8_t)((uint64_t)len * 8 >> 8 * i);
    for (size_t at = 0; at < total; at += 64) {
        for (int i = 0; i < 16; i++) { memcpy(&w[i], block + at + 4 * i, 4); w[i] = ntohl(w[i]); }
        for (int i = 16; i < 80; i++) w[i] = turned(w[i - 3] ^ w[i - 8] ^ w[i - 14] ^ w[i - 16], 1);
        uint32_t a = h[0], b = h[1], c = h[2], d = h[3], e = h[4];
        for (int i = 0; i < 80; i++) {
            uint32_t f, k;
            if (i < 20) { f = (b & c) | (~b & d); k = 0x5A827999; }
            else if (i < 40) { f = b ^ c ^ d; k = 0x6ED9EBA1; }
            else if (i < 60) { f = (b & c) | (b & d) | (c & d); k = 0x8F1BBCDC; }
            else { f = b ^ c ^ d; k = 0xCA62C1D6; }
            uint32_t t = turned(a, 5) + f + e + k + w[i];
            e = d; d = c; c = turned(b, 30); b = a; a = t;
        }
        h[0] += a; h[1] += b; h[2] += c; h[3] += d; h[4] += e;
    }
    for (int i = 0; i < 5; i++) { uint32_t big = htonl(h[i]); memcpy(out + 4 * i, &big, 4); }
}

static const uint8_t ZERO[20];
static size_t hunks = 1;

// One changeset, the child of `tip`, which becomes the new tip.
static void add_changeset(Bytes *b, uint8_t tip[20], const char *text) {
    size_t len = strlen(text);
    uint8_t whole[119], node[20];
    memcpy(whole, ZERO, 20);
    memcpy(whole + 20, tip, 20);
    memcpy(whole + 40, text, len);
    sha1(whole, 40 + len, node);
    add_number(b, (uint32_t)(104 + 12 * hunks + len));
    add(b, node, 20); add(b, tip, 20); add(b, ZERO, 20); add(b, ZERO, 20); add(b, node, 20);
    for (size_t h = 0; h < hunks; h++) {
        size_t from = h * (len / hunks), to = h + 1 == hunks ? len : from + len / hunks;
        add_number(b, 0); add_number(b, 0); add_number(b, (uint32_t)(to - from));
        add(b, text + from, to - from);
    }
    memcpy(tip, node, 20);
}

static void add_bundle(Bytes *b, int changesets, uint8_t tip[20], int client, int push) {
    static const uint8_t head[] = "HG20\0\0\0\0\0\0\0\x10\x09REPLYCAPS\0\0\0\0\0\0\0\0\0\0";
    static const uint8_t check[] = "\0\0\0\x12\x0b" "CHECK:HEADS" "\0\0\0\1\0\0";
    static const uint8_t group[] = "\0\0\0\x1d\x0b" "CHANGEGROUP" "\0\0\0\1\1\0\x07\x02version02";
    add(b, head, sizeof head - 1);
    if (changesets == 0) {
        add(b, check, sizeof check - 1);
        add_number(b, 20); add(b, ZERO, 20); add_number(b, 0);
    } else {
        Bytes payload = {0};
        char text[64];
        for (int i = 0; i < changesets; i++) {
            snprintf(text, sizeof text, "client %d push %d changeset %d", client, push, i);
            add_changeset(&payload, tip, text);
        }
        add_number(&payload, 0); add_number(&payload, 0); add_number(&payload, 0);
        add(b, group, sizeof group - 1);
        add_number(b, (uint32_t)payload.len); add(b, payload.at, payload.len); add_number(b, 0);
        free(payload.at);
    }
    add_number(b, 0);
}

typedef struct {
    int socket, pushes, number, changesets;
    Bytes bundles;
    size_t *ends;
    double *times;
} Client;

static pthread_barrier_t ready;

static double now(void) {
    struct timespec t;
    clock_gettime(CLOCK_MONOTONIC, &t);
    return (double)t.tv_sec * 1e6 + (double)t.tv_nsec / 1e3;
}

static void fail(const char *what) { fprintf(stderr, "load: %s\n", what); exit(1); }

static void *push_all(void *of) {
    Client *c = of;
    size_t from = 0, wanted = c->changesets ? 67 : 12;
    uint8_t reply[128];
    pthread_barrier_wait(&ready);
    for (int i = 0; i < c->pushes; i++) {
        double start = now();
        size_t sent = from, got = 0;
        while (sent < c->ends[i]) {
            ssize_t n = send(c->socket, c->bundles.at + sent, c->ends[i] - sent, MSG_NOSIGNAL);
            if (n <= 0) fail("a send failed");
            sent += (size_t)n;
        }
        from = sent;
        while (got < wanted) {
            ssize_t n = recv(c->socket, reply + got, wanted - got, 0);
            if (n <= 0) fail("a reply is missing");
            got += (size_t)n;
        }
        if (memcmp(reply, "HG20", 4) != 0) fail("no reply");
        if (wanted == 67 && memcmp(reply + 13, "reply:changegroup", 17) != 0) fail("a push was not done");
        c->times[i] = now() - start;
    }
    close(c->socket);
    return NULL;
}

static int by_time(const void *a, const void *b) {
    double x = *(const double *)a, y = *(const double *)b;
    return x < y ? -1 : x > y;
}

int main(int argc, char **argv) {
    if (argc != 5 && argc != 6) fail("PORT CONNECTIONS PUSHES CHANGESETS [HUNKS]");
    if (argc == 6) hunks = (size_t)atoi(argv[5]);
    int port = atoi(argv[1]), connections = atoi(argv[2]), pushes = atoi(argv[3]), changesets = atoi(argv[4]);
    Client *clients = calloc((size_t)connections, sizeof *clients);
    pthread_t *threads = calloc((size_t)connections, sizeof *threads);
    double *all = calloc((size_t)connections * (size_t)pushes, sizeof *all);
    pthread_barrier_init(&ready, NULL, (unsigned)connections + 1);
    for (int i = 0; i < connections; i++) {
        Client *c = &clients[i];
        uint8_t tip[20] = {0};
        c->number = i; c->pushes = pushes; c->changesets = changesets;
        c->ends = calloc((size_t)pushes, sizeof *c->ends);
        c->times = calloc((size_t)pushes, sizeof *c->times);
        for (int p = 0; p < pushes; p++) {
            add_bundle(&c->bundles, changesets, tip, i, p);
            c->ends[p] = c->bundles.len;
        }
        struct sockaddr_in to = {.sin_family = AF_INET, .sin_port = htons((uint16_t)port)};
        to.sin_addr.s_addr = htonl(INADDR_LOOPBACK);
        int on = 1;
        c->socket = socket(AF_INET, SOCK_STREAM, 0);
        setsockopt(c->socket, IPPROTO_TCP, TCP_NODELAY, &on, sizeof on);
        if (connect(c->socket, (struct sockaddr *)&to, sizeof to) != 0) fail("no connection");
        if (pthread_create(&threads[i], NULL, push_all, c) != 0) fail("no thread");
    }
    pthread_barrier_wait(&ready);
    double start = now();
    for (int i = 0; i < connections; i++) pthread_join(threads[i], NULL);
    double spent = now() - start;
    size_t count = 0;
    for (int i = 0; i < connections; i++) for (int p = 0; p < pushes; p++) all[count++] = clients[i].times[p];
    qsort(all, count, sizeof *all, by_time);
    printf("%.0f ", (double)count / spent * 1e6);
    printf("%.0f %.0f %.0f\n", all[count / 2], all[count - 1 - count / 100], all[count - 1]);
    return 0;
}
