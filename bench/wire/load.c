// Clients of a server over HTTP, each on a thread of its own. A run is what one `hg push` does: a
// connection that asks for the capabilities, a batch of `heads` and `known`, the keys of phases and of
// bookmarks, and the branch map, each after the answer before it, and pushes one new changeset on a head.
//
//   load PORT CONNECTIONS RUNS SECONDS SALT HEADS
//
// All clients together make at most RUNS runs, and begin none after SECONDS. HEADS is a file with the ids
// of heads, one a line; client i pushes on the i-th, and then on what it pushed before. SALT makes
// changesets that no other call makes. All bundles are made before the clock starts. Written: runs,
// seconds, runs a second, and the 50th, the 99th and the slowest of 100 runs in milliseconds, then the
// middle of each request in milliseconds.
#include <arpa/inet.h>
#include <netinet/in.h>
#include <netinet/tcp.h>
#include <pthread.h>
#include <stdint.h>
#include <stdio.h>
#include <stdlib.h>
#include <string.h>
#include <strings.h>
#include <sys/socket.h>
#include <time.h>
#include <unistd.h>

enum { REQUESTS = 6, PUSH = 5 };
typedef struct { uint8_t *at; size_t len, room; } Bytes;

static void fail(const char *what) { fprintf(stderr, "load: %s\n", what); exit(1); }

static void add(Bytes *b, const void *from, size_t len) {
    while (b->len + len > b->room) {
        b->room = b->room ? b->room * 2 : 1024;
        b->at = realloc(b->at, b->room);
        if (!b->at) fail("no memory");
    }
    memcpy(b->at + b->len, from, len);
    b->len += len;
}

static void add_text(Bytes *b, const char *text) { add(b, text, strlen(text)); }

static void add_number(Bytes *b, uint32_t n) {
    uint32_t big = htonl(n);
    add(b, &big, 4);
}

static uint32_t turned(uint32_t x, int by) { return x << by | x >> (32 - by); }

// SHA-1 of at most 183 bytes.
static void sha1(const uint8_t *text, size_t len, uint8_t out[20]) {
    uint8_t block[192] = {0};
    size_t total = (len + 9 + 63) / 64 * 64;
    uint32_t h[5] = {0x67452301, 0xEFCDAB89, 0x98BADCFE, 0x10325476, 0xC3D2E1F0}, w[80];
    memcpy(block, text, len);
    block[len] = 0x80;
    for (int i = 0; i < 8; i++) block[total - 1 - i] = (uint8_t)((uint64_t)len * 8 >> 8 * i);
    for (size_t at = 0; at < total; at += 64) {
        for (int i = 0; i < 16; i++) { memcpy(&w[i], block + at + 4 * i, 4); w[i] = ntohl(w[i]); }
        for (int i = 16; i < 80; i++) w[i] = turned(w[i - 3] ^ w[i - 8] ^ w[i - 14] ^ w[i - 16], 1);
        uint32_t a = h[0], b = h[1], c = h[2], d = h[3], e = h[4];
        for (int i = 0; i < 80; i++) {
            uint32_t f, k;
            if (i < 20) { f = (b & c) | (~b & d); k = 0x5A827999; }
            else if (i < 40) { f = b ^ c ^ d; k = 0x6ED9EBA1; }
            else if (i < 60) { f = (b & c) | (b & d) | (c & d); k = 0x8F1BBCDC; }
            else { f = b ^ c ^ d; k = 0xCA62C1D6; }
            uint32_t t = turned(a, 5) + f + e + k + w[i];
            e = d; d = c; c = turned(b, 30); b = a; a = t;
        }
        h[0] += a; h[1] += b; h[2] += c; h[3] += d; h[4] += e;
    }
    for (int i = 0; i < 5; i++) { uint32_t big = htonl(h[i]); memcpy(out + 4 * i, &big, 4); }
}

static const uint8_t ZERO[20];

static const char CAPABILITIES[] =
    "HG20\nbookmarks\nchangegroup=01,02\ncheckheads=related\ndigests=md5,sha1,sha512\n"
    "error=abort,unsupportedcontent,pushraced,pushkey\nhgtagsfnodes\nlistkeys\nobsmarkers=V0,V1\n"
    "phases=heads\npushkey\nremote-changegroup=http,https\nstream=v2";

// The bundle of one changeset on `tip`, which becomes the new tip.
static void add_bundle(Bytes *b, uint8_t tip[20], const char *words) {
    static const uint8_t caps[] = "HG20\0\0\0\0\0\0\0\x10\x09REPLYCAPS\0\0\0\0\0\0";
    static const uint8_t group[] = "\0\0\0\x1d\x0b" "CHANGEGROUP" "\0\0\0\1\1\0\x07\x02version02";
    char text[144];
    uint8_t whole[184], node[20];
    snprintf(text, sizeof text, "0000000000000000000000000000000000000000\ntest\n0 0\n\n%s", words);
    size_t len = strlen(text);
    memcpy(whole, ZERO, 20);
    memcpy(whole + 20, tip, 20);
    memcpy(whole + 40, text, len);
    sha1(whole, 40 + len, node);
    add(b, caps, sizeof caps - 1);
    add_number(b, sizeof CAPABILITIES - 1); add(b, CAPABILITIES, sizeof CAPABILITIES - 1); add_number(b, 0);
    add(b, group, sizeof group - 1);
    add_number(b, (uint32_t)(104 + 12 + len + 12));
    add_number(b, (uint32_t)(104 + 12 + len));
    add(b, node, 20); add(b, tip, 20); add(b, ZERO, 20); add(b, ZERO, 20); add(b, node, 20);
    add_number(b, 0); add_number(b, 0); add_number(b, (uint32_t)len);
    add(b, text, len);
    for (int i = 0; i < 3; i++) add_number(b, 0);
    add_number(b, 0);
    add_number(b, 0);
    memcpy(tip, node, 20);
}

static void add_hex(char *to, const uint8_t node[20]) {
    for (int i = 0; i < 20; i++) sprintf(to + 2 * i, "%02x", node[i]);
}

// The requests of one run, as Mercurial 6.3 writes them.
static void make_run(Bytes requests[REQUESTS], uint8_t tip[20], const char *words) {
    static const char more[] = "x-hgproto-1: partial-pull\r\naccept: application/mercurial-0.1\r\n"
        "host: 127.0.0.1:8000\r\nuser-agent: mercurial/proto-1.0 (Mercurial 6.3.2)\r\n\r\n";
    Bytes bundle = {0};
    char node[41] = {0}, head[512];
    add_bundle(&bundle, tip, words);
    add_hex(node, tip);
    memset(requests, 0, REQUESTS * sizeof *requests);
    add_text(&requests[0], "GET /?cmd=capabilities HTTP/1.1\r\nAccept-Encoding: identity\r\n"
        "accept: application/mercurial-0.1\r\nhost: 127.0.0.1:8000\r\n"
        "user-agent: mercurial/proto-1.0 (Mercurial 6.3.2)\r\n\r\n");
    static const char *asked[] = {"batch", "listkeys", "listkeys", "branchmap"};
    char nodes[96];
    snprintf(nodes, sizeof nodes, "cmds=heads+%%3Bknown+nodes%%3D%s", node);
    const char *arguments[] = {nodes, "namespace=phases", "namespace=bookmarks", NULL};
    for (int i = 0; i < 4; i++) {
        Bytes *to = &requests[1 + i];
        snprintf(head, sizeof head, "GET /?cmd=%s HTTP/1.1\r\nAccept-Encoding: identity\r\n", asked[i]);
        add_text(to, head);
        if (arguments[i]) {
            snprintf(head, sizeof head, "vary: X-HgArg-1,X-HgProto-1\r\nx-hgarg-1: %s\r\n", arguments[i]);
            add_text(to, head);
        } else {
            add_text(to, "vary: X-HgProto-1\r\n");
        }
        add_text(to, more);
    }
    snprintf(head, sizeof head, "POST /?cmd=unbundle HTTP/1.1\r\nAccept-Encoding: identity\r\n"
        "content-type: application/mercurial-0.1\r\nvary: X-HgArg-1,X-HgProto-1\r\n"
        "x-hgarg-1: heads=666f726365\r\ncontent-length: %zu\r\n", bundle.len);
    add_text(&requests[PUSH], head);
    add_text(&requests[PUSH], more);
    add(&requests[PUSH], bundle.at, bundle.len);
    free(bundle.at);
}

typedef struct {
    int runs, done;
    Bytes (*requests)[REQUESTS];
    Bytes answer;
    double *times, *parts[REQUESTS];
} Client;

static pthread_barrier_t ready;
static int port;
static double until;

static double now(void) {
    struct timespec t;
    clock_gettime(CLOCK_MONOTONIC, &t);
    return (double)t.tv_sec * 1e3 + (double)t.tv_nsec / 1e6;
}

static int connected(void) {
    struct sockaddr_in to = {.sin_family = AF_INET, .sin_port = htons((uint16_t)port)};
    to.sin_addr.s_addr = htonl(INADDR_LOOPBACK);
    int on = 1, s = socket(AF_INET, SOCK_STREAM, 0);
    setsockopt(s, IPPROTO_TCP, TCP_NODELAY, &on, sizeof on);
    if (s < 0 || connect(s, (struct sockaddr *)&to, sizeof to) != 0) fail("no connection");
    return s;
}

static void send_all(int s, const Bytes *b) {
    for (size_t sent = 0; sent < b->len;) {
        ssize_t n = send(s, b->at + sent, b->len - sent, MSG_NOSIGNAL);
        if (n <= 0) fail("a send failed");
        sent += (size_t)n;
    }
}

// A field's value in a head that ends with a zero byte, or NULL.
static const char *field_of(const char *head, const char *name) {
    const char *line = strcasestr(head, name);
    return line ? line + strlen(name) : NULL;
}

// Acknowledges what came at once: a server that writes an answer in two pieces waits for that.
static ssize_t receive(int s, uint8_t *piece, size_t room) {
    int on = 1;
    setsockopt(s, IPPROTO_TCP, TCP_QUICKACK, &on, sizeof on);
    return recv(s, piece, room, 0);
}

// Reads one answer; says whether the connection stays, and where the body begins.
static int read_answer(int s, Bytes *a, size_t *body) {
    char *end = NULL;
    uint8_t piece[65536];
    a->len = 0;
    for (;;) {
        ssize_t n = receive(s, piece, sizeof piece);
        if (n <= 0) fail("an answer is missing");
        add(a, piece, (size_t)n);
        end = memmem(a->at, a->len, "\r\n\r\n", 4);
        if (end) break;
    }
    *end = 0;
    const char *head = (const char *)a->at;
    if (strncmp(head + 8, " 200 ", 5) != 0) fail(head);
    *body = (size_t)(end - head) + 4;
    const char *length = field_of(head, "\r\ncontent-length: ");
    const char *chunked = field_of(head, "\r\ntransfer-encoding: chunked");
    const char *close_it = field_of(head, "\r\nconnection: close");
    size_t wanted = length ? *body + strtoul(length, NULL, 10) : 0;
    for (;;) {
        if (length && a->len >= wanted) return !close_it;
        int is_last = chunked && a->len >= 5 && memcmp(a->at + a->len - 5, "0\r\n\r\n", 5) == 0;
        if (!length && is_last) return !close_it;
        ssize_t n = receive(s, piece, sizeof piece);
        if (n == 0 && !length && !chunked) return 0;
        if (n <= 0) fail("an answer is cut");
        add(a, piece, (size_t)n);
    }
}

static void *push_all(void *of) {
    Client *c = of;
    pthread_barrier_wait(&ready);
    for (int i = 0; i < c->runs; i++) {
        double start = now(), before = start;
        if (start > until) break;
        int s = connected();
        for (int r = 0; r < REQUESTS; r++) {
            size_t body = 0;
            send_all(s, &c->requests[i][r]);
            int stays = read_answer(s, &c->answer, &body);
            if (r == PUSH && !memmem(c->answer.at + body, c->answer.len - body, "reply:changegroup", 17))
                fail("a push was not done");
            if (!stays && r != PUSH) { close(s); s = connected(); }
            double at = now();
            c->parts[r][i] = at - before;
            before = at;
        }
        close(s);
        c->times[i] = now() - start;
        c->done = i + 1;
    }
    return NULL;
}

static int by_time(const void *a, const void *b) {
    double x = *(const double *)a, y = *(const double *)b;
    return x < y ? -1 : x > y;
}

int main(int argc, char **argv) {
    if (argc != 7) fail("PORT CONNECTIONS RUNS SECONDS SALT HEADS");
    port = atoi(argv[1]);
    int connections = atoi(argv[2]), runs = atoi(argv[3]) / connections;
    if (runs < 1) runs = 1;
    uint8_t (*heads)[20] = NULL;
    size_t known = 0;
    char line[64];
    FILE *from = fopen(argv[6], "r");
    if (!from) fail("no heads");
    while (fgets(line, sizeof line, from)) {
        heads = realloc(heads, (known + 1) * sizeof *heads);
        for (int i = 0; i < 20; i++) {
            unsigned byte;
            if (sscanf(line + 2 * i, "%2x", &byte) != 1) fail("a head is no id");
            heads[known][i] = (uint8_t)byte;
        }
        known++;
    }
    fclose(from);
    Client *clients = calloc((size_t)connections, sizeof *clients);
    pthread_t *threads = calloc((size_t)connections, sizeof *threads);
    double *all = calloc((size_t)connections * (size_t)runs, sizeof *all);
    pthread_barrier_init(&ready, NULL, (unsigned)connections + 1);
    for (int i = 0; i < connections; i++) {
        Client *c = &clients[i];
        uint8_t tip[20];
        memcpy(tip, heads[(size_t)i % known], 20);
        c->runs = runs;
        c->requests = calloc((size_t)runs, sizeof *c->requests);
        c->times = calloc((size_t)runs, sizeof *c->times);
        for (int r = 0; r < REQUESTS; r++) c->parts[r] = calloc((size_t)runs, sizeof(double));
        for (int p = 0; p < runs; p++) {
            char words[64];
            snprintf(words, sizeof words, "%s: client %d, run %d", argv[5], i, p);
            make_run(c->requests[p], tip, words);
        }
    }
    until = 1e300;
    for (int i = 0; i < connections; i++)
        if (pthread_create(&threads[i], NULL, push_all, &clients[i]) != 0) fail("no thread");
    double start = now();
    until = start + atof(argv[4]) * 1e3;
    pthread_barrier_wait(&ready);
    for (int i = 0; i < connections; i++) pthread_join(threads[i], NULL);
    double spent = now() - start;
    size_t count = 0;
    for (int i = 0; i < connections; i++)
        for (int p = 0; p < clients[i].done; p++) all[count++] = clients[i].times[p];
    if (!count) fail("no run ended");
    qsort(all, count, sizeof *all, by_time);
    printf("%zu %.2f %.1f %.2f %.2f %.2f", count, spent / 1e3, (double)count / spent * 1e3, all[count / 2],
        all[count - 1 - count / 100], all[count - 1]);
    for (int r = 0; r < REQUESTS; r++) {
        size_t k = 0;
        for (int i = 0; i < connections; i++)
            for (int p = 0; p < clients[i].done; p++) all[k++] = clients[i].parts[r][p];
        qsort(all, k, sizeof *all, by_time);
        printf(" %.2f", all[k / 2]);
    }
    printf("\n");
    return 0;
}
