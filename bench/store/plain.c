/* What stands beside a store. Arguments: a way, the bytes of a record, and a number.

   batch   the writes and the syncs of a store alone, by one thread: so many records in each batch
   group   the same by so many threads: a record waits until it is on the disk, and whoever finds no other
           writing writes those that wait, up to 64 of them, as one batch
   digest  as group, and each thread makes the SHA-1 of its record before it hands it in
   lock    so many threads, each of which holds a lock over the writes and the syncs of its own record
   sqlite  so many threads with a connection each, which insert a record in a transaction of its own, with a
           write-ahead log and synchronous=FULL

   A batch is written behind a shut gate, with a shut gate at its end, and is synced; then its first gate is opened by
   one byte, and synced. Up to 1 MiB it is copied and written by one call, and else each record by two, from the memory
   of its thread. No digest is written. It prints batches and records a second. */
#define _GNU_SOURCE
#include <fcntl.h>
#include <openssl/sha.h>
#include <pthread.h>
#include <sqlite3.h>
#include <stdio.h>
#include <stdlib.h>
#include <string.h>
#include <time.h>
#include <unistd.h>

enum { HEAD = 25, MOST = 64, PLACES = 4096 };

static int file;
static size_t size;
static off_t end = 38;
static double until;

static double now(void) {
    struct timespec time;
    clock_gettime(CLOCK_MONOTONIC, &time);
    return time.tv_sec + time.tv_nsec * 1e-9;
}

static void put(const char *from, size_t length, off_t at) {
    while (length > 0) {
        ssize_t count = pwrite(file, from, length, at);
        if (count <= 0)
            exit(1);
        from += count;
        length -= count;
        at += count;
    }
}

static void sync_file(void) {
    if (fdatasync(file) != 0)
        exit(1);
}

static char *new_record(void) {
    char *bytes = malloc(size);
    if (bytes == NULL)
        exit(1);
    memset(bytes, 'x', size);
    return bytes;
}

/* The records that were handed in, each at the place of its number. */
static const char *handed_in[PLACES];

static char gathered[1 << 20];

/* Gathers these bytes, or writes them from where they are. Gives the place behind them. */
static off_t add(const char *from, size_t length, off_t at, int is_gathered) {
    if (is_gathered)
        memcpy(gathered + (at - end - 1), from, length);
    else
        put(from, length, at);
    return at + length;
}

static void put_batch(long first, long records) {
    char head[HEAD] = {1};
    off_t at = end + 1;
    int is_gathered = records * (HEAD + size) <= sizeof gathered;
    for (long i = 0; i < records; i++) {
        size_t skipped = i == 0;
        at = add(head + skipped, HEAD - skipped, at, is_gathered);
        at = add(handed_in[(first + i) % PLACES], size, at, is_gathered);
    }
    add("\0", 1, at, is_gathered);
    if (is_gathered)
        put(gathered, at - end, end + 1);
    sync_file();
    put("\1", 1, end);
    sync_file();
    end = at;
}

static pthread_mutex_t lock = PTHREAD_MUTEX_INITIALIZER;
static pthread_cond_t written = PTHREAD_COND_INITIALIZER;
static long handed, kept, batches;
static int is_writing, has_digest;

static void *group(void *unused) {
    (void)unused;
    char *bytes = new_record();
    while (now() < until) {
        if (has_digest) {
            unsigned char digest[SHA_DIGEST_LENGTH];
            SHA1((unsigned char *)bytes, size, digest);
            bytes[0] = digest[0];
        }
        pthread_mutex_lock(&lock);
        long mine = handed++;
        handed_in[mine % PLACES] = bytes;
        while (kept <= mine) {
            if (is_writing) {
                pthread_cond_wait(&written, &lock);
                continue;
            }
            long first = kept, records = handed - kept < MOST ? handed - kept : MOST;
            is_writing = 1;
            pthread_mutex_unlock(&lock);
            put_batch(first, records);
            pthread_mutex_lock(&lock);
            is_writing = 0;
            kept += records;
            batches++;
            pthread_cond_broadcast(&written);
        }
        pthread_mutex_unlock(&lock);
    }
    return NULL;
}

static void *locked(void *unused) {
    (void)unused;
    char *bytes = new_record();
    while (now() < until) {
        pthread_mutex_lock(&lock);
        handed_in[0] = bytes;
        put_batch(0, 1);
        kept++;
        batches++;
        pthread_mutex_unlock(&lock);
    }
    return NULL;
}

static void run(sqlite3 *base, const char *text) {
    if (sqlite3_exec(base, text, NULL, NULL, NULL) != SQLITE_OK) {
        fprintf(stderr, "%s: %s\n", text, sqlite3_errmsg(base));
        exit(1);
    }
}

static sqlite3 *opened(void) {
    sqlite3 *base;
    if (sqlite3_open("speed.sqlite", &base) != SQLITE_OK)
        exit(1);
    sqlite3_busy_timeout(base, 60000);
    run(base, "pragma journal_mode=wal");
    run(base, "pragma synchronous=full");
    return base;
}

static void *insert(void *unused) {
    (void)unused;
    char *bytes = new_record();
    sqlite3 *base = opened();
    sqlite3_stmt *put_one;
    if (sqlite3_prepare_v2(base, "insert into pushes(bundle) values(?)", -1, &put_one, NULL) != SQLITE_OK)
        exit(1);
    while (now() < until) {
        sqlite3_bind_blob(put_one, 1, bytes, size, SQLITE_STATIC);
        if (sqlite3_step(put_one) != SQLITE_DONE) {
            fprintf(stderr, "%s\n", sqlite3_errmsg(base));
            exit(1);
        }
        sqlite3_reset(put_one);
        __atomic_fetch_add(&kept, 1, __ATOMIC_SEQ_CST);
        __atomic_fetch_add(&batches, 1, __ATOMIC_SEQ_CST);
    }
    sqlite3_finalize(put_one);
    sqlite3_close(base);
    return NULL;
}

int main(int count, char **words) {
    if (count != 4)
        return 2;
    const char *way = words[1];
    size = strtoul(words[2], NULL, 10);
    long number = strtol(words[3], NULL, 10);
    double seconds = 1;
    has_digest = strcmp(way, "digest") == 0;
    void *(*each)(void *) = strcmp(way, "lock") == 0 ? locked : strcmp(way, "sqlite") == 0 ? insert : group;
    if (strcmp(way, "sqlite") == 0) {
        sqlite3 *base = opened();
        run(base, "create table pushes(place integer primary key, bundle blob)");
        sqlite3_close(base);
    } else {
        file = open("speed.plain", O_CREAT | O_TRUNC | O_RDWR, 0644);
        char head[39] = {0};
        put(head, 39, 0);
        sync_file();
    }
    double start = now();
    until = start + seconds;
    if (strcmp(way, "batch") == 0) {
        for (long i = 0; i < PLACES; i++)
            handed_in[i] = i == 0 ? new_record() : handed_in[0];
        for (; now() < until; batches++, kept += number)
            put_batch(0, number);
    } else {
        pthread_t threads[number];
        for (long i = 0; i < number; i++)
            if (pthread_create(&threads[i], NULL, each, NULL) != 0)
                return 1;
        for (long i = 0; i < number; i++)
            pthread_join(threads[i], NULL);
    }
    double spent = now() - start;
    printf("%s %zu %ld %.1f %.1f\n", way, size, number, batches / spent, kept / spent);
    return 0;
}
