/* A disk whose sync fails once, and then forgets what it was to write: the pages are clean, later syncs say Ok, and
   the file shows what the disk does not have until the system drops it. To be preloaded before a server whose store is
   there already. Of the environment:

   LYING_DISK    the file that has what the disk has; it is made of the store where it is not there
   LYING_AT      which sync of the store fails, counted from 1; none where it is not told
   LYING_LIES    it says Ok all the same
   LYING_KEEPS   what the system keeps is never dropped */
#define _GNU_SOURCE
#include <dlfcn.h>
#include <errno.h>
#include <fcntl.h>
#include <pthread.h>
#include <stdarg.h>
#include <stdlib.h>
#include <string.h>
#include <sys/stat.h>
#include <unistd.h>

#define MOST 65536

static pthread_mutex_t lock = PTHREAD_MUTEX_INITIALIZER;
static int store = -1, disk = -1, is_resized;
static long syncs, count;
static struct { off_t at; size_t size; } dirty[MOST];

#define REAL(name) ((typeof(&name))dlsym(RTLD_NEXT, #name))

/* Copies a piece of one file to another. */
static void copy(int from, int to, off_t at, size_t size) {
    char piece[65536];
    while (size > 0) {
        ssize_t got = pread(from, piece, size < sizeof piece ? size : sizeof piece, at);
        if (got <= 0)
            return;
        if (REAL(pwrite)(to, piece, got, at) != got)
            abort();
        at += got;
        size -= got;
    }
}

static off_t size_of(int file) {
    struct stat found;
    if (fstat(file, &found) != 0)
        abort();
    return found.st_size;
}

static void begin(int file) {
    const char *name = getenv("LYING_DISK");
    struct stat found;
    int is_new = stat(name, &found) != 0;
    disk = REAL(open)(name, O_RDWR | O_CREAT | O_CLOEXEC, 0600);
    store = file;
    if (is_new)
        copy(store, disk, 0, size_of(store));
}

int open(const char *path, int flags, ...) {
    va_list more;
    va_start(more, flags);
    int mode = va_arg(more, int);
    va_end(more);
    int file = REAL(open)(path, flags, mode);
    size_t length = strlen(path);
    if (file >= 0 && (flags & O_ACCMODE) == O_RDWR && length > 7 && strcmp(path + length - 7, "/pushes") == 0)
        begin(file);
    return file;
}

ssize_t pwrite(int file, const void *bytes, size_t size, off_t at) {
    ssize_t written = REAL(pwrite)(file, bytes, size, at);
    if (file == store && written > 0) {
        pthread_mutex_lock(&lock);
        if (count == MOST)
            abort();
        dirty[count].at = at;
        dirty[count++].size = written;
        pthread_mutex_unlock(&lock);
    }
    return written;
}

int ftruncate(int file, off_t size) {
    if (file == store)
        is_resized = 1;
    return REAL(ftruncate)(file, size);
}

/* What was written since the last sync comes to the disk, or is forgotten. */
static int put(void) {
    const char *at = getenv("LYING_AT");
    int fails = ++syncs == (at ? atol(at) : 0);
    if (!fails) {
        for (long number = 0; number < count; number++)
            copy(store, disk, dirty[number].at, dirty[number].size);
        if (is_resized && REAL(ftruncate)(disk, size_of(store)) != 0)
            abort();
    }
    count = is_resized = 0;
    if (!fails || getenv("LYING_LIES"))
        return 0;
    errno = EIO;
    return -1;
}

static int sync_of(int file, int (*real)(int)) {
    if (file != store)
        return real(file);
    pthread_mutex_lock(&lock);
    int result = put();
    pthread_mutex_unlock(&lock);
    return result;
}

int fsync(int file) {
    return sync_of(file, REAL(fsync));
}

int fdatasync(int file) {
    return sync_of(file, REAL(fdatasync));
}

/* What is not dirty is read from the disk again. */
int posix_fadvise(int file, off_t at, off_t size, int advice) {
    if (file != store || advice != POSIX_FADV_DONTNEED || getenv("LYING_KEEPS"))
        return REAL(posix_fadvise)(file, at, size, advice);
    pthread_mutex_lock(&lock);
    if (count == 0) {
        off_t whole = size_of(store), has = size_of(disk);
        if (REAL(ftruncate)(store, 0) != 0 || REAL(ftruncate)(store, whole) != 0)
            abort();
        copy(disk, store, 0, has < whole ? has : whole);
    }
    pthread_mutex_unlock(&lock);
    return 0;
}
