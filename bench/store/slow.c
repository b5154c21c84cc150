/* In the place of the library's fdatasync: a sync that takes so long and does nothing, as of a disk that nobody else
   uses. SLOW has the nanoseconds. */
#include <stdlib.h>
#include <time.h>

int fdatasync(int file) {
    (void)file;
    struct timespec time = {0, atol(getenv("SLOW"))};
    nanosleep(&time, NULL);
    return 0;
}
