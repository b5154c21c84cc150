/* Reads by 4,096 bytes and keeps all that it read in one growing block: what the memory alone costs, with no
   grammar. */
#include <stdlib.h>
#include <string.h>
#include <unistd.h>

int main(void) {
    static char piece[4096];
    char *kept = NULL;
    size_t room = 0, length = 0;
    ssize_t count;
    while ((count = read(0, piece, sizeof piece)) > 0) {
        if (length + (size_t)count > room) {
            room = room ? 2 * room : 2 * sizeof piece;
            kept = realloc(kept, room);
            if (kept == NULL)
                return 1;
        }
        memcpy(kept + length, piece, (size_t)count);
        length += (size_t)count;
    }
    free(kept);
    return count < 0;
}
