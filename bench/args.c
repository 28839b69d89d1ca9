// A program's arguments and the number of the last error, as the kit's library `os` asks for them, for machines for which the kit has no such code. For bench/native alone.
#include <errno.h>
#include <stddef.h>
#include <string.h>

static size_t count;
static char **words;

__attribute__((constructor)) static void keep(int n, char **given) {
    count = (size_t)n;
    words = given;
}

int rattle_errno(void) { return errno; }
void rattle_set_errno(int error) { errno = error; }

size_t rattle_arg_count(void) { return count; }

// Argument i at the front of the room and its length; -1 where there is none, -2 where it does not fit.
ptrdiff_t rattle_arg(size_t i, unsigned char *room, size_t size) {
    if (i >= count) return -1;
    size_t length = strlen(words[i]);
    memcpy(room, words[i], length < size ? length : size);
    return length <= size ? (ptrdiff_t)length : -2;
}
