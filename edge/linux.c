// The edge of the program on Linux, for processors that the kit has no such functions for, and where it is linked with
// the whole C library: memory, errno and the words. All else that the program calls is the C library's own: open, read,
// write, close, lseek, statx.
#include <errno.h>
#include <stddef.h>
#include <stdint.h>
#include <stdlib.h>

// What the program wants of a block: whether there is one, and where; where there is none, a place that is not null.
typedef struct {
    uint64_t is_there;
    void *at;
} taken;

static char nothing;

static taken told(void *at) { return (taken){at != NULL, at ? at : &nothing}; }

// A block for `size` bytes, or for `least` where that is 0. (malloc keeps blocks at multiples of 16.)
taken rattle_alloc(size_t size, size_t least) { return told(malloc(size ? size : least)); }

// The same bytes in a block for `size` bytes, or for `least`. Where there is none, the old one stays as it is.
taken rattle_realloc(void *at, size_t old, size_t size, size_t least) {
    (void)old;
    return told(realloc(at, size ? size : least));
}

// Gives a block back.
void rattle_dealloc(void *at) { free(at); }

int rattle_errno(void) { return errno; }

void rattle_set_errno(int value) { errno = value; }

static int count;
static char **words;

// glibc hands the words to each function that runs before main.
__attribute__((constructor)) static void keep(int argc, char **argv) {
    count = argc;
    words = argv;
}

// Puts the bytes of a word, of which 0 is the program's name, into the buffer, and gives how many they are: -1 where
// there is no such word, -2 where it has more bytes than there is room for.
int64_t rattle_arg(size_t place, char *buf, size_t room) {
    if (place >= (size_t)count || words[place] == NULL) return -1;
    size_t n = 0;
    for (; words[place][n]; n++) {
        if (n == room) return -2;
        buf[n] = words[place][n];
    }
    return (int64_t)n;
}
