// Tries linux.c on the machine at hand, with sanitizers: blocks lie at multiples of 16 and keep their bytes, a refused
// growth leaves the old one, errno is the system's, and a word fits or is not handed out.
// gcc -g -fsanitize=address,undefined linux_test.c -o linux_test && ./linux_test
#include <fcntl.h>
#include <stdio.h>
#include <string.h>

#include "linux.c"

// A refused block is null, and no fault of the sanitizer's.
const char *__asan_default_options(void) { return "allocator_may_return_null=1"; }

static void check(int ok, const char *what) {
    if (!ok) {
        fprintf(stderr, "linux: %s\n", what);
        exit(1);
    }
}

static void try_blocks(void) {
    for (size_t size = 0; size < 5000; size += size / 3 + 1) {
        taken it = rattle_alloc(size, 16);
        check(it.is_there && (uintptr_t)it.at % 16 == 0, "a block is not at a multiple of 16");
        memset(it.at, 7, size ? size : 16);
        taken wide = rattle_realloc(it.at, size, 3 * size, 16);
        check(wide.is_there && (uintptr_t)wide.at % 16 == 0, "a grown block is not at a multiple of 16");
        for (size_t i = 0; i < size; i++) check(((char *)wide.at)[i] == 7, "realloc lost bytes");
        taken refused = rattle_realloc(wide.at, 3 * size, PTRDIFF_MAX, 16);
        check(!refused.is_there && refused.at != NULL, "what is refused is null");
        for (size_t i = 0; i < size; i++) check(((char *)wide.at)[i] == 7, "a refused growth lost bytes");
        rattle_dealloc(wide.at);
    }
    taken none = rattle_alloc(PTRDIFF_MAX, 16);
    check(!none.is_there && none.at != NULL, "too much was given");
}

static void try_errno(void) {
    rattle_set_errno(0);
    check(open("no/such/file", O_RDONLY) < 0 && rattle_errno() == ENOENT, "errno is another one");
}

// The words are the program's name, `ab` and an empty one.
static void try_words(void) {
    char room[2] = "zz";
    check(rattle_arg(1, room, 2) == 2 && memcmp(room, "ab", 2) == 0, "a word that fits");
    check(rattle_arg(1, room, 1) == -2, "a word without room");
    check(rattle_arg(2, room, 0) == 0, "an empty word");
    check(rattle_arg(3, room, 2) == -1 && rattle_arg(SIZE_MAX, room, 2) == -1, "a word that is not there");
}

int main(int argc, char **argv) {
    check(argc == 3 && argv[1][0] == 'a', "call it as: linux_test ab ''");
    try_blocks();
    try_errno();
    try_words();
    printf("linux: blocks, errno and words are as they should be\n");
}
