// Tries the heap of wasm.c on the machine at hand, with sanitizers: blocks keep their bytes, lie at multiples of 16 and
// apart from each other, a refused growth changes nothing, and a call takes no more than the one before it.
// gcc -O2 -g -fsanitize=address,undefined -Wno-attributes heap_test.c -o heap_test && ./heap_test
// Some minutes; with -DTURNS=10000, as in the gate, some seconds.
#include <stdio.h>
#include <stdlib.h>
#include <string.h>
#include <sys/mman.h>

static unsigned char *arena;
static unsigned long pages, limit; // of 64 KiB, counted from address 0 as in a module
static unsigned long size_now(void) { return pages; }
static unsigned long grow(unsigned long more) {
    if (pages + more > limit) return (unsigned long)-1;
    pages += more;
    return pages - more;
}
#define __builtin_wasm_memory_size(memory) size_now()
#define __builtin_wasm_memory_grow(memory, more) grow(more)
#define __heap_base (*arena)
#include "wasm.c"

#ifndef TURNS
#define TURNS 300000
#endif
enum { BLOCKS = 200 };
static struct {
    unsigned char *at;
    size_t size;
    unsigned char mark;
} block[BLOCKS];

static void check(int ok, const char *what) {
    if (!ok) {
        fprintf(stderr, "heap: %s\n", what);
        exit(1);
    }
}

static void look(int k) {
    for (size_t i = 0; i < block[k].size; i++)
        check(block[k].at[i] == block[k].mark, "a block lost its bytes");
}

static size_t some_size(void) { return (size_t)rand() % (1u << (rand() % 18)); }

static unsigned long run(unsigned seed) {
    srand(seed);
    memset(block, 0, sizeof block);
    jps_reset();
    unsigned long refused = 0;
    for (int turn = 0; turn < TURNS; turn++) {
        int k = rand() % BLOCKS;
        if (block[k].at) look(k);
        if (block[k].at && rand() % 2) {
            rattle_dealloc(block[k].at);
            block[k].at = NULL;
            block[k].size = 0;
            continue;
        }
        size_t size = some_size(), had = block[k].size;
        taken got = block[k].at ? rattle_realloc(block[k].at, had, size, 1) : rattle_alloc(size, 1);
        if (!got.is_there) {
            refused++;
            check(got.at != NULL, "a refused block is null");
            continue;
        }
        check((unsigned long)got.at % 16 == 0, "a block is not at a multiple of 16");
        check((unsigned long)got.at + size <= end && end <= pages * PAGE, "a block is outside");
        for (size_t i = 0; i < had && i < size; i++)
            check(((unsigned char *)got.at)[i] == block[k].mark, "realloc lost bytes");
        block[k].at = got.at;
        block[k].size = size;
        block[k].mark = (unsigned char)turn;
        memset(got.at, block[k].mark, size);
    }
    return refused;
}

int main(void) {
    unsigned long most = 64ul << 20;
    arena = mmap(NULL, most, PROT_READ | PROT_WRITE, MAP_PRIVATE | MAP_ANONYMOUS, -1, 0);
    arena = (unsigned char *)(((unsigned long)arena + PAGE - 1) / PAGE * PAGE);
    unsigned long first = (unsigned long)arena / PAGE;
    pages = first;
    limit = first + (most >> 16) - 1;
    for (uint64_t n = 1; n <= MOST; n += n / 7 + 1)
        check(size_of(class_of(n)) >= n && size_of(class_of(n)) % 16 == 0 &&
                  (n <= 64 || size_of(class_of(n)) <= n + n / 4 + 16) && class_of(n) < CLASSES &&
                  class_of(size_of(class_of(n))) == class_of(n),
              "a class is wrong");
    check(class_of(MOST) == CLASSES - 1 && size_of(CLASSES - 1) == MOST, "the last class is wrong");
    unsigned long refused = run(1), took = pages;
    for (int k = 0; k < 3; k++) {
        check(run(1) == refused, "another call was refused more");
        check(pages == took, "another call took more");
    }
    limit = pages = first + 20;
    refused = run(2);
    check(refused > 0, "nothing was refused");
    check(jps_room(MOST + 1) == NULL && jps_room(MOST) == NULL, "too much was given");
    printf("heap: %lu pages; with 20 pages %lu of %d were refused\n", took - first, refused, TURNS);
}
