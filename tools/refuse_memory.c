/* Refuses memory to a program, for tools/check-starved: LD_PRELOAD this library.
 *
 *     REFUSE="growths 5 7"   the growths 5, 6 and 7 are refused, counted from 0
 *     REFUSE="answers 5 7"   each growth is, from when 5 answers were written until 8 are
 *     COUNTS=FILE            at the end FILE has the number of growths, and of those before the first read of
 *                            standard input
 *
 * A growth is a call that asks for memory, an answer a write to standard output.
 */
#include <errno.h>
#include <stdio.h>
#include <stdlib.h>
#include <sys/syscall.h>
#include <unistd.h>

void *__libc_malloc(size_t), *__libc_calloc(size_t, size_t), *__libc_realloc(void *, size_t);
void *__libc_memalign(size_t, size_t);

static long from, to, growths, answers, before = -1;
static char kind = '-';

__attribute__((constructor)) static void begin(void) {
    const char *words = getenv("REFUSE");
    if (words) sscanf(words, "%c%*s %ld %ld", &kind, &from, &to);
    growths = 0;
}

__attribute__((destructor)) static void end(void) {
    const char *name = getenv("COUNTS");
    long all = growths;
    kind = '-';
    FILE *file = name ? fopen(name, "w") : NULL;
    if (file && (fprintf(file, "%ld %ld\n", all, before) < 0 || fclose(file))) _exit(99);
}

static int is_refused(void) {
    long at = kind == 'g' ? growths : answers;
    growths++;
    if (kind == '-' || (kind == 'a' && before < 0) || at < from || at > to) return 0;
    errno = ENOMEM;
    return 1;
}

void *malloc(size_t size) { return is_refused() ? NULL : __libc_malloc(size); }

void *calloc(size_t count, size_t size) { return is_refused() ? NULL : __libc_calloc(count, size); }

void *realloc(void *old, size_t size) { return is_refused() ? NULL : __libc_realloc(old, size); }

void *aligned_alloc(size_t unit, size_t size) { return is_refused() ? NULL : __libc_memalign(unit, size); }

int posix_memalign(void **place, size_t unit, size_t size) {
    *place = is_refused() ? NULL : __libc_memalign(unit, size);
    return *place ? 0 : ENOMEM;
}

ssize_t read(int file, void *bytes, size_t size) {
    if (file == 0 && before < 0) before = growths;
    return syscall(SYS_read, file, bytes, size);
}

ssize_t write(int file, const void *bytes, size_t size) {
    answers += file == 1;
    return syscall(SYS_write, file, bytes, size);
}

ssize_t __write(int file, const void *bytes, size_t size) { return write(file, bytes, size); }
