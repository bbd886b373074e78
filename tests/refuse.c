/* Loaded before a program (LD_PRELOAD), it refuses one of the program's requests for memory: the one whose number is
 * REFUSE, counted from 1. When it does, it writes `refused` to descriptor 9.
 *
 * If MARKED is set, the program makes the four marks of crates/openapi_cases/src/marks.rt. Each is a request of a size
 * that nothing else requests. Then it counts the requests between the second and the third alone. At the fourth it writes
 * `kept` and how many blocks the program holds beyond those that it held at the first. */
#define _GNU_SOURCE
#include <dlfcn.h>
#include <errno.h>
#include <stdio.h>
#include <stdlib.h>
#include <unistd.h>

enum { START = 1111111, CALL_BEGINS = 1234567, CALL_ENDS = 7654321, END = 9999999 };

static long number = -1, count, held, held_at_start;
static int marked, counting;

static void say(const char *format, long argument) {
    char line[32];
    int length = snprintf(line, sizeof line, format, argument);
    if (write(9, line, length) != length) abort();
}

static void at_mark(size_t size) {
    if (size == START) held_at_start = held;
    if (size == CALL_BEGINS) counting = 1;
    if (size == CALL_ENDS) counting = 0;
    if (size == END) say("kept %ld\n", held - held_at_start);
}

static int refused(size_t size) {
    int counted;
    if (number < 0) {
        const char *text = getenv("REFUSE");
        number = text ? atol(text) : 0;
        marked = getenv("MARKED") != 0;
        counting = !marked;
    }
    /* neither the mark that begins the count nor the one that ends it is counted */
    counted = counting;
    if (marked) at_mark(size);
    if (!counted || !counting || ++count != number) return 0;
    say("refused\n", 0);
    errno = ENOMEM;
    return 1;
}

#define REAL(name) static __typeof__(&name) real; if (!real) real = dlsym(RTLD_NEXT, #name)

/* Returns the block, and counts it as held if there is one. */
static void *given(void *block) {
    if (block) held++;
    return block;
}

void *malloc(size_t size) { REAL(malloc); return refused(size) ? 0 : given(real(size)); }

void *aligned_alloc(size_t a, size_t size) { REAL(aligned_alloc); return refused(size) ? 0 : given(real(a, size)); }

int posix_memalign(void **p, size_t a, size_t size) {
    int status;
    REAL(posix_memalign);
    if (refused(size)) return ENOMEM;
    status = real(p, a, size);
    if (status == 0) held++;
    return status;
}

/* A block that grows or moves is held as before. */
void *realloc(void *block, size_t size) {
    REAL(realloc);
    if (refused(size)) return 0;
    if (!block) return given(real(block, size));
    if (size == 0) held--;
    return real(block, size);
}

void free(void *block) {
    REAL(free);
    if (block) held--;
    real(block);
}
