/* Refuses one growth of memory: that with the number of the environment's REFUSE, counted from 1.
   It tells that it did on the descriptor that NOTES names. Preloaded, so that the program under test is the built one. */
#define _GNU_SOURCE
#include <dlfcn.h>
#include <stddef.h>
#include <stdlib.h>
#include <unistd.h>

static long number = -1;
static long seen;
static void *(*next_malloc)(size_t);
static void *(*next_realloc)(void *, size_t);

static int refused(void) {
    if (number < 0) {
        const char *text = getenv("REFUSE");
        number = text ? atol(text) : 0;
    }
    if (number == 0 || ++seen != number) {
        return 0;
    }
    const char *notes = getenv("NOTES");
    (void)!write(notes ? atoi(notes) : 2, "refused\n", 8);
    return 1;
}

void *malloc(size_t size) {
    if (!next_malloc) {
        next_malloc = dlsym(RTLD_NEXT, "malloc");
    }
    return refused() ? NULL : next_malloc(size);
}

void *realloc(void *block, size_t size) {
    if (!next_realloc) {
        next_realloc = dlsym(RTLD_NEXT, "realloc");
    }
    return refused() ? NULL : next_realloc(block, size);
}
