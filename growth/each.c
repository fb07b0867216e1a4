/* Refuses each growth of memory of one run, each in a copy of the run: at a growth the process forks; in the copy this growth
   is refused, and the copy runs on to its end; then the run itself goes on, with memory. So each growth is refused once and
   nothing is run twice. Preloaded, so that the program under test is the built one.

   The environment: COUNTS is the descriptor that gets, at the end, a line of four numbers: the growths, the copies that ended
   as they do with ample memory, those of which a call was made again with ample memory, and those that ended for lack of it. A copy that ends otherwise has its output
   on the same descriptor, and the run ends. FILES is how many files the run reads before growths count. */
#define _GNU_SOURCE
#include <dlfcn.h>
#include <fcntl.h>
#include <stddef.h>
#include <stdio.h>
#include <stdlib.h>
#include <string.h>
#include <sys/mman.h>
#include <sys/wait.h>
#include <unistd.h>

static void *(*next_malloc)(size_t);
static void *(*next_realloc)(void *, size_t);
static int (*next_close)(int);
static int is_copy, files = -1, counts = -1, output = -1;
static long growths, same, again, memory;
static char text[1 << 20];

static void begin(void) {
    if (files >= 0) {
        return;
    }
    const char *said = getenv("FILES");
    files = said ? atoi(said) : 0;
    said = getenv("COUNTS");
    counts = said ? atoi(said) : 2;
    output = memfd_create("output", 0);
}

static void say(const char *line, size_t length) {
    (void)!write(counts, line, length);
}

/* What a copy printed and how it ended. */
static void judge(int status) {
    ssize_t length = pread(output, text, sizeof text - 1, 0);
    text[length < 0 ? 0 : length] = 0;
    int failed = strstr(text, "FAILED") != NULL;
    if (WIFEXITED(status) && WEXITSTATUS(status) == 0 && !failed) {
        if (strstr(text, "  again ")) {
            again++;
        } else {
            same++;
        }
    } else if (WIFEXITED(status) && !failed && (strstr(text, "emory") || strstr(text, "AllocError") || strstr(text, "AllocFailed"))) {
        memory++;
    } else {
        char line[100];
        int size = snprintf(line, sizeof line, "growth %ld: status %d\n", growths, status);
        say(line, size);
        say(text, strlen(text));
        _exit(1);
    }
}

/* Whether this growth is to be refused: it is in the copy. */
static int refused(void) {
    begin();
    if (is_copy || files > 0) {
        return 0;
    }
    growths++;
    (void)!ftruncate(output, 0);
    pid_t copy = fork();
    if (copy == 0) {
        is_copy = 1;
        lseek(output, 0, SEEK_SET);
        dup2(output, 1);
        dup2(output, 2);
        return 1;
    }
    int status = 0;
    if (copy < 0 || waitpid(copy, &status, 0) < 0) {
        say("no copy\n", 8);
        _exit(1);
    }
    judge(status);
    return 0;
}

void *malloc(size_t size) {
    if (!next_malloc) {
        next_malloc = dlsym(RTLD_NEXT, "malloc");
    }
    return refused() ? NULL : next_malloc(size);
}

void *realloc(void *block, size_t size) {
    if (!next_realloc) {
        next_realloc = dlsym(RTLD_NEXT, "realloc");
    }
    return refused() ? NULL : next_realloc(block, size);
}

int close(int descriptor) {
    if (!next_close) {
        next_close = dlsym(RTLD_NEXT, "close");
    }
    begin();
    files -= files > 0;
    return next_close(descriptor);
}

__attribute__((destructor)) static void end(void) {
    if (!is_copy && counts >= 0) {
        char line[100];
        int size = snprintf(line, sizeof line, "%ld %ld %ld %ld\n", growths, same, again, memory);
        say(line, size);
    }
}
