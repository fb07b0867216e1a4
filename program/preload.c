/* Notes the order in which a run stores and renames files, and makes one of the two fail. Preloaded, so that the program under
   test is the built one.

   The environment: NOTES is the descriptor that gets a line for each file that is stored, `stored INODE`, and for each that is
   renamed, `renamed INODE`; where the descriptor of a file that is stored is that of a standard stream, `standard` stands in the
   place of `stored`. FAILS is `stored` or `renamed` where each such call is to fail with EIO, after its line; ENDS is one of
   the two where the run is to be ended there, as by `kill`. */
#define _GNU_SOURCE
#include <dlfcn.h>
#include <errno.h>
#include <fcntl.h>
#include <signal.h>
#include <stdio.h>
#include <stdlib.h>
#include <string.h>
#include <sys/stat.h>
#include <unistd.h>

/* Notes what is done with a file, and says whether that is to fail. */
static int noted(const char *done, int found, const struct stat *file) {
    const char *notes = getenv("NOTES"), *fails = getenv("FAILS"), *ends = getenv("ENDS");
    char line[100];
    int length = snprintf(line, sizeof line, "%s %lu\n", done, found == 0 ? (unsigned long)file->st_ino : 0);
    (void)!write(notes ? atoi(notes) : 2, line, length);
    if (ends && strcmp(ends, done) == 0) {
        raise(SIGTERM);
    }
    if (!fails || strcmp(fails, done) != 0) {
        return 0;
    }
    errno = EIO;
    return 1;
}

static int not_stored(int descriptor) {
    struct stat file;
    return noted(descriptor > 2 ? "stored" : "standard", fstat(descriptor, &file), &file);
}

static int not_renamed(int folder, const char *name) {
    struct stat file;
    return noted("renamed", fstatat(folder, name, &file, AT_SYMLINK_NOFOLLOW), &file);
}

int fsync(int descriptor) {
    int (*next)(int) = dlsym(RTLD_NEXT, "fsync");
    return not_stored(descriptor) ? -1 : next(descriptor);
}

int fdatasync(int descriptor) {
    int (*next)(int) = dlsym(RTLD_NEXT, "fdatasync");
    return not_stored(descriptor) ? -1 : next(descriptor);
}

int rename(const char *from, const char *to) {
    int (*next)(const char *, const char *) = dlsym(RTLD_NEXT, "rename");
    return not_renamed(AT_FDCWD, from) ? -1 : next(from, to);
}

int renameat(int folder, const char *from, int other, const char *to) {
    int (*next)(int, const char *, int, const char *) = dlsym(RTLD_NEXT, "renameat");
    return not_renamed(folder, from) ? -1 : next(folder, from, other, to);
}

int renameat2(int folder, const char *from, int other, const char *to, unsigned flags) {
    int (*next)(int, const char *, int, const char *, unsigned) = dlsym(RTLD_NEXT, "renameat2");
    return not_renamed(folder, from) ? -1 : next(folder, from, other, to, flags);
}
