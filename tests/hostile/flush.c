/* Notes in the file that NOTES names what a run flushes and what it renames, in order. Put before the C library. */
#define _GNU_SOURCE
#include <dlfcn.h>
#include <fcntl.h>
#include <stdio.h>
#include <stdlib.h>
#include <unistd.h>

static void note(const char *call, const char *first, const char *second) {
    const char *name = getenv("NOTES");
    int file = name ? open(name, O_WRONLY | O_APPEND | O_CREAT, 0600) : -1;
    if (file >= 0) {
        dprintf(file, "%s %s%s%s\n", call, first, *second ? " " : "", second);
        close(file);
    }
}

int fsync(int descriptor) {
    int (*theirs)(int) = (int (*)(int))dlsym(RTLD_NEXT, "fsync");
    char link[64], path[4096];
    snprintf(link, sizeof link, "/proc/self/fd/%d", descriptor);
    ssize_t size = readlink(link, path, sizeof path - 1);
    path[size < 0 ? 0 : size] = 0;
    note("flush", path, "");
    return theirs(descriptor);
}

int rename(const char *from, const char *to) {
    int (*theirs)(const char *, const char *) = (int (*)(const char *, const char *))dlsym(RTLD_NEXT, "rename");
    note("rename", from, to);
    return theirs(from, to);
}
