// Gives another text where a file is opened again. Loaded before the C library (LD_PRELOAD), it counts the calls that open the path of
// OPENED_TWICE to be read: the second one opens the path with ".again" after it.

#define _GNU_SOURCE
#include <dlfcn.h>
#include <fcntl.h>
#include <stdarg.h>
#include <stdio.h>
#include <stdlib.h>
#include <string.h>
#include <sys/types.h>

static int times;

// The path that is opened for this one.
static const char *path_for(const char *path, char *room, size_t size) {
    const char *twice = getenv("OPENED_TWICE");
    if (twice == NULL || strcmp(path, twice) != 0 || ++times != 2)
        return path;
    snprintf(room, size, "%s.again", path);
    return room;
}

int open(const char *path, int flags, ...) {
    char room[4096];
    mode_t mode = 0;
    if (flags & O_CREAT) {
        va_list list;
        va_start(list, flags);
        mode = va_arg(list, mode_t);
        va_end(list);
    }
    int (*next)(const char *, int, ...) = (int (*)(const char *, int, ...))dlsym(RTLD_NEXT, "open");
    return next(path_for(path, room, sizeof room), flags, mode);
}

int open64(const char *path, int flags, ...) {
    char room[4096];
    mode_t mode = 0;
    if (flags & O_CREAT) {
        va_list list;
        va_start(list, flags);
        mode = va_arg(list, mode_t);
        va_end(list);
    }
    int (*next)(const char *, int, ...) = (int (*)(const char *, int, ...))dlsym(RTLD_NEXT, "open64");
    return next(path_for(path, room, sizeof room), flags, mode);
}

int openat(int folder, const char *path, int flags, ...) {
    char room[4096];
    mode_t mode = 0;
    if (flags & O_CREAT) {
        va_list list;
        va_start(list, flags);
        mode = va_arg(list, mode_t);
        va_end(list);
    }
    int (*next)(int, const char *, int, ...) = (int (*)(int, const char *, int, ...))dlsym(RTLD_NEXT, "openat");
    return next(folder, path_for(path, room, sizeof room), flags, mode);
}
