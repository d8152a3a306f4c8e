/* Loaded before the C library by limits.py. The process gets the signal KILL_SIGNAL before its file call of the number KILL_AT: those that open,
   write, sync, rename and remove files are counted from 1, those of standard output left out. With KILL_HALF a write has moved half of its bytes by then. */
#define _GNU_SOURCE
#include <dlfcn.h>
#include <fcntl.h>
#include <signal.h>
#include <stdarg.h>
#include <stdlib.h>
#include <sys/types.h>
#include <unistd.h>

static long number;

static long setting(const char *name) {
    const char *value = getenv(name);
    return value ? atol(value) : 0;
}

static int is_due(void) { return ++number == setting("KILL_AT"); }

static void end(void) {
    raise((int)setting("KILL_SIGNAL"));
}

int open(const char *name, int flags, ...) {
    va_list rest;
    va_start(rest, flags);
    int mode = va_arg(rest, int);
    va_end(rest);
    if (is_due()) end();
    return ((int (*)(const char *, int, ...))dlsym(RTLD_NEXT, "open"))(name, flags, mode);
}

ssize_t write(int file, const void *bytes, size_t count) {
    ssize_t (*real)(int, const void *, size_t) = (ssize_t (*)(int, const void *, size_t))dlsym(RTLD_NEXT, "write");
    if (file > 2 && is_due()) {
        if (setting("KILL_HALF")) real(file, bytes, count / 2);
        end();
    }
    return real(file, bytes, count);
}

int fsync(int file) {
    if (is_due()) end();
    return ((int (*)(int))dlsym(RTLD_NEXT, "fsync"))(file);
}

int rename(const char *from, const char *to) {
    if (is_due()) end();
    return ((int (*)(const char *, const char *))dlsym(RTLD_NEXT, "rename"))(from, to);
}

int close(int file) {
    if (file > 2 && is_due()) end();
    return ((int (*)(int))dlsym(RTLD_NEXT, "close"))(file);
}

int unlink(const char *name) {
    if (is_due()) end();
    return ((int (*)(const char *))dlsym(RTLD_NEXT, "unlink"))(name);
}
