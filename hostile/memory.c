/* Loaded before the C library by memory.py. At each allocation whose turn it is the process is doubled: in the copy this one fails, with
   FAIL_ALL each later one too, and the copy goes on to its end. What became of the copy is told in a line of the file FAIL_LOG: the number
   of the allocation, the status that wait gives, how much was written before, whether the working folder is as it was, and what the copy
   wrote, in hexadecimal digits. The process itself goes on as if nothing had been. */
#define _GNU_SOURCE
#include <dirent.h>
#include <errno.h>
#include <fcntl.h>
#include <stddef.h>
#include <stdio.h>
#include <stdlib.h>
#include <sys/stat.h>
#include <sys/wait.h>
#include <unistd.h>

extern void *__libc_malloc(size_t);
extern void *__libc_calloc(size_t, size_t);
extern void *__libc_realloc(void *, size_t);
extern void *__libc_memalign(size_t, size_t);

enum { SECONDS = 60, MOST = 4000 };

static enum { WHOLE, ONE_FAILS, ALL_FAIL } state;
static int inside, record, output;
static long number, first, stride, last;
static int all;

static long setting(const char *name) {
    const char *value = getenv(name);
    return value ? atol(value) : 0;
}

__attribute__((constructor)) static void prepare(void) {
    inside = 1;
    first = setting("FAIL_FIRST");
    stride = setting("FAIL_STRIDE");
    last = setting("FAIL_LAST");
    all = setting("FAIL_ALL") != 0;
    record = open(getenv("FAIL_LOG"), O_WRONLY | O_CREAT | O_APPEND | O_CLOEXEC, 0666);
    output = open(getenv("FAIL_OUTPUT"), O_RDWR | O_CREAT | O_TRUNC | O_APPEND | O_CLOEXEC, 0666);
    inside = record < 0 || output < 0;
}

/* A sum of the names, sizes and times of the files of the working folder. */
static unsigned long folder(void) {
    unsigned long sum = 0;
    DIR *files = opendir(".");
    for (struct dirent *each; files && (each = readdir(files));) {
        struct stat told;
        if (each->d_name[0] == '.' || stat(each->d_name, &told)) continue;
        unsigned long one = 5381;
        for (const char *at = each->d_name; *at; at++) one = one * 33 + *at;
        sum += ((one * 31 + told.st_ino) * 31 + told.st_size) * 31 + told.st_mtim.tv_sec * 1000000000 + told.st_mtim.tv_nsec;
    }
    if (files) closedir(files);
    return sum;
}

static void tell(int status, long before, int same) {
    static unsigned char bytes[MOST];
    long count = pread(output, bytes, MOST, 0);
    dprintf(record, "%ld %d %ld %d ", number, status, before, same);
    for (long at = 0; at < count; at++) dprintf(record, "%02x", bytes[at]);
    dprintf(record, "\n");
}

/* Whether this allocation fails. */
static int fails(void) {
    if (inside) return 0;
    if (state != WHOLE) return state == ALL_FAIL;
    number++;
    if (number < first || (number - first) % stride || (last && number > last)) return 0;
    inside = 1;
    off_t taken = lseek(0, 0, SEEK_CUR), before = lseek(1, 0, SEEK_CUR);
    unsigned long files = folder();
    int status = -1;
    if (ftruncate(output, 0)) return 0;
    pid_t copy = fork();
    if (copy == 0) {
        dup2(output, 1);
        alarm(SECONDS);
        state = all ? ALL_FAIL : ONE_FAILS;
        inside = 0;
        return 1;
    }
    if (copy > 0) waitpid(copy, &status, 0);
    lseek(0, taken, SEEK_SET);
    tell(status, before, folder() == files);
    inside = 0;
    return 0;
}

static void *refused(void) {
    errno = ENOMEM;
    return NULL;
}

void *malloc(size_t size) { return fails() ? refused() : __libc_malloc(size); }
void *calloc(size_t count, size_t size) { return fails() ? refused() : __libc_calloc(count, size); }
void *realloc(void *old, size_t size) { return fails() ? refused() : __libc_realloc(old, size); }
void *aligned_alloc(size_t align, size_t size) { return fails() ? refused() : __libc_memalign(align, size); }
int posix_memalign(void **into, size_t align, size_t size) {
    if (fails()) return ENOMEM;
    *into = __libc_memalign(align, size);
    return *into ? 0 : ENOMEM;
}
