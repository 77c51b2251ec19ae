/* Loaded before the C library by LD_PRELOAD, this library counts what a program asks of the C library. If the program ends by
   `exit` or returns from `main`, the file that COUNTS names gets a line for each count, such as `read 2`:

     requests   requests for memory: for new blocks, and for other sizes of blocks
     held       blocks that were not freed
     peak       the most bytes that were held at once
     read       reads
     write      writes, except to standard error
     errors     writes to standard error
     sync       waits for the disk
     open       files and directories that were opened
     close      those that were closed */

#define _GNU_SOURCE
#include <dirent.h>
#include <dlfcn.h>
#include <errno.h>
#include <fcntl.h>
#include <malloc.h>
#include <stdarg.h>
#include <stdio.h>
#include <stdlib.h>
#include <sys/types.h>
#include <unistd.h>

/* the function of this name that the program would call without this library */
#define NEXT(name) ((__typeof__(&name))dlsym(RTLD_NEXT, #name))

/* the C library's own functions, which need no `dlsym`: it may request memory itself */
extern void *__libc_malloc(size_t);
extern void *__libc_calloc(size_t, size_t);
extern void *__libc_realloc(void *, size_t);
extern void *__libc_memalign(size_t, size_t);
extern void __libc_free(void *);

static long requests, held, readings, writings, errors, syncs, openings, closings;
static size_t bytes, peak;

static void *count_block(void *block) {
    if (!block) return NULL;
    held++;
    bytes += malloc_usable_size(block);
    if (bytes > peak) peak = bytes;
    return block;
}

static void uncount_block(void *block) {
    if (!block) return;
    held--;
    bytes -= malloc_usable_size(block);
}

void *malloc(size_t size) {
    requests++;
    return count_block(__libc_malloc(size));
}

void *calloc(size_t count, size_t size) {
    requests++;
    return count_block(__libc_calloc(count, size));
}

void *realloc(void *old, size_t size) {
    size_t before = old ? malloc_usable_size(old) : 0;
    void *block = __libc_realloc(old, size);
    requests++;
    if (!block) {
        if (old && !size) {
            held--;
            bytes -= before;
        }
        return NULL;
    }
    if (old) {
        held--;
        bytes -= before;
    }
    return count_block(block);
}

void *aligned_alloc(size_t alignment, size_t size) {
    requests++;
    return count_block(__libc_memalign(alignment, size));
}

int posix_memalign(void **block, size_t alignment, size_t size) {
    *block = aligned_alloc(alignment, size);
    return *block ? 0 : ENOMEM;
}

void free(void *block) {
    uncount_block(block);
    __libc_free(block);
}

ssize_t read(int file, void *room, size_t count) {
    readings++;
    return NEXT(read)(file, room, count);
}

ssize_t write(int file, const void *from, size_t count) {
    if (file == 2)
        errors++;
    else
        writings++;
    return NEXT(write)(file, from, count);
}

int fsync(int file) {
    syncs++;
    return NEXT(fsync)(file);
}

int fdatasync(int file) {
    syncs++;
    return NEXT(fdatasync)(file);
}

static int count_file(int file) {
    if (file >= 0) openings++;
    return file;
}

static mode_t mode_of(int flags, va_list rest) { return flags & O_CREAT ? va_arg(rest, mode_t) : 0; }

int open(const char *path, int flags, ...) {
    va_list rest;
    va_start(rest, flags);
    mode_t mode = mode_of(flags, rest);
    va_end(rest);
    return count_file(NEXT(open)(path, flags, mode));
}

int openat(int folder, const char *path, int flags, ...) {
    va_list rest;
    va_start(rest, flags);
    mode_t mode = mode_of(flags, rest);
    va_end(rest);
    return count_file(NEXT(openat)(folder, path, flags, mode));
}

int close(int file) {
    int failed = NEXT(close)(file);
    if (!failed) closings++;
    return failed;
}

__attribute__((destructor)) static void tell(void) {
    const char *path = getenv("COUNTS");
    int file = path ? NEXT(open)(path, O_WRONLY | O_CREAT | O_TRUNC, 0666) : -1;
    if (file < 0) return;
    /* `dprintf` would ask for memory, which `faults.c` may refuse */
    char text[400];
    int length = snprintf(text, sizeof text,
                          "requests %ld\nheld %ld\npeak %zu\nread %ld\nwrite %ld\nerrors %ld\nsync %ld\nopen %ld\nclose %ld\n",
                          requests, held, peak, readings, writings, errors, syncs, openings, closings);
    if (NEXT(write)(file, text, length) != length) _exit(125);
    NEXT(close)(file);
}
