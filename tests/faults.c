/* Loaded before the C library by LD_PRELOAD, this library makes calls of a program fail that hardly ever fail by themselves.
   The environment says which, and an empty variable says nothing:

     FAULT=CALL:FIRST:LAST:ERROR  of the calls of one kind, the FIRSTth to the LASTth fail with this error number; with the
                                  number 0, reads, writes and lists answer 0. A kind is memory (a request for it), open,
                                  read, write (except to standard error), list (the entries of a directory) or look (at what a path is)
     FAULT_MARKED=1               calls count only after a request for 7919 bytes, and up to one for 7927
     FAULT_STEP=N                 each read or write moves at most N bytes, except writes to standard error
     FAULT_ERRORS=N               standard error takes N bytes, one per call, and then fails
     FAULT_PATH=PATH FAULT_RUN=COMMAND FAULT_TIME=N
                                  the shell runs the command before a path that begins so is opened the Nth time
     FAULT_REPORT=FILE            the file gets a line for each call that failed, and for the command */

#define _GNU_SOURCE
#include <dlfcn.h>
#include <errno.h>
#include <fcntl.h>
#include <stdarg.h>
#include <stdio.h>
#include <stdlib.h>
#include <string.h>
#include <sys/stat.h>
#include <sys/syscall.h>
#include <sys/types.h>
#include <unistd.h>

#define BEGINNING 7919
#define END 7927

/* the function of this name that the program would call without this library */
#define NEXT(name) ((__typeof__(&name))dlsym(RTLD_NEXT, #name))

static char kind[16];
static long first, last, calls;
static int error, is_marked, counts;
static size_t step;
/* how many bytes standard error still takes, or less than 0 if it takes all */
static long errors_left = -1;
static const char *path_due, *command, *report_file;
static long time_due, times;

/* the value of a variable of the environment, or NULL */
static const char *setting(const char *name) {
    const char *value = getenv(name);
    return value && *value ? value : NULL;
}

__attribute__((constructor)) static void begin(void) {
    const char *fault = setting("FAULT"), *steps = setting("FAULT_STEP"), *time = setting("FAULT_TIME"),
               *errors = setting("FAULT_ERRORS");
    if (fault && sscanf(fault, "%15[a-z]:%ld:%ld:%d", kind, &first, &last, &error) != 4) {
        dprintf(2, "faults.c: FAULT=%s is no fault\n", fault);
        _exit(125);
    }
    step = steps ? strtoul(steps, NULL, 10) : 0;
    errors_left = errors ? atol(errors) : -1;
    path_due = setting("FAULT_PATH");
    command = setting("FAULT_RUN");
    time_due = time ? atol(time) : 1;
    report_file = setting("FAULT_REPORT");
    is_marked = setting("FAULT_MARKED") != NULL;
    counts = !is_marked;
}

static void report(const char *what) {
    if (!report_file) return;
    int file = syscall(SYS_openat, AT_FDCWD, report_file, O_WRONLY | O_CREAT | O_APPEND, 0666);
    if (file < 0) return;
    syscall(SYS_write, file, what, strlen(what));
    syscall(SYS_write, file, "\n", 1);
    syscall(SYS_close, file);
}

/* whether this call fails */
static int fails(const char *name) {
    if (!counts || strcmp(name, kind) != 0) return 0;
    calls++;
    if (calls < first || calls > last) return 0;
    report(name);
    errno = error;
    return 1;
}

static ssize_t failure(void) { return error ? -1 : 0; }

static int is_refused(size_t size) {
    if (is_marked && size == BEGINNING) {
        counts = 1;
        return 0;
    }
    if (is_marked && size == END) counts = 0;
    return fails("memory");
}

void *malloc(size_t size) { return is_refused(size) ? NULL : NEXT(malloc)(size); }

void *realloc(void *old, size_t size) { return is_refused(size) ? NULL : NEXT(realloc)(old, size); }

/* runs the command if this is the opening that it waits for */
static void prepare_opening(const char *path) {
    if (!command || !path_due || strncmp(path, path_due, strlen(path_due)) != 0 || ++times != time_due) return;
    const char *now = command;
    command = NULL;
    unsetenv("LD_PRELOAD");
    report("command");
    if (system(now) != 0) dprintf(2, "faults.c: the command failed: %s\n", now);
}

static mode_t mode_of(int flags, va_list rest) { return flags & O_CREAT ? va_arg(rest, mode_t) : 0; }

int openat(int folder, const char *path, int flags, ...) {
    va_list rest;
    va_start(rest, flags);
    mode_t mode = mode_of(flags, rest);
    va_end(rest);
    prepare_opening(path);
    return fails("open") ? -1 : NEXT(openat)(folder, path, flags, mode);
}

int open(const char *path, int flags, ...) {
    va_list rest;
    va_start(rest, flags);
    mode_t mode = mode_of(flags, rest);
    va_end(rest);
    prepare_opening(path);
    return fails("open") ? -1 : NEXT(open)(path, flags, mode);
}

static size_t limit_step(size_t count) { return step && step < count ? step : count; }

ssize_t read(int file, void *room, size_t count) {
    return fails("read") ? failure() : NEXT(read)(file, room, limit_step(count));
}

static ssize_t write_error(const void *bytes, size_t count) {
    if (errors_left < 0) return NEXT(write)(2, bytes, count);
    if (errors_left == 0) {
        errno = EIO;
        return -1;
    }
    errors_left--;
    return NEXT(write)(2, bytes, count != 0);
}

ssize_t write(int file, const void *bytes, size_t count) {
    if (file == 2) return write_error(bytes, count);
    return fails("write") ? failure() : NEXT(write)(file, bytes, limit_step(count));
}

ssize_t __write(int file, const void *bytes, size_t count) { return write(file, bytes, count); }

ssize_t getdents64(int folder, void *room, size_t count) {
    return fails("list") ? failure() : NEXT(getdents64)(folder, room, count);
}

int statx(int folder, const char *restrict path, int flags, unsigned mask, struct statx *restrict found) {
    return fails("look") ? -1 : NEXT(statx)(folder, path, flags, mask, found);
}
