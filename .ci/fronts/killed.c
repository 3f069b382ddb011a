/* Preloaded into the shell: its process is killed at the n-th system call that changes a file, before the call, in the midst of what it writes, or after it.
   Or the call fails, or from then on each one that takes room on the disk. The plan is in the control file at OFFSET, as {armed, count, at, way}. */
#define _GNU_SOURCE
#include <dlfcn.h>
#include <errno.h>
#include <fcntl.h>
#include <signal.h>
#include <stdarg.h>
#include <stdint.h>
#include <stdio.h>
#include <stdlib.h>
#include <string.h>
#include <sys/mman.h>
#include <unistd.h>

enum { OFFSET = 2048, BEFORE, MIDST, AFTER, FAILS, FULL };
static struct { uint32_t is_armed, count, at, way; } *plan;

__attribute__((constructor)) static void begin(void) {
    const char *path = getenv("KSV_CONTROL");
    int number = strncmp(program_invocation_short_name, "python", 6) || !path ? -1 : open(path, O_RDWR | O_CLOEXEC);
    char *map = number < 0 ? MAP_FAILED : mmap(0, 4096, PROT_READ | PROT_WRITE, MAP_SHARED, number, 0);
    plan = map == MAP_FAILED ? 0 : (void *)(map + OFFSET);
    if (number >= 0) close(number);
}

/* Whether this call is the one, of which this is the way. */
static int is_turn(void) { return plan && plan->is_armed && ++plan->count == plan->at; }
static void end(void) { kill(getpid(), SIGKILL); }
/* Whether a call fails that is the one; or one that takes room, where the disk is full. */
static int is_failing(int is_last, int is_room) {
    int is_it = plan && plan->is_armed && ((is_last && plan->way == FAILS) || (is_room && plan->way == FULL && plan->count >= plan->at));
    if (is_it) errno = ENOSPC;
    return is_it;
}

#define CALL(type, name, parameters, words) \
    type name parameters { \
        type (*real) parameters = (type (*) parameters)dlsym(RTLD_NEXT, #name); \
        int is_last = is_turn(); \
        if (is_failing(is_last, 0)) return -1; \
        if (is_last && plan->way <= MIDST) end(); \
        type found = real words; \
        if (is_last && plan->way == AFTER) end(); \
        return found; \
    }

static ssize_t written(const char *name, int number, const void *bytes, size_t count, off64_t at) {
    ssize_t (*real)(int, const void *, size_t, off64_t) = (ssize_t(*)(int, const void *, size_t, off64_t))dlsym(RTLD_NEXT, name);
    int is_last = is_turn();
    if (is_failing(is_last, 1)) return -1;
    if (is_last && plan->way == BEFORE) end();
    ssize_t found = real(number, bytes, is_last && plan->way != AFTER ? (count + 1) / 2 : count, at);
    if (is_last && plan->way <= AFTER) end();
    return found;
}

/* An open that makes a file. */
static int opened(const char *name, const char *path, int how, mode_t mode) {
    int (*real)(const char *, int, ...) = (int (*)(const char *, int, ...))dlsym(RTLD_NEXT, name);
    int is_last = how & O_CREAT ? is_turn() : 0;
    if (is_failing(is_last, how & O_CREAT)) return -1;
    if (is_last && plan->way <= MIDST) end();
    int found = real(path, how, mode);
    if (is_last && plan->way == AFTER) end();
    return found;
}

static mode_t mode_of(int how, va_list words) { return how & O_CREAT ? va_arg(words, mode_t) : 0; }
#define OPEN(name) \
    int name(const char *path, int how, ...) { \
        va_list words; \
        va_start(words, how); \
        mode_t mode = mode_of(how, words); \
        va_end(words); \
        return opened(#name, path, how, mode); \
    }

OPEN(open)
OPEN(open64)

ssize_t pwrite64(int number, const void *bytes, size_t count, off64_t at) { return written("pwrite64", number, bytes, count, at); }
ssize_t pwrite(int number, const void *bytes, size_t count, off_t at) { return written("pwrite", number, bytes, count, at); }
CALL(int, fsync, (int number), (number))
CALL(int, rename, (const char *from, const char *to), (from, to))
CALL(int, renameat, (int in, const char *from, int out, const char *to), (in, from, out, to))
CALL(int, unlink, (const char *path), (path))
CALL(int, ftruncate64, (int number, off64_t length), (number, length))
CALL(int, ftruncate, (int number, off_t length), (number, length))
CALL(int, flock, (int number, int how), (number, how))
CALL(int, memfd_create, (const char *name, unsigned how), (name, how))
