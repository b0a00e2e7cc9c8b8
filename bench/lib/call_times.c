/* Notes when the threads of a program begin and end, when it opens a file, and when its syncs return, a line each:
 *
 *     NANOSECONDS begin THREAD
 *     NANOSECONDS end THREAD
 *     NANOSECONDS open PATH
 *     NANOSECONDS sync THREAD NANOSECONDS
 *
 * The last number is how long the sync took. Threads are counted from 1 in the order in which they are made; 0 is the one that the
 * program starts with. It is loaded before the program's libraries (LD_PRELOAD), and writes to the file that CALL_TIMES names.
 * Where CALL_DELAY is a number, each write of 4,096 bytes takes so many microseconds longer. */
#define _GNU_SOURCE
#include <dlfcn.h>
#include <fcntl.h>
#include <pthread.h>
#include <stdarg.h>
#include <stdatomic.h>
#include <stdio.h>
#include <stdlib.h>
#include <time.h>
#include <unistd.h>

static int notes = -1;
static struct timespec delay;
static atomic_int made;
static _Thread_local int thread;

struct work {
    void *(*run)(void *);
    void *with;
    int thread;
};

static long long now(void) {
    struct timespec time;
    clock_gettime(CLOCK_MONOTONIC, &time);
    return time.tv_sec * 1000000000LL + time.tv_nsec;
}

static int (*real_open(void))(const char *, int, ...) {
    return (int (*)(const char *, int, ...))dlsym(RTLD_NEXT, "open");
}

__attribute__((constructor)) static void begin_notes(void) {
    notes = real_open()(getenv("CALL_TIMES"), O_WRONLY | O_CREAT | O_TRUNC | O_APPEND, 0600);
    const char *microseconds = getenv("CALL_DELAY");
    if (microseconds)
        delay.tv_nsec = atol(microseconds) * 1000;
}

static void *run_noted(void *argument) {
    struct work work = *(struct work *)argument;
    free(argument);
    thread = work.thread;
    dprintf(notes, "%lld begin %d\n", now(), thread);
    void *result = work.run(work.with);
    dprintf(notes, "%lld end %d\n", now(), thread);
    return result;
}

int pthread_create(pthread_t *id, const pthread_attr_t *attributes, void *(*run)(void *), void *with) {
    int (*create)(pthread_t *, const pthread_attr_t *, void *(*)(void *), void *) = dlsym(RTLD_NEXT, "pthread_create");
    struct work *work = malloc(sizeof *work);
    if (!work)
        return create(id, attributes, run, with);
    *work = (struct work){run, with, ++made};
    return create(id, attributes, run_noted, work);
}

int open(const char *path, int flags, ...) {
    va_list rest;
    va_start(rest, flags);
    int file = real_open()(path, flags, va_arg(rest, int));
    va_end(rest);
    dprintf(notes, "%lld open %s\n", now(), path);
    return file;
}

int fsync(int file) {
    int (*sync)(int) = dlsym(RTLD_NEXT, "fsync");
    long long before = now();
    int result = sync(file);
    long long after = now();
    dprintf(notes, "%lld sync %d %lld\n", after, thread, after - before);
    return result;
}

ssize_t write(int file, const void *bytes, size_t count) {
    ssize_t (*put)(int, const void *, size_t) = dlsym(RTLD_NEXT, "write");
    if (count == 4096 && delay.tv_nsec)
        nanosleep(&delay, NULL);
    return put(file, bytes, count);
}
