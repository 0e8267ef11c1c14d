/* A library that is loaded in front of the system's, for scripts/program.py. It notes each thread that the program starts, as a
 * byte more in the file whose descriptor STARTED says; and where MOST says a number, each read of standard input and each write to
 * an output moves that many bytes at most. */
#define _GNU_SOURCE
#include <dlfcn.h>
#include <pthread.h>
#include <stdlib.h>
#include <unistd.h>

static int started = -1;
static size_t most;

__attribute__((constructor)) static void begin(void) {
    const char *descriptor = getenv("STARTED"), *bytes = getenv("MOST");
    if (descriptor) started = atoi(descriptor);
    if (bytes) most = strtoul(bytes, NULL, 10);
}

static size_t cut(size_t length, int is_cut) {
    return is_cut && most != 0 && length > most ? most : length;
}

ssize_t read(int file, void *bytes, size_t length) {
    static ssize_t (*next)(int, void *, size_t);
    if (!next) next = (ssize_t (*)(int, void *, size_t))dlsym(RTLD_NEXT, "read");
    return next(file, bytes, cut(length, file == STDIN_FILENO));
}

ssize_t write(int file, const void *bytes, size_t length) {
    static ssize_t (*next)(int, const void *, size_t);
    if (!next) next = (ssize_t (*)(int, const void *, size_t))dlsym(RTLD_NEXT, "write");
    return next(file, bytes, cut(length, file == STDOUT_FILENO || file == STDERR_FILENO));
}

int pthread_create(pthread_t *thread, const pthread_attr_t *attributes, void *(*run)(void *), void *given) {
    static int (*next)(pthread_t *, const pthread_attr_t *, void *(*)(void *), void *);
    if (!next) next = (int (*)(pthread_t *, const pthread_attr_t *, void *(*)(void *), void *))dlsym(RTLD_NEXT, "pthread_create");
    if (started >= 0 && write(started, "", 1) != 1) abort();
    return next(thread, attributes, run, given);
}
