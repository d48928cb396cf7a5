/* Put in front of a program: refuses its request for memory of the number REFUSED, counted from 1, and writes to the file COUNTED
   how many requests it made. */
#define _GNU_SOURCE
#include <dlfcn.h>
#include <errno.h>
#include <stdio.h>
#include <stdlib.h>

static unsigned long made, refused;
static void *(*take)(size_t);
static void *(*change)(void *, size_t);

__attribute__((constructor)) static void begin(void) {
    const char *number = getenv("REFUSED");
    take = (void *(*)(size_t))dlsym(RTLD_NEXT, "malloc");
    change = (void *(*)(void *, size_t))dlsym(RTLD_NEXT, "realloc");
    made = 0;
    refused = number ? strtoul(number, 0, 10) : 0;
}

/* A program that may have threads ends by `_exit`, and then no destructor runs. */
__attribute__((destructor)) static void end(void) {
    const char *path = getenv("COUNTED");
    unsigned long count = made;
    FILE *file = path ? fopen(path, "w") : 0;
    if (file) {
        fprintf(file, "%lu\n", count);
        fclose(file);
    }
}

void _exit(int status) {
    void (*leave)(int) = (void (*)(int))dlsym(RTLD_NEXT, "_exit");
    end();
    leave(status);
    __builtin_unreachable();
}

static int is_refused(void) {
    made++;
    if (made != refused)
        return 0;
    errno = ENOMEM;
    return 1;
}

void *malloc(size_t size) {
    if (!take)
        take = (void *(*)(size_t))dlsym(RTLD_NEXT, "malloc");
    return is_refused() ? 0 : take(size);
}

void *realloc(void *at, size_t size) {
    if (!change)
        change = (void *(*)(void *, size_t))dlsym(RTLD_NEXT, "realloc");
    return is_refused() ? 0 : change(at, size);
}
