/* A library for LD_PRELOAD that refuses the Nth call of malloc, calloc or realloc, N as FAIL_AT says, to see what a program makes of it.
 * How many calls there were so far stands in the file that CALLS_TO names, however the program ends.
 * cc -shared -fPIC -o refuse.so refuse.c -ldl */
#define _GNU_SOURCE
#include <dlfcn.h>
#include <errno.h>
#include <fcntl.h>
#include <stdio.h>
#include <stdlib.h>
#include <sys/mman.h>
#include <unistd.h>

#define ROOM 24

static long at, refused = -1;
static char *calls;

/* The file's first bytes, as memory; none where there is no such file. */
static char *opened(const char *name)
{
    void *room;
    int file = name ? open(name, O_RDWR | O_CREAT | O_TRUNC, 0600) : -1;
    if (file < 0 || ftruncate(file, ROOM)) return 0;
    room = mmap(0, ROOM, PROT_READ | PROT_WRITE, MAP_SHARED, file, 0);
    return room == MAP_FAILED ? 0 : (char *)room;
}

static int refuses(void)
{
    if (refused < 0) {
        const char *number = getenv("FAIL_AT");
        refused = number ? atol(number) : 0;
        calls = opened(getenv("CALLS_TO"));
    }
    at++;
    if (calls) snprintf(calls, ROOM, "%*ld\n", ROOM - 2, at);
    return at == refused;
}

void *malloc(size_t count)
{
    static void *(*real)(size_t);
    if (!real) *(void **)&real = dlsym(RTLD_NEXT, "malloc");
    if (refuses()) {
        errno = ENOMEM;
        return 0;
    }
    return real(count);
}

void *realloc(void *old, size_t count)
{
    static void *(*real)(void *, size_t);
    if (!real) *(void **)&real = dlsym(RTLD_NEXT, "realloc");
    if (refuses()) {
        errno = ENOMEM;
        return 0;
    }
    return real(old, count);
}

void *calloc(size_t count, size_t size)
{
    static void *(*real)(size_t, size_t);
    static int looks;
    if (!real && looks++) return 0; /* dlsym itself asks, and does without */
    if (!real) *(void **)&real = dlsym(RTLD_NEXT, "calloc");
    if (refuses()) {
        errno = ENOMEM;
        return 0;
    }
    return real(count, size);
}
