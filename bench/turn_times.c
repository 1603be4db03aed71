/* turn_times.c: how long each turn of a server in one thread takes, between
 * two waits. To be loaded before the C library:
 *
 *     cc -O2 -shared -fPIC -o turn_times.so bench/turn_times.c -ldl
 *     TURN_TIMES=FILE LD_PRELOAD=./turn_times.so vncdemo serve --one-thread ..
 *
 * FILE gets a line for each turn that took longer than all before it, by the
 * clock or by the processor, or more than 5 ms, and for each 100,000th one:
 * its number, both times, how often the thread was put aside or waited, and
 * the pages that it touched first. */
#define _GNU_SOURCE
#include <dlfcn.h>
#include <stdio.h>
#include <stdlib.h>
#include <sys/epoll.h>
#include <sys/resource.h>
#include <time.h>

typedef int (*wait_call)(int, struct epoll_event *, int, int);

struct moment {
    double clock, processor;
    struct rusage use;
};

static FILE *out;
static wait_call wait_as_ever;
static struct moment began;
static double longest, dearest;
static unsigned long turns;

static double milliseconds(clockid_t clock)
{
    struct timespec now;
    clock_gettime(clock, &now);
    return now.tv_sec * 1e3 + now.tv_nsec / 1e6;
}

static struct moment now(void)
{
    struct moment it;
    getrusage(RUSAGE_THREAD, &it.use);
    it.clock = milliseconds(CLOCK_MONOTONIC);
    it.processor = milliseconds(CLOCK_THREAD_CPUTIME_ID);
    return it;
}

static void note(struct moment ended)
{
    double clock = ended.clock - began.clock;
    double processor = ended.processor - began.processor;
    turns++;
    if (clock > longest || processor > dearest || clock > 5
        || turns % 100000 == 0) {
        fprintf(out, "turn %lu: %.3f ms, %.3f of the processor, "
                "put aside %ld times, waited %ld times, %ld pages\n",
                turns, clock, processor,
                ended.use.ru_nivcsw - began.use.ru_nivcsw,
                ended.use.ru_nvcsw - began.use.ru_nvcsw,
                ended.use.ru_minflt - began.use.ru_minflt);
        fflush(out);
    }
    if (clock > longest) longest = clock;
    if (processor > dearest) dearest = processor;
}

int epoll_wait(int descriptor, struct epoll_event *events, int count,
               int timeout)
{
    int found;
    if (wait_as_ever) {
        note(now());
    } else {
        const char *path = getenv("TURN_TIMES");
        wait_as_ever = (wait_call)dlsym(RTLD_NEXT, "epoll_wait");
        out = fopen(path ? path : "turn_times.txt", "w");
        if (!wait_as_ever || !out) abort();
    }
    found = wait_as_ever(descriptor, events, count, timeout);
    began = now();
    return found;
}
