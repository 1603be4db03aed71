/* server_limits.c: how much a vnc_server keeps until it is fetched, how long its turns wait, and what ends a wait: "server_limits ok" where
 * each answer is the one that stands here. With an argument less is waited for, and not for one who is silent for 10 seconds. */
#define _DEFAULT_SOURCE
#include "vnc_server.h"
#include "viewers.h"
#include <poll.h>
#include <pthread.h>
#include <sys/syscall.h>
#include <sys/wait.h>

/* What vnc_server_timeout says where a turn would wait without end. */
enum { NO_END = INT32_MAX };

/* The clock, which the library asks too: it fails where it is told to. */
static int clock_fails;

int clock_gettime(clockid_t clock, struct timespec *now) { return clock_fails ? -1 : (int)syscall(SYS_clock_gettime, clock, now); }

/* ---- What is kept until it is fetched: 4,096 inputs, 4 MB of texts, and 1,024 comings and goings; what comes then is lost, and counted */

/* A number as it is sent, its highest byte first. */
static void puts_number(uint8_t *at, uint32_t number)
{
    at[0] = (uint8_t)(number >> 24), at[1] = (uint8_t)(number >> 16), at[2] = (uint8_t)(number >> 8), at[3] = (uint8_t)number;
}

/* A viewer says that so many keys go down, numbered from 0 to 499 again and again (7.5.4), so that none is let go for another; and so many
 * texts of so many letters, at most 2,049 (7.5.6). */
enum { KEYS = 500 };

static int says_keys(uint32_t count)
{
    uint8_t message[8] = {4, 1, 0, 0, 0, 0, 0, 0};
    uint32_t k;
    for (k = 0; k < count; k++) {
        puts_number(message + 4, k % KEYS);
        if (!says(first, message, 8)) return 0;
    }
    return 1;
}

static int says_texts(uint32_t count, uint32_t length)
{
    uint8_t message[8 + 2049] = {6};
    memset(message + 8, 'a', 2049);
    puts_number(message + 4, length);
    for (; count > 0; count--)
        if (!says(first, message, 8 + length)) return 0;
    return 1;
}

/* The next inputs, which are there, are so many of these keys; and so many texts, each of so many letters. */
static int told_keys(uint32_t count)
{
    vnc_input in = {0, 0, 0, 0, 0, 0, 0, 0, 0}, want = {1, VNC_INPUT_KEY, 1, 0, 0, 0, 0, 0, 0};
    uint32_t k;
    for (k = 0; k < count; k++) {
        want.key = k % KEYS;
        if (vnc_server_next_inputs(s, &in, 1) != 1 || !is_input(&in, &want)) return 0;
    }
    return 1;
}

static int told_texts(uint32_t count, uint64_t length)
{
    vnc_input in;
    for (; count > 0; count--)
        if (vnc_server_next_inputs(s, &in, 1) != 1 || in.kind != VNC_INPUT_TEXT || in.length != length || in.shortened != 0) return 0;
    return 1;
}

/* Of 4,100 keys the last four are lost, the first 4,096 are fetched in order, and then there is room again. */
static int keys(void)
{
    vnc_input in;
    IS(listens(2, 1), 0);
    HOLDS(opens(&first));
    HOLDS(says_keys(4100));
    HOLDS(sees_all(first));
    IS(vnc_server_lost_count(s), 4);
    HOLDS(told_keys(4096));
    IS(vnc_server_next_inputs(s, &in, 1), 0);
    HOLDS(is_heard(first));
    IS(vnc_server_lost_count(s), 4);
    return is_over();
}

/* Texts that are lost, since 4,096 inputs wait, take none of the room for texts: more than 4 MB of them, and behind them one is kept. */
static int lost_texts(void)
{
    IS(listens(2, 1), 0);
    HOLDS(opens(&first));
    HOLDS(says_keys(4096));
    HOLDS(says_texts(2048, 2049));
    HOLDS(sees_all(first));
    IS(vnc_server_lost_count(s), 2048);
    HOLDS(told_keys(4096));
    HOLDS(says_texts(1, 2049));
    HOLDS(sees_all(first));
    HOLDS(told_texts(1, 2049));
    IS(vnc_server_lost_count(s), 2048);
    return is_over();
}

/* What was lost is counted anew once the server listens anew, and what wasn't fetched is gone. */
static int loses_count(void)
{
    vnc_input in[4];
    vnc_event events[2];
    IS(listens(2, 1), 0);
    HOLDS(opens(&first));
    HOLDS(says_keys(4097));
    HOLDS(sees_all(first));
    IS(vnc_server_lost_count(s), 1);
    IS(listens(2, 1), 0);
    IS(vnc_server_lost_count(s), 0);
    IS(vnc_server_next_inputs(s, in, 4), 0);
    IS(vnc_server_next_events(s, events, 2), 0);
    return is_over();
}

/* Whether turns are taken until a call answers this. */
static int comes_to(int64_t (*call)(vnc_server *), int64_t answer)
{
    double end = seconds() + patience;
    do {
        if (call(s) == answer) return 1;
    } while (is_patient(end));
    return 0;
}

static int64_t lost(vnc_server *of) { return vnc_server_lost_count(of); }
static int64_t timeout_of(vnc_server *of) { return vnc_server_timeout(of); }

/* Of 520 viewers that come and go, 1,024 comings and goings are kept, and the last 16 are lost. */
static int events(void)
{
    vnc_event event;
    int k;
    IS(listens(2, 1), 0);
    for (k = 0; k < 520; k++) {
        HOLDS(connects(&first));
        leaves(&first);
        IS(vnc_server_process_events(s, WAIT), 0);
    }
    HOLDS(comes_to(lost, 16));
    HOLDS(comes(1));
    for (k = 0; k < 1023; k++) IS(vnc_server_next_events(s, &event, 1), 1);
    IS(vnc_server_next_events(s, &event, 1), 0);
    IS(vnc_server_viewer_count(s), 0);
    return is_over();
}

/* What viewers say after 2,048 texts of 2,048 letters, which are kept all: texts of so many letters, of which so many are lost; and how many
 * of the first are fetched before. An empty text is kept, and what is fetched makes room for so many bytes and no more. */
static const struct { uint32_t fetched, count, length; int64_t lost; } more_texts[] = {{0, 1, 1, 1}, {0, 1, 0, 1}, {1, 1, 2049, 2}, {0, 2, 1024, 2}, {0, 1, 1, 3}};

static int says_more(size_t k)
{
    HOLDS(told_texts(more_texts[k].fetched, 2048));
    HOLDS(opens(&first));
    HOLDS(says_texts(more_texts[k].count, more_texts[k].length));
    HOLDS(sees_all(first));
    IS(vnc_server_lost_count(s), more_texts[k].lost);
    return 0;
}

static int texts(void)
{
    vnc_input in;
    size_t k;
    IS(listens(2, 1), 0);
    for (k = 0; k < 64; k++) {
        HOLDS(opens(&first));
        HOLDS(says_texts(32, 2048));
        HOLDS(sees_all(first));
    }
    IS(vnc_server_lost_count(s), 0);
    EACH(k, more_texts) ROW(k, says_more(k));
    HOLDS(told_texts(2047, 2048));
    HOLDS(told_texts(1, 0));
    HOLDS(told_texts(2, 1024));
    IS(vnc_server_next_inputs(s, &in, 1), 0);
    return is_over();
}

/* ---- How long turns wait */

/* Where nothing is left to do, a turn would wait without end, and waits for as many milliseconds as it is told; once a viewer waits for what
 * is drawn, not at all. */
static int waits(void)
{
    static const uint32_t eight = 8;
    double start;
    IS(listens(2, 1), 0);
    HOLDS(comes_to(timeout_of, NO_END));
    start = seconds();
    IS(vnc_server_process_events(s, 30), 0);
    HOLDS(seconds() - start >= 0.03);
    HOLDS(opens(&first));
    HOLDS(sees_all(first));
    HOLDS(says(first, B(CHANGES)));
    HOLDS(is_heard(first));
    IS(vnc_server_paint(s, 0, 0, 1, 1, &eight, 1), 0);
    IS(vnc_server_timeout(s), 0);
    HOLDS(reads(first, B("\0\0\0\x01\0\0\0\0\0\x01\0\x01\0\0\0\0\x08\0\0\0")));
    IS(vnc_server_bell(s), 0);
    IS(vnc_server_timeout(s), 0);
    HOLDS(reads(first, "\x02", 1));
    return is_over();
}

/* A program's own loop finds the handle ready once a viewer comes, and not before; a turn that doesn't wait sees to it. */
static int handle(void)
{
    struct pollfd ready = {-1, POLLIN, 0};
    IS(listens(2, 1), 0);
    HOLDS(comes_to(timeout_of, NO_END));
    ready.fd = vnc_server_fd(s);
    HOLDS(ready.fd >= 0);
    IS(vnc_server_fd(s), ready.fd);
    IS(poll(&ready, 1, 8), 0);
    HOLDS(connects(&first));
    IS(poll(&ready, 1, 4000), 1);
    IS(vnc_server_process_events(s, 0), 0);
    HOLDS(comes(1));
    return is_over();
}

/* Where the system doesn't tell the time, a turn and the wait for it say so; then the next turns go on. */
static int no_time(void)
{
    IS(listens(2, 1), 0);
    HOLDS(connects(&first));
    clock_fails = 1;
    IS(vnc_server_timeout(s), VNC_ERROR_CLOCK);
    IS(vnc_server_process_events(s, 0), VNC_ERROR_CLOCK);
    clock_fails = 0;
    HOLDS(says(first, B(OPENING)));
    HOLDS(skips(first, GREETED));
    return is_over();
}

/* ---- What ends a wait */

/* A wake before the turn ends its wait too, and the server is as it was. A waker that was closed is shut, so is one of a server that is
 * shut, and one that outlives its server wakes nobody. */
static int wakers(void)
{
    vnc_waker *w = 0;
    int32_t code;
    IS(listens(2, 1), 0);
    HOLDS(comes_to(timeout_of, NO_END));
    IS(vnc_waker_new(s, &w), 0);
    IS(vnc_waker_wake(w), 0);
    IS(vnc_server_process_events(s, -1), 0);
    IS(vnc_server_viewer_count(s), 0);
    IS(vnc_server_lost_count(s), 0);
    IS(vnc_server_timeout(s), NO_END);
    IS(vnc_waker_close(w), 0);
    IS(vnc_waker_wake(w), VNC_ERROR_CLOSED);
    IS(vnc_waker_close(w), 0);
    vnc_waker_init(s, w);
    IS(vnc_waker_wake(w), 0);
    IS(vnc_server_close(s), 0);
    code = vnc_waker_wake(w);
    HOLDS(code == 0 || code == VNC_ERROR_NETWORK);
    vnc_waker_free(w);
    IS(vnc_waker_new(s, &w), 0);
    IS(vnc_waker_wake(w), VNC_ERROR_CLOSED);
    vnc_waker_free(w);
    IS(vnc_server_process_events(s, 0), VNC_ERROR_CLOSED);
    return is_over();
}

/* Another thread says that it has begun, a little later, and wakes. */
static pthread_mutex_t lock = PTHREAD_MUTEX_INITIALIZER;
static int begun, woken;

static void *begins_and_wakes(void *waker)
{
    struct timespec pause = {0, 20000000};
    nanosleep(&pause, 0);
    pthread_mutex_lock(&lock);
    begun = 1;
    pthread_mutex_unlock(&lock);
    woken = vnc_waker_wake((vnc_waker *)waker);
    return 0;
}

/* A turn without end goes on until then. */
static int is_woken(vnc_waker *waker)
{
    pthread_t other;
    int32_t code;
    int had_begun;
    begun = 0;
    IS(pthread_create(&other, 0, begins_and_wakes, waker), 0);
    code = vnc_server_process_events(s, -1);
    pthread_mutex_lock(&lock);
    had_begun = begun;
    pthread_mutex_unlock(&lock);
    IS(pthread_join(other, 0), 0);
    IS(code, 0);
    IS(woken, 0);
    HOLDS(had_begun);
    return 0;
}

/* Another thread ends the wait, once for each time that it wakes, and nothing else does. */
static int another_thread(void)
{
    vnc_waker *w = 0;
    IS(listens(2, 1), 0);
    HOLDS(comes_to(timeout_of, NO_END));
    IS(vnc_waker_new(s, &w), 0);
    DO(is_woken(w));
    DO(is_woken(w));
    vnc_waker_free(w);
    return is_over();
}

/* ---- A viewer whose opening isn't over within 10 seconds is let go, and not before; until then the server says how long a turn waits */

static int silent(void)
{
    double start = seconds();
    int k;
    IS(listens(2, 1), 0);
    HOLDS(connects(&first));
    HOLDS(reads(first, B("RFB 003.008\n")));
    HOLDS(comes(1));
    for (k = 0; k < 100 && vnc_server_viewer_count(s) > 0; k++) {
        int32_t wait = vnc_server_timeout(s);
        HOLDS(wait >= 0 && wait <= 10000);
        IS(vnc_server_process_events(s, wait), 0);
    }
    HOLDS(goes(1, VNC_REASON_TIMEOUT, 0));
    HOLDS(ends(first));
    HOLDS(seconds() - start >= 10);
    return is_over();
}

static int all_others(void)
{
    DO(keys());
    DO(loses_count());
    DO(lost_texts());
    DO(events());
    DO(texts());
    DO(waits());
    DO(handle());
    DO(no_time());
    DO(wakers());
    DO(another_thread());
    return 0;
}

int main(int argc, char **argv)
{
    pid_t child = -1;
    int status = 0;
    (void)argv;
    alarm(120); /* where nothing ends a wait without end, this ends the program */
    s = (vnc_server *)malloc(vnc_server_size());
    HOLDS(s != 0);
    vnc_server_init(s);
    if (argc > 1) {
        patience = 3;
    } else {
        child = fork();
        HOLDS(child >= 0);
    }
    if (child == 0) status = silent();
    else status = all_others();
    vnc_server_free(s);
    if (child == 0) return status;
    if (child > 0) {
        int silent_status = 0;
        HOLDS(waitpid(child, &silent_status, 0) == child);
        IS(silent_status, 0);
    }
    if (status == 0) puts("server_limits ok");
    return status;
}
