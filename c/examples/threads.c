/* threads.c [PORT [COUNT]]: a server in threads, for any number of viewers on a port of the loopback: one screen behind a lock, and of
 * each viewer a reader and a writer. The writer has its update cut under the lock, and fetches and writes it without. A square moves; the
 * first button paints, a key rings a bell. It ends once COUNT viewers came and went, where that is given.
 * cc threads.c $(pkg-config --cflags --libs vnc_screen) -lpthread */
#define _POSIX_C_SOURCE 200809L
#include "vnc_screen.h"
#include <arpa/inet.h>
#include <errno.h>
#include <pthread.h>
#include <signal.h>
#include <stdio.h>
#include <string.h>
#include <sys/socket.h>
#include <sys/time.h>
#include <time.h>
#include <unistd.h>

enum { MOST = 64, WIDTH = 640, HEIGHT = 480, SIDE = 16 };

static pthread_mutex_t lock = PTHREAD_MUTEX_INITIALIZER;  /* around each call for the screen, and what is below */
static pthread_cond_t changed = PTHREAD_COND_INITIALIZER; /* there may be something to send */
static vnc_screen *screen;
static int is_over;

static struct viewer {
    int is_taken, is_gone, is_over; /* a place is taken from a viewer's coming until its threads are joined */
    int fd;
    uint64_t number;
    vnc_update *update; /* its writer's alone, but to be cut into */
    pthread_t reader, writer;
} viewers[MOST];

static void use_inputs(void)
{
    static uint32_t white[64];
    vnc_input in[16];
    int64_t n, k;
    memset(white, 0xff, sizeof white);
    while ((n = vnc_screen_next_inputs(screen, in, 16)) > 0)
        for (k = 0; k < n; k++) {
            if (in[k].kind == VNC_INPUT_POINTER && in[k].buttons & 1 && in[k].x + 8 <= WIDTH && in[k].y + 8 <= HEIGHT)
                vnc_screen_paint(screen, (int32_t)in[k].x, (int32_t)in[k].y, (int32_t)in[k].x + 8, (int32_t)in[k].y + 8, white, 64);
            else if (in[k].kind == VNC_INPUT_KEY && in[k].down)
                vnc_screen_bell(screen);
        }
}

/* Waits until there is something to send. How many bytes of the opening's words go to `piece`; where there are none, an update was cut.
 * Below 0 where the viewer is gone, or memory was refused. */
static int32_t next_for(struct viewer *v, uint8_t *piece, size_t count)
{
    int32_t words, cut = 0;
    pthread_mutex_lock(&lock);
    while ((words = vnc_screen_output(screen, v->number, piece, count)) == 0 && !v->is_gone && (cut = vnc_screen_cut_into(screen, v->number, v->update)) == 0)
        pthread_cond_wait(&changed, &lock);
    pthread_mutex_unlock(&lock);
    return words == 0 && cut != 1 ? -1 : words;
}

static int write_all(int fd, const uint8_t *piece, size_t count)
{
    while (count > 0) {
        ssize_t n = write(fd, piece, count);
        if (n < 0 && errno == EINTR) continue;
        if (n <= 0) return 0;
        piece += n;
        count -= (size_t)n;
    }
    return 1;
}

/* A viewer's writer. It sends what waits, also once a fault ended its reader. */
static void *send_to(void *of)
{
    struct viewer *v = (struct viewer *)of;
    uint8_t piece[8192];
    int32_t n = 0;
    while (n == 0 && (n = next_for(v, piece, sizeof piece)) >= 0 && write_all(v->fd, piece, (size_t)n))
        while ((n = vnc_update_output(v->update, piece, sizeof piece)) > 0 && write_all(v->fd, piece, (size_t)n)) {}
    shutdown(v->fd, SHUT_RDWR); /* its reader ends too */
    return 0;
}

/* A viewer's reader. */
static void *hear(void *of)
{
    struct viewer *v = (struct viewer *)of;
    uint8_t piece[4096];
    int32_t code = 0;
    ssize_t n = 0;
    while (code == 0 && ((n = read(v->fd, piece, sizeof piece)) > 0 || (n < 0 && errno == EINTR))) {
        pthread_mutex_lock(&lock);
        if (n > 0) code = vnc_screen_hear(screen, v->number, piece, (size_t)n);
        use_inputs();
        pthread_cond_broadcast(&changed);
        pthread_mutex_unlock(&lock);
    }
    if (n <= 0) shutdown(v->fd, SHUT_RDWR); /* a writer that waits for it ends too */
    pthread_mutex_lock(&lock);
    v->is_gone = 1;
    pthread_cond_broadcast(&changed);
    pthread_mutex_unlock(&lock);
    pthread_join(v->writer, 0);
    close(v->fd);
    vnc_update_free(v->update);
    pthread_mutex_lock(&lock);
    vnc_screen_close_viewer(screen, v->number);
    v->is_over = 1;
    pthread_mutex_unlock(&lock);
    return 0;
}

/* A place among the viewers, or null. */
static struct viewer *place(void)
{
    int i, is_done;
    for (i = 0; i < MOST; i++) {
        pthread_mutex_lock(&lock);
        is_done = viewers[i].is_over;
        pthread_mutex_unlock(&lock);
        if (viewers[i].is_taken && is_done) {
            pthread_join(viewers[i].reader, 0);
            viewers[i].is_taken = 0;
        }
        if (!viewers[i].is_taken) return &viewers[i];
    }
    return 0;
}

/* A viewer comes: 1, or 0 where it is sent away. */
static int welcome(int fd, uint64_t number)
{
    const struct timeval patience = {10, 0}; /* for one that takes nothing */
    struct viewer *v = place();
    int32_t code;
    if (!v || vnc_update_new(&v->update) < 0) { close(fd); return 0; }
    pthread_mutex_lock(&lock);
    code = vnc_screen_connect(screen, number);
    v->is_gone = v->is_over = 0;
    pthread_mutex_unlock(&lock);
    if (code < 0) { vnc_update_free(v->update); close(fd); return 0; }
    setsockopt(fd, SOL_SOCKET, SO_SNDTIMEO, &patience, sizeof patience);
    v->fd = fd;
    v->number = number;
    v->is_taken = 1;
    if (pthread_create(&v->writer, 0, send_to, v) || pthread_create(&v->reader, 0, hear, v)) exit(4);
    return 1;
}

/* Draws without end, whoever looks. */
static void *move_square(void *unused)
{
    static uint32_t inks[2][SIDE * SIDE];
    const struct timespec pause = {0, 10 * 1000 * 1000};
    int x = 0, k, ends = 0;
    (void)unused;
    for (k = 0; k < SIDE * SIDE; k++) inks[1][k] = 0x3060c0;
    while (!ends) {
        pthread_mutex_lock(&lock);
        vnc_screen_paint(screen, x, 240, x + SIDE, 240 + SIDE, inks[0], SIDE * SIDE);
        x = (x + 4) % (WIDTH - SIDE);
        vnc_screen_paint(screen, x, 240, x + SIDE, 240 + SIDE, inks[1], SIDE * SIDE);
        ends = is_over;
        pthread_cond_broadcast(&changed);
        pthread_mutex_unlock(&lock);
        nanosleep(&pause, 0);
    }
    return 0;
}

int main(int argc, char **argv)
{
    struct sockaddr_in to;
    pthread_t painter;
    int one = 1, most = argc > 2 ? atoi(argv[2]) : -1, came = 0, listener, i;
    memset(&to, 0, sizeof to);
    to.sin_family = AF_INET;
    to.sin_addr.s_addr = htonl(INADDR_LOOPBACK);
    to.sin_port = htons((uint16_t)(argc > 1 ? atoi(argv[1]) : 5900));
    signal(SIGPIPE, SIG_IGN);
    if (vnc_screen_new(WIDTH, HEIGHT, "threads", 50, &screen) < 0) return 3;
    listener = socket(AF_INET, SOCK_STREAM, 0);
    setsockopt(listener, SOL_SOCKET, SO_REUSEADDR, &one, sizeof one);
    if (bind(listener, (struct sockaddr *)&to, sizeof to) || listen(listener, 16)) return 5;
    if (pthread_create(&painter, 0, move_square, 0)) return 4;
    while (most < 0 || came < most) {
        int fd = accept(listener, 0, 0);
        if (fd >= 0) came += welcome(fd, (uint64_t)came + 1);
    }
    for (i = 0; i < MOST; i++)
        if (viewers[i].is_taken) pthread_join(viewers[i].reader, 0);
    pthread_mutex_lock(&lock);
    is_over = 1;
    pthread_mutex_unlock(&lock);
    pthread_join(painter, 0);
    close(listener);
    vnc_screen_free(screen);
    return 0;
}
