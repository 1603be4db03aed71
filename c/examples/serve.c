/* serve.c [PORT [COUNT]]: a server in one thread, for any number of viewers on a port of the loopback. The first button paints, a key
 * rings a bell. It ends once COUNT viewers came and went, where that is given.
 * cc serve.c $(pkg-config --cflags --libs vnc_screen) */
#define _POSIX_C_SOURCE 200809L
#include "vnc_screen.h"
#include <arpa/inet.h>
#include <errno.h>
#include <fcntl.h>
#include <poll.h>
#include <signal.h>
#include <stdio.h>
#include <string.h>
#include <sys/socket.h>
#include <unistd.h>

enum { MOST = 64 };

static vnc_screen *screen;
static struct pollfd fds[MOST + 1];
static struct { uint8_t at[8192]; size_t count, gone; } piece[MOST + 1]; /* what of its output a viewer was not written yet */
static int count = 1;

static void drop(int i)
{
    vnc_screen_close_viewer(screen, (uint64_t)fds[i].fd);
    close(fds[i].fd);
    fds[i] = fds[--count];
    piece[i] = piece[count];
}

/* Writes what waits for viewer i, as far as its socket takes it: 0 where the socket failed. A new update is cut once the last one is
 * written, so that a slow viewer skips what was drawn over. */
static int send_on(int i)
{
    uint64_t viewer = (uint64_t)fds[i].fd;
    for (;;) {
        ssize_t n;
        if (piece[i].gone == piece[i].count) {
            int32_t more = vnc_screen_output(screen, viewer, piece[i].at, sizeof piece[i].at);
            if (more == 0 && vnc_screen_cut(screen, viewer) == 1) continue;
            if (more < 0) return 0;
            if (more == 0) return 1;
            piece[i].count = (size_t)more;
            piece[i].gone = 0;
        }
        n = write(fds[i].fd, piece[i].at + piece[i].gone, piece[i].count - piece[i].gone);
        if (n < 0) return errno == EAGAIN || errno == EINTR;
        piece[i].gone += (size_t)n;
    }
}

static void use_inputs(void)
{
    vnc_input in[16];
    uint32_t white[64];
    int64_t n, k;
    memset(white, 0xff, sizeof white);
    while ((n = vnc_screen_next_inputs(screen, in, 16)) > 0)
        for (k = 0; k < n; k++) {
            if (in[k].kind == VNC_INPUT_POINTER && in[k].buttons & 1 && in[k].x + 8 <= 640 && in[k].y + 8 <= 480)
                vnc_screen_paint(screen, (int32_t)in[k].x, (int32_t)in[k].y, (int32_t)in[k].x + 8, (int32_t)in[k].y + 8, white, 64);
            else if (in[k].kind == VNC_INPUT_KEY && in[k].down)
                vnc_screen_bell(screen);
        }
}

/* Reads of viewer i: 0 where it is gone, or at fault. */
static int hear(int i)
{
    uint8_t read_of_it[4096];
    ssize_t n = read(fds[i].fd, read_of_it, sizeof read_of_it);
    if (n < 0) return errno == EAGAIN || errno == EINTR;
    if (n == 0) return 0;
    if (vnc_screen_hear(screen, (uint64_t)fds[i].fd, read_of_it, (size_t)n) == 0) return 1;
    send_on(i);
    return 0;
}

int main(int argc, char **argv)
{
    struct sockaddr_in to;
    int one = 1, most = argc > 2 ? atoi(argv[2]) : -1, served = 0, i;
    memset(&to, 0, sizeof to);
    to.sin_family = AF_INET;
    to.sin_addr.s_addr = htonl(INADDR_LOOPBACK);
    to.sin_port = htons((uint16_t)(argc > 1 ? atoi(argv[1]) : 5900));
    signal(SIGPIPE, SIG_IGN);
    if (vnc_screen_new(640, 480, "demo", 50, &screen) < 0) return 3;
    fds[0].fd = socket(AF_INET, SOCK_STREAM, 0);
    setsockopt(fds[0].fd, SOL_SOCKET, SO_REUSEADDR, &one, sizeof one);
    if (bind(fds[0].fd, (struct sockaddr *)&to, sizeof to) || listen(fds[0].fd, 16)) return 5;
    while (most < 0 || served < most || count > 1) {
        for (i = count; --i > 0;) {
            if (!send_on(i)) { drop(i); continue; }
            fds[i].events = (short)(POLLIN | (piece[i].gone < piece[i].count ? POLLOUT : 0));
        }
        if (most >= 0 && served >= most && count == 1) break;
        fds[0].events = count <= MOST && (most < 0 || served < most) ? POLLIN : 0;
        if (poll(fds, (nfds_t)count, -1) < 0) continue;
        for (i = count; --i > 0;)
            if (fds[i].revents & (POLLIN | POLLHUP | POLLERR) && !hear(i)) drop(i);
        use_inputs();
        if (fds[0].revents & POLLIN) {
            int fd = accept(fds[0].fd, 0, 0);
            if (fd < 0) continue;
            fcntl(fd, F_SETFL, O_NONBLOCK);
            if (vnc_screen_connect(screen, (uint64_t)fd) < 0) { close(fd); continue; }
            served++;
            fds[count].fd = fd;
            fds[count].revents = 0;
            piece[count].count = piece[count].gone = 0;
            count++;
        }
    }
    close(fds[0].fd);
    vnc_screen_free(screen);
    return 0;
}
