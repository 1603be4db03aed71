/* admit.c PATH: viewers come by a UNIX socket at PATH, and each waits until it is let in. Of each that came a line is printed. Its input says
 * "yes" or "no", in a line each, of the one that has waited longest; until then that one is sent nothing, and nothing is read of it. It ends
 * with its input.
 * cc -o admit admit.c $(pkg-config --cflags --libs vnc_server) && ./admit /tmp/desk & vncviewer /tmp/desk */
#define _POSIX_C_SOURCE 200809L
#include "vnc_server.h"
#include <fcntl.h>
#include <poll.h>
#include <stdio.h>
#include <sys/socket.h>
#include <sys/un.h>
#include <unistd.h>

enum { MOST = 16 };

/* Those that wait, by their descriptors. */
static int waiting[MOST];
static int count;

/* A socket that listens at a path, and whose accept doesn't wait. */
static int listener_at(const char *path)
{
    struct sockaddr_un at;
    int fd = socket(AF_UNIX, SOCK_STREAM, 0);
    memset(&at, 0, sizeof at);
    at.sun_family = AF_UNIX;
    if (fd < 0 || strlen(path) >= sizeof at.sun_path) return -1;
    memcpy(at.sun_path, path, strlen(path));
    if (bind(fd, (struct sockaddr *)&at, sizeof at) != 0 || listen(fd, MOST) != 0 || fcntl(fd, F_SETFL, O_NONBLOCK) != 0) return -1;
    return fd;
}

/* One that came waits; one too many is closed. */
static void comes(int listener)
{
    int fd = accept(listener, 0, 0);
    if (fd < 0) return;
    if (count == MOST) {
        close(fd);
        return;
    }
    waiting[count++] = fd;
    printf("one waits\n");
    fflush(stdout);
}

/* The one that has waited longest is let in, or not. */
static int32_t decide(vnc_server *server, int is_let_in)
{
    int64_t code = 0;
    int fd = waiting[0], k;
    if (count == 0) return 0;
    for (k = 1; k < count; k++) waiting[k - 1] = waiting[k];
    count--;
    if (is_let_in) code = vnc_server_adopt(server, fd);
    if (!is_let_in || code == VNC_ERROR_BAD_SOCKET) close(fd); /* it has gone meanwhile */
    return code == VNC_ERROR_NO_MEMORY ? (int32_t)code : 0;
}

/* A piece of the input is used: whether there may be more. */
static int read_on(vnc_server *server, int32_t *code)
{
    static char line[8];
    static size_t at;
    char piece[64];
    ssize_t n = read(0, piece, sizeof piece), k;
    for (k = 0; k < n && *code == 0; k++) {
        if (piece[k] != '\n') {
            if (at < sizeof line - 1) line[at++] = piece[k];
            continue;
        }
        line[at] = 0;
        at = 0;
        *code = decide(server, strcmp(line, "yes") == 0);
    }
    return n > 0;
}

int main(int argc, char **argv)
{
    static const uint32_t colours[320 * 200] = {0};
    struct pollfd fds[3] = {{0, POLLIN, 0}, {-1, POLLIN, 0}, {-1, POLLIN, 0}};
    vnc_server *server;
    vnc_event event;
    vnc_input input;
    int goes_on = 1;
    int32_t code;
    fds[1].fd = argc > 1 ? listener_at(argv[1]) : -1;
    if (fds[1].fd < 0 || (code = vnc_server_new_unbound(320, 200, "admit", MOST, &server)) < 0) return 1;
    code = vnc_server_paint(server, 0, 0, 320, 200, colours, 320 * 200);
    fds[2].fd = vnc_server_fd(server);
    while (code == 0 && goes_on) {
        int32_t wait = vnc_server_timeout(server);
        int ready = wait < 0 ? -1 : poll(fds, 3, wait);
        if (ready > 0 && fds[0].revents) goes_on = read_on(server, &code);
        if (ready > 0 && fds[1].revents) comes(fds[1].fd);
        if (code == 0) code = vnc_server_process_events(server, 0);
        while (vnc_server_next_events(server, &event, 1) > 0) continue;
        while (vnc_server_next_inputs(server, &input, 1) > 0) continue;
        if (wait < 0) code = wait;
    }
    while (count > 0) close(waiting[--count]);
    close(fds[1].fd);
    unlink(argv[1]);
    vnc_server_free(server);
    return code < 0;
}
