/* server_adopt.c: a vnc_server that listens nowhere, and connections and listeners that the program has: an end of a socketpair, a UNIX socket
 * that was accepted, one of TCP, sockets that are bound at a path and at a port, and what is none: "server_adopt ok" where each answer is the one that stands here. */
#define _DEFAULT_SOURCE
#include "vnc_server.h"
#include "viewers.h"
#include <fcntl.h>
#include <sys/epoll.h>
#include <sys/syscall.h>
#include <sys/un.h>

/* The clock and the watch over descriptors, which the library asks too: each fails where it is told to. */
static int clock_fails, watch_fails;

int clock_gettime(clockid_t clock, struct timespec *now)
{
    if (clock_fails) errno = EINVAL;
    return clock_fails ? -1 : (int)syscall(SYS_clock_gettime, clock, now);
}

int epoll_ctl(int watch, int what, int fd, struct epoll_event *event)
{
    if (watch_fails) errno = ENOSPC;
    return watch_fails ? -1 : (int)syscall(SYS_epoll_ctl, watch, what, fd, event);
}

/* Serves a picture of 2 by 1 named "demo", and listens nowhere. */
static int32_t serves(uint32_t viewers) { return vnc_server_serve(s, 2, 1, "demo", viewers); }

/* Whether a descriptor is open. */
static int is_there(int fd) { return fcntl(fd, F_GETFD) >= 0; }

/* The two ends of a pair of stream sockets: a viewer's, and the one that is adopted. */
static int pair(int *viewer, int *ours)
{
    int fds[2];
    leaves(viewer);
    if (socketpair(AF_UNIX, SOCK_STREAM, 0, fds) != 0) return 0;
    *viewer = fds[0], *ours = fds[1];
    return 1;
}

/* A viewer over a pair is adopted, and is the one with this number. */
static int adopts(int *viewer, uint64_t number)
{
    int ours = -1;
    HOLDS(pair(viewer, &ours));
    IS(vnc_server_adopt(s, ours), number);
    HOLDS(comes(number));
    return 0;
}

/* All that a viewer is sent that opens, asks for all, is rung for, asks for what changes, and is painted for: how many bytes. */
static int is_sent(int fd, uint8_t *room, size_t count)
{
    static const uint32_t colours[2] = {0x010203, 0x040506};
    size_t at;
    if (vnc_server_paint(s, 0, 0, 2, 1, colours, 2) != 0 || !says(fd, B(OPENING)) || !says(fd, B(ALL))) return 0;
    for (at = 0; at < count; at++) {
        if (at == GREETED + PICTURE && (!says(fd, B(CHANGES)) || !is_heard(fd) || vnc_server_bell(s) != 0 || vnc_server_paint(s, 1, 0, 2, 1, colours, 1) != 0))
            return 0;
        if (receives(fd, room + at, 1) != 1) return 0;
    }
    return 1;
}

/* A bell, and an update of one place in Raw, come behind the picture. */
enum { SENT = GREETED + PICTURE + 1 + 4 + 12 + 4 };

/* A viewer over an end of a pair is sent the very bytes that one over TCP is. */
static int same_bytes(void)
{
    uint8_t over_tcp[SENT], over_pair[SENT];
    IS(listens(2, 1), 0);
    HOLDS(connects(&first));
    HOLDS(comes(1));
    HOLDS(is_sent(first, over_tcp, SENT));
    IS(is_over(), 0);
    IS(serves(8), 0);
    IS(vnc_server_port(s), 0);
    DO(adopts(&first, 1));
    HOLDS(is_sent(first, over_pair, SENT));
    HOLDS(memcmp(over_tcp, over_pair, SENT) == 0);
    HOLDS(memcmp(over_tcp + GREETED + PICTURE, B("\x02\0\0\0\x01\0\x01\0\0\0\x01\0\x01\0\0\0\0\x03\x02\x01\0")) == 0);
    HOLDS(is_sent_no_more(first));
    return is_over();
}

/* Two are there at once, each served by itself; one leaves, and its descriptor is closed. */
static int two_at_once(void)
{
    uint64_t numbers[3] = {0, 0, 0};
    int one = -1, two = -1;
    char address[VNC_ADDRESS_SIZE];
    IS(serves(8), 0);
    HOLDS(pair(&first, &one) && pair(&second, &two));
    IS(vnc_server_adopt(s, one), 1);
    IS(vnc_server_adopt(s, two), 2);
    IS(vnc_server_viewer_count(s), 2);
    IS(vnc_server_numbers(s, numbers, 1), 1);
    IS(vnc_server_numbers(s, numbers, 3), 2);
    HOLDS(numbers[0] == 1 && numbers[1] == 2 && numbers[2] == 0);
    HOLDS((fcntl(one, F_GETFL) & O_NONBLOCK) != 0);
    IS(vnc_server_viewer_address(s, 1, address, sizeof address), VNC_ERROR_NETWORK);
    HOLDS(says(second, B(OPENING)) && says(first, B(OPENING)) && skips(first, GREETED) && skips(second, GREETED));
    HOLDS(sees_all(second) && sees_all(first));
    HOLDS(comes(1) && comes(2));
    leaves(&first);
    HOLDS(goes(1, VNC_REASON_LEFT, 0));
    HOLDS(!is_there(one) && is_there(two));
    HOLDS(sees_all(second));
    IS(vnc_server_close_viewer(s, 2), 0);
    HOLDS(goes(2, VNC_REASON_CLOSED, 0));
    HOLDS(!is_there(two) && ends(second));
    return is_over();
}

/* The address of a path of this program's own, where nothing is yet. */
static struct sockaddr_un own_path(void)
{
    struct sockaddr_un at;
    memset(&at, 0, sizeof at);
    at.sun_family = AF_UNIX;
    snprintf(at.sun_path, sizeof at.sun_path, "/tmp/server_adopt.%ld", (long)getpid());
    unlink(at.sun_path);
    return at;
}

/* A socket that is bound at a path, and one that connects to it. */
static int bound_at(const struct sockaddr_un *at)
{
    int fd = socket(AF_UNIX, SOCK_STREAM, 0);
    return fd >= 0 && bind(fd, (const struct sockaddr *)at, sizeof *at) == 0 ? fd : -1;
}

static int connects_by(int *fd, const struct sockaddr_un *at)
{
    leaves(fd);
    *fd = socket(AF_UNIX, SOCK_STREAM, 0);
    return *fd >= 0 && connect(*fd, (const struct sockaddr *)at, sizeof *at) == 0;
}

/* One that was accepted at a path is adopted beside one that the server accepted itself. */
static int at_path(void)
{
    const struct sockaddr_un at = own_path();
    int ours, listener = bound_at(&at);
    HOLDS(listener >= 0 && listen(listener, 1) == 0);
    HOLDS(connects_by(&second, &at));
    ours = accept(listener, 0, 0);
    HOLDS(ours >= 0 && unlink(at.sun_path) == 0);
    IS(listens(2, 1), 0);
    HOLDS(opens(&first));
    HOLDS(comes(1));
    IS(vnc_server_adopt(s, listener), VNC_ERROR_BAD_SOCKET);
    IS(errno, ENOTCONN);
    HOLDS(is_there(listener) && close(listener) == 0);
    IS(vnc_server_adopt(s, ours), 2);
    HOLDS(comes(2));
    HOLDS(says(second, B(OPENING)) && skips(second, GREETED) && sees_all(second) && sees_all(first));
    return is_over();
}

/* One that the program connected itself, as to a viewer that listens: its address is told. */
static int connected(void)
{
    struct sockaddr_in at = at_port("127.0.0.1", 0);
    socklen_t size = sizeof at;
    char address[VNC_ADDRESS_SIZE];
    int listener = socket(AF_INET, SOCK_STREAM, 0), ours = socket(AF_INET, SOCK_STREAM, 0);
    HOLDS(listener >= 0 && ours >= 0 && bind(listener, (struct sockaddr *)&at, sizeof at) == 0 && listen(listener, 1) == 0);
    HOLDS(getsockname(listener, (struct sockaddr *)&at, &size) == 0 && connect(ours, (struct sockaddr *)&at, sizeof at) == 0);
    first = accept(listener, 0, 0);
    HOLDS(first >= 0 && close(listener) == 0);
    IS(serves(8), 0);
    IS(vnc_server_adopt(s, ours), 1);
    IS(vnc_server_viewer_address(s, 1, address, sizeof address), 0);
    IS(strcmp(address, "127.0.0.1"), 0);
    HOLDS(says(first, B(OPENING)) && skips(first, GREETED) && sees_all(first));
    return is_over();
}

/* What is no connected socket stays the program's, nobody comes, and errno says why. */
static int refuses(int fd, int why)
{
    vnc_event event;
    int was_there = is_there(fd);
    errno = 0;
    IS(vnc_server_adopt(s, fd), VNC_ERROR_BAD_SOCKET);
    IS(errno, why);
    IS(is_there(fd), was_there);
    IS(vnc_server_viewer_count(s), 0);
    IS(vnc_server_next_events(s, &event, 1), 0);
    return 0;
}

static int no_sockets(void)
{
    int fds[2], unconnected = socket(AF_INET, SOCK_STREAM, 0);
    IS(serves(8), 0);
    HOLDS(unconnected >= 0 && pipe(fds) == 0);
    DO(refuses(fds[0], ENOTSOCK));
    DO(refuses(unconnected, ENOTCONN));
    HOLDS(close(fds[0]) == 0 && close(fds[1]) == 0 && close(unconnected) == 0);
    DO(refuses(fds[0], EBADF));
    DO(refuses(-1, EBADF));
    DO(refuses(INT32_MIN, EBADF));
    DO(refuses(INT32_MAX, EBADF));
    return is_over();
}

/* A closed server leaves a socket to the program. */
static int closed(void)
{
    int ours = -1;
    HOLDS(pair(&first, &ours));
    IS(vnc_server_adopt(s, ours), VNC_ERROR_CLOSED);
    HOLDS(is_there(ours) && close(ours) == 0);
    return is_over();
}

/* One too many is told so, and its descriptor is closed; once one has gone there is room again. */
static int full_house(void)
{
    static const char refusal[] = "RFB 003.003\n\0\0\0\0\0\0\0\x10too many viewers";
    int ours = -1;
    IS(serves(1), 0);
    DO(adopts(&first, 1));
    HOLDS(says(first, B(OPENING)) && skips(first, GREETED));
    HOLDS(pair(&second, &ours));
    IS(vnc_server_adopt(s, ours), VNC_ERROR_FULL);
    HOLDS(!is_there(ours));
    HOLDS(reads(second, refusal, sizeof refusal - 1));
    HOLDS(ends(second));
    IS(vnc_server_viewer_count(s), 1);
    leaves(&first);
    HOLDS(goes(1, VNC_REASON_LEFT, 0));
    DO(adopts(&second, 2));
    return is_over();
}

/* A server that listens has as many at once as it was told, however they come. */
static int one_house(void)
{
    int ours = -1;
    IS(listens_on(s, 0, 2, 1, 1), 0);
    HOLDS(opens(&first));
    HOLDS(comes(1));
    HOLDS(pair(&second, &ours));
    IS(vnc_server_adopt(s, ours), VNC_ERROR_FULL);
    HOLDS(!is_there(ours));
    return is_over();
}

/* Where 1,024 comings and goings wait, a coming is lost, and counted, and its viewer is served. */
static int lost_coming(void)
{
    vnc_event events[1025];
    int k, ours = -1;
    IS(serves(8), 0);
    for (k = 0; k < 512; k++) {
        HOLDS(pair(&first, &ours));
        IS(vnc_server_adopt(s, ours), k + 1);
        leaves(&first);
        while (vnc_server_viewer_count(s) > 0) HOLDS(turns());
    }
    HOLDS(pair(&first, &ours));
    IS(vnc_server_adopt(s, ours), 513);
    IS(vnc_server_lost_count(s), 1);
    IS(vnc_server_next_events(s, events, 1025), 1024);
    HOLDS(events[1023].kind == VNC_EVENT_DISCONNECTED && events[1023].viewer == 512);
    HOLDS(says(first, B(OPENING)) && skips(first, GREETED));
    return is_over();
}

/* A server that listens nowhere is refused as one that listens is, and goes on as it was. */
static int begins(void)
{
    static const uint8_t letters[256] = {0};
    vnc_server *other = s;
    IS(serves(8), 0);
    DO(adopts(&first, 1));
    IS(vnc_server_serve(s, 0, 1, "demo", 8), VNC_ERROR_BAD_SIZE);
    IS(vnc_server_serve_n(s, 2, 1, letters, 256, 8), VNC_ERROR_BAD_NAME);
    IS(vnc_server_record(s, "/"), 0);
    IS(serves(8), VNC_ERROR_CANNOT_RECORD);
    IS(errno, EEXIST);
    IS(vnc_server_record_state(s), VNC_RECORD_NONE);
    IS(vnc_server_viewer_count(s), 1);
    IS(vnc_server_record(s, ""), 0);
    IS(serves(8), 0);
    HOLDS(ends(first));
    IS(vnc_server_viewer_count(s), 0);
    IS(listens(2, 1), 0);
    HOLDS(vnc_server_port(s) > 0);
    IS(vnc_server_new_unbound(2, 0, "demo", 1, &other), VNC_ERROR_BAD_SIZE);
    HOLDS(other == 0);
    IS(vnc_server_new_unbound(2, 1, "demo", 1, &other), 0);
    IS(vnc_server_width(other), 2);
    vnc_server_free(other);
    return is_over();
}

/* Where the clock fails, or the system won't watch it, the descriptor is closed, errno says why, and nobody came. */
static int fails(int *what, int32_t code, int why)
{
    vnc_event event;
    int ours = -1;
    HOLDS(pair(&first, &ours));
    *what = 1;
    IS(vnc_server_adopt(s, ours), code);
    IS(errno, why);
    *what = 0;
    HOLDS(!is_there(ours));
    HOLDS(ends(first));
    IS(vnc_server_viewer_count(s), 0);
    IS(vnc_server_next_events(s, &event, 1), 0);
    IS(vnc_server_lost_count(s), 0);
    return 0;
}

static int system_fails(void)
{
    IS(serves(8), 0);
    DO(fails(&clock_fails, VNC_ERROR_CLOCK, EINVAL));
    DO(fails(&watch_fails, VNC_ERROR_CANNOT_ADOPT, ENOSPC));
    DO(adopts(&first, 1));
    return is_over();
}

/* With the server its viewers' descriptors are closed, and nothing else of the program's. */
static int closes(void)
{
    int one = -1;
    IS(serves(8), 0);
    IS(vnc_server_process_events(s, 0), 0);
    HOLDS(vnc_server_fd(s) >= 0);
    HOLDS(pair(&first, &one));
    IS(vnc_server_adopt(s, one), 1);
    HOLDS(says(first, B(OPENING)) && skips(first, GREETED));
    IS(vnc_server_close(s), 0);
    HOLDS(!is_there(one) && is_there(first));
    HOLDS(ends(first));
    IS(vnc_server_port(s), VNC_ERROR_CLOSED);
    return is_over();
}

/* Two come by a path at which the program bound a socket, are served as others are, and have no IP address. */
static int listens_at_path(void)
{
    const struct sockaddr_un at = own_path();
    char address[VNC_ADDRESS_SIZE];
    int ours = bound_at(&at);
    IS(serves(8), 0);
    HOLDS(ours >= 0);
    IS(vnc_server_listen_at(s, ours), 0);
    IS(vnc_server_port(s), 0);
    HOLDS((fcntl(ours, F_GETFL) & O_NONBLOCK) != 0);
    HOLDS(connects_by(&first, &at));
    HOLDS(comes(1));
    HOLDS(connects_by(&second, &at));
    HOLDS(comes(2));
    IS(vnc_server_viewer_address(s, 2, address, sizeof address), VNC_ERROR_NETWORK);
    HOLDS(says(second, B(OPENING)) && says(first, B(OPENING)) && skips(first, GREETED) && skips(second, GREETED));
    HOLDS(sees_all(second) && sees_all(first));
    leaves(&first);
    HOLDS(goes(1, VNC_REASON_LEFT, 0));
    HOLDS(sees_all(second));
    IS(vnc_server_close(s), 0);
    HOLDS(!is_there(ours) && access(at.sun_path, F_OK) == 0 && unlink(at.sun_path) == 0);
    return is_over();
}

/* One comes by a port at which the program listens, beside one by the server's own. */
static int listens_at_port(void)
{
    struct sockaddr_in at = at_port("127.0.0.1", 0);
    socklen_t size = sizeof at;
    char address[VNC_ADDRESS_SIZE];
    int ours = socket(AF_INET, SOCK_STREAM, 0);
    HOLDS(ours >= 0 && bind(ours, (struct sockaddr *)&at, sizeof at) == 0 && listen(ours, 1) == 0);
    HOLDS(getsockname(ours, (struct sockaddr *)&at, &size) == 0);
    IS(listens(2, 1), 0);
    IS(vnc_server_listen_at(s, ours), 0);
    HOLDS(connects_at(&first, "127.0.0.1", ntohs(at.sin_port), 0));
    HOLDS(comes(1));
    HOLDS(opens(&second));
    HOLDS(comes(2));
    IS(vnc_server_viewer_address(s, 1, address, sizeof address), 0);
    IS(strcmp(address, "127.0.0.1"), 0);
    HOLDS(says(first, B(OPENING)) && skips(first, GREETED) && sees_all(first) && sees_all(second));
    return is_over();
}

/* What can't listen stays the program's, and errno says why. */
static int no_listener(int fd, int why)
{
    int was_there = is_there(fd);
    errno = 0;
    IS(vnc_server_listen_at(s, fd), VNC_ERROR_BAD_SOCKET);
    IS(errno, why);
    IS(is_there(fd), was_there);
    return 0;
}

/* A ninth listener is closed, and so is one that the system won't watch; that of a closed server stays the program's. */
static int no_listeners(void)
{
    const struct sockaddr_un at = own_path();
    int fds[2], ours = bound_at(&at), k;
    HOLDS(ours >= 0);
    IS(vnc_server_listen_at(s, ours), VNC_ERROR_CLOSED);
    HOLDS(is_there(ours));
    IS(serves(8), 0);
    HOLDS(pipe(fds) == 0);
    DO(no_listener(fds[0], ENOTSOCK));
    HOLDS(close(fds[0]) == 0 && close(fds[1]) == 0);
    DO(no_listener(fds[0], EBADF));
    DO(no_listener(-1, EBADF));
    HOLDS(pair(&first, &k));
    DO(no_listener(k, EINVAL));
    HOLDS(close(k) == 0);
    watch_fails = 1;
    IS(vnc_server_listen_at(s, ours), VNC_ERROR_CANNOT_LISTEN);
    IS(errno, ENOSPC);
    watch_fails = 0;
    HOLDS(!is_there(ours) && unlink(at.sun_path) == 0);
    for (k = 0; k < 9; k++) {
        ours = bound_at(&at);
        HOLDS(ours >= 0 && unlink(at.sun_path) == 0);
        IS(vnc_server_listen_at(s, ours), k < 8 ? 0 : VNC_ERROR_TOO_MANY_PORTS);
        HOLDS(is_there(ours) == (k < 8));
    }
    return is_over();
}

static int all(void)
{
    DO(begins());
    DO(same_bytes());
    DO(two_at_once());
    DO(at_path());
    DO(connected());
    DO(no_sockets());
    DO(closed());
    DO(full_house());
    DO(one_house());
    DO(lost_coming());
    DO(system_fails());
    DO(closes());
    DO(listens_at_path());
    DO(listens_at_port());
    DO(no_listeners());
    return 0;
}

int main(int argc, char **argv)
{
    (void)argv;
    return runs("server_adopt", all, argc > 1);
}
