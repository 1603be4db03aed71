/* rfb_compat_listen.c: where a screen of rfb_compat.h listens, and the one
 * descriptor to wait on for all.
 *
 * The layer accepts by itself, so that the program may have a connection wait
 * of which nothing is read, before the server has it. An epoll holds what there
 * is to wait for:
 *
 *   the server's descriptor   its viewers, and its waker
 *   the listeners             unless accepting rests, or there is no room
 *   the timer                 while accepting rests
 *   connections on hold       for their end alone
 */
#define _POSIX_C_SOURCE 200809L
#include "rfb_compat_parts.h"
#include <errno.h>
#include <fcntl.h>
#include <netinet/tcp.h>
#include <poll.h>
#include <sys/epoll.h>
#include <sys/timerfd.h>
#include <time.h>

enum {
    /* Where autoPort looks for a port. */
    FIRST_PORT = 5900,
    LAST_PORT = 5999,
    /* How many connections wait to be accepted, about. */
    BACKLOG = 1024,
    /* In microseconds: while somebody is served one is accepted in such a
     * time, behind so many ahead of it, as by the library's own loop. */
    APART = 1000,
    AHEAD = 64 * APART,
    /* So long it rests where the system has no room for a connection. */
    NO_ROOM = 100000,
    /* In seconds: after so long a connection on hold is asked for a sign, and
     * so often again. Behind so many that didn't come it has ended. */
    SILENCE = 60,
    INTERVAL = 10,
    SIGNS = 6
};

void rfbDoorInit(struct rfbDoor *door)
{
    memset(door, 0, sizeof *door);
    door->all = door->clock = -1;
    door->listeners[0] = door->listeners[1] = -1;
}

/* ---- where it listens ---- */

/* A socket that listens at an address, of IPv6 for that alone: -1 where it
 * can't, and errno says why not. */
static int listener_at(const struct sockaddr *at, socklen_t size)
{
    const int yes = 1;
    const int fd =
        socket(at->sa_family, SOCK_STREAM | SOCK_CLOEXEC | SOCK_NONBLOCK, 0);
    int error;
    if (fd < 0) return -1;
    if (setsockopt(fd, SOL_SOCKET, SO_REUSEADDR, &yes, sizeof yes) == 0 &&
        (at->sa_family != AF_INET6 ||
         setsockopt(fd, IPPROTO_IPV6, IPV6_V6ONLY, &yes, sizeof yes) == 0) &&
        bind(fd, at, size) == 0 && listen(fd, BACKLOG) == 0)
        return fd;
    error = errno;
    close(fd);
    errno = error;
    return -1;
}

/* The same at a port of an address of IPv4. */
static int listener_of_ipv4(in_addr_t address, int port)
{
    struct sockaddr_in at;
    memset(&at, 0, sizeof at);
    at.sin_family = AF_INET;
    at.sin_addr.s_addr = address;
    at.sin_port = htons((uint16_t)port);
    return listener_at((const struct sockaddr *)&at, sizeof at);
}

/* The same at a port of all of the machine's addresses of IPv6. */
static int listener_of_ipv6(int port)
{
    struct sockaddr_in6 at;
    memset(&at, 0, sizeof at);
    at.sin6_family = AF_INET6;
    at.sin6_addr = in6addr_any;
    at.sin6_port = htons((uint16_t)port);
    return listener_at((const struct sockaddr *)&at, sizeof at);
}

rfbBool rfbDoorListen(struct rfbDoor *door, rfbScreenInfoPtr s)
{
    const int isBoth =
        s->listenInterface == htonl(INADDR_ANY) && s->ipv6port > 0;
    const int last = s->autoPort ? LAST_PORT : s->port;
    int port = s->autoPort ? FIRST_PORT : s->port;
    char address[INET_ADDRSTRLEN] = "";
    if (s->port < 1 || s->port > 65535) {
        rfbErr("nobody is served: there is no port %d\n", s->port);
        return FALSE;
    }
    door->listeners[0] = listener_of_ipv4(s->listenInterface, port);
    while (door->listeners[0] < 0 && port < last)
        door->listeners[0] = listener_of_ipv4(s->listenInterface, ++port);
    if (door->listeners[0] >= 0) {
        s->port = port;
        if (isBoth) door->listeners[1] = listener_of_ipv6(port);
        return TRUE;
    }
    inet_ntop(AF_INET, &s->listenInterface, address, sizeof address);
    rfbErr("nobody is served on port %d of %s: %s\n", port, address,
           strerror(errno));
    return FALSE;
}

/* ---- what there is to wait for ---- */

/* Has the epoll wait for something of a descriptor: 0, or -1. */
static int set(int epoll, int how, int fd, uint32_t events)
{
    struct epoll_event event;
    memset(&event, 0, sizeof event);
    event.events = events;
    event.data.fd = fd;
    return epoll_ctl(epoll, how, fd, &event);
}

/* Listens for who comes, unless nobody is to. */
static void hear(struct rfbDoor *door)
{
    uint32_t events = 0;
    if (!door->isResting && !door->isFull) events = EPOLLIN;
    for (int k = 0; k < 2; k++)
        if (door->listeners[k] >= 0)
            set(door->all, EPOLL_CTL_MOD, door->listeners[k], events);
}

rfbBool rfbDoorOpen(struct rfbDoor *door, int server)
{
    if (door->all < 0) {
        door->all = epoll_create1(EPOLL_CLOEXEC);
        door->clock =
            timerfd_create(CLOCK_MONOTONIC, TFD_NONBLOCK | TFD_CLOEXEC);
        if (door->all < 0 || door->clock < 0 ||
            set(door->all, EPOLL_CTL_ADD, server, EPOLLIN) < 0 ||
            set(door->all, EPOLL_CTL_ADD, door->clock, EPOLLIN) < 0)
            return FALSE;
    }
    for (int k = 0; k < 2; k++)
        if (door->listeners[k] >= 0 &&
            set(door->all, EPOLL_CTL_ADD, door->listeners[k], 0) < 0)
            return FALSE;
    hear(door);
    return TRUE;
}

static void shut(int *fd)
{
    if (*fd >= 0) close(*fd);
    *fd = -1;
}

void rfbDoorShut(struct rfbDoor *door)
{
    shut(&door->listeners[0]);
    shut(&door->listeners[1]);
}

void rfbDoorClose(struct rfbDoor *door)
{
    rfbDoorShut(door);
    shut(&door->clock);
    shut(&door->all);
    rfbDoorInit(door);
}

void rfbDoorFill(struct rfbDoor *door, rfbBool isFull)
{
    if (!door->isFull == !isFull) return;
    door->isFull = isFull;
    hear(door);
}

int rfbDoorWait(int all, int milliseconds, int *ready, int most)
{
    struct epoll_event found[16];
    const int room = most < 16 ? most : 16;
    int count;
    if (all < 0) {
        poll(NULL, 0, milliseconds);
        return 0;
    }
    count = epoll_wait(all, found, room, milliseconds);
    for (int k = 0; k < count; k++) ready[k] = found[k].data.fd;
    return count > 0 ? count : 0;
}

rfbBool rfbDoorNote(struct rfbDoor *door, int server, int ready)
{
    if (ready == door->listeners[0] || ready == door->listeners[1] ||
        ready == door->clock)
        door->isKnocked = TRUE;
    else if (ready != server) return FALSE;
    return TRUE;
}

/* ---- who comes ---- */

static int64_t microseconds(void)
{
    struct timespec now = {0, 0};
    clock_gettime(CLOCK_MONOTONIC, &now);
    return (int64_t)now.tv_sec * 1000000 + now.tv_nsec / 1000;
}

/* Has nobody accepted for a while, of less than a second. */
static void rest(struct rfbDoor *door, int64_t time)
{
    struct itimerspec until;
    memset(&until, 0, sizeof until);
    until.it_value.tv_nsec = (long)time * 1000;
    timerfd_settime(door->clock, 0, &until, NULL);
    door->isResting = TRUE;
    door->isKnocked = FALSE;
    hear(door);
}

/* Whether accepting rests; it does no more once the timer says so. */
static int rests(struct rfbDoor *door)
{
    uint64_t count;
    if (!door->isResting) return 0;
    if (read(door->clock, &count, sizeof count) < 0) return 1;
    door->isResting = FALSE;
    hear(door);
    return 0;
}

/* A connection's descriptor, which waits for nothing, and is no child's: -1
 * where there is none. The listeners are asked in turn. */
static int accepted(struct rfbDoor *door, struct sockaddr_storage *from)
{
    int fd = -1;
    for (int k = 0; k < 2 && fd < 0; k++) {
        socklen_t size = sizeof *from;
        door->next = !door->next;
        memset(from, 0, sizeof *from);
        fd = accept(door->listeners[door->next], (struct sockaddr *)from,
                    &size);
        if (fd < 0 && (errno == EMFILE || errno == ENFILE ||
                       errno == ENOBUFS || errno == ENOMEM)) {
            rest(door, NO_ROOM);
            return -1;
        }
    }
    if (fd < 0) {
        door->isKnocked = FALSE;
        return -1;
    }
    fcntl(fd, F_SETFD, FD_CLOEXEC);
    fcntl(fd, F_SETFL, O_NONBLOCK);
    return fd;
}

int rfbDoorNext(struct rfbDoor *door, rfbBool isBusy,
                struct sockaddr_storage *from)
{
    int64_t now, pause;
    int fd;
    if (!door->isKnocked || rests(door) || door->listeners[0] < 0) return -1;
    now = microseconds();
    pause = isBusy ? door->due - now - AHEAD : 0;
    if (pause > 0) {
        rest(door, pause);
        return -1;
    }
    fd = accepted(door, from);
    if (fd >= 0 && isBusy)
        door->due = (door->due > now ? door->due : now) + APART;
    return fd;
}

/* ---- who waits ---- */

static void set_option(int connection, int level, int option, int value)
{
    setsockopt(connection, level, option, &value, sizeof value);
}

void rfbDoorWatch(struct rfbDoor *door, int connection)
{
    set_option(connection, SOL_SOCKET, SO_KEEPALIVE, 1);
    set_option(connection, IPPROTO_TCP, TCP_KEEPIDLE, SILENCE);
    set_option(connection, IPPROTO_TCP, TCP_KEEPINTVL, INTERVAL);
    set_option(connection, IPPROTO_TCP, TCP_KEEPCNT, SIGNS);
    set(door->all, EPOLL_CTL_ADD, connection, EPOLLRDHUP);
}

void rfbDoorForget(struct rfbDoor *door, int connection)
{
    if (door->all >= 0 && connection >= 0)
        set(door->all, EPOLL_CTL_DEL, connection, 0);
}

int rfbLookoutNew(int connection)
{
    int lookout = epoll_create1(EPOLL_CLOEXEC);
    if (lookout >= 0 &&
        set(lookout, EPOLL_CTL_ADD, connection, EPOLLIN | EPOLLOUT) < 0)
        shut(&lookout);
    return lookout;
}

void rfbLookoutRest(int lookout, int connection)
{
    if (lookout >= 0) set(lookout, EPOLL_CTL_MOD, connection, EPOLLIN);
}
