/* viewers.h: a vnc_server and its viewers over loopback, in one thread: a viewer never waits at its socket, and turns are taken meanwhile.
 * Something is waited for as long as the patience lasts. */
#ifndef VIEWERS_H
#define VIEWERS_H

#include "checks.h"
#include "vnc_server.h"
#include <arpa/inet.h>
#include <errno.h>
#include <netinet/tcp.h>
#include <sys/socket.h>
#include <time.h>
#include <unistd.h>

/* For how many milliseconds a turn waits at most, and for how many seconds turns are taken until something comes; programs with an argument
 * are less patient. */
enum { WAIT = 4 };
static int patience = 20;

static inline double seconds(void)
{
    struct timespec now = {0, 0};
    clock_gettime(CLOCK_MONOTONIC, &now);
    return (double)now.tv_sec + (double)now.tv_nsec / 1e9;
}

/* The server, and two viewers' sockets: -1 where nobody is. */
static vnc_server *s;
static int first = -1, second = -1;

/* Listens on a port of 127.0.0.1, of port 0 one that the system chooses, with a black picture named "demo". */
static inline int32_t listens_on(vnc_server *on, int port, uint32_t width, uint32_t height, uint32_t viewers)
{
    return vnc_server_listen(on, "127.0.0.1", (uint16_t)port, width, height, "demo", viewers);
}

static inline int32_t listens(uint32_t width, uint32_t height) { return listens_on(s, 0, width, height, 8); }

static inline void leaves(int *fd)
{
    if (*fd >= 0) close(*fd);
    *fd = -1;
}

/* From an example to the next: nobody is there, and the server is shut. */
static inline int is_over(void)
{
    leaves(&first);
    leaves(&second);
    return vnc_server_close(s);
}

/* Whether a turn went to its end; for want of memory it may end early. */
static inline int turns(void)
{
    int32_t code = vnc_server_process_events(s, WAIT);
    if (code != 0 && code != VNC_ERROR_NO_MEMORY) printf("a turn gives %d\n", (int)code);
    return code == 0 || code == VNC_ERROR_NO_MEMORY;
}

/* Whether there is time for a turn, which is taken then. */
static inline int is_patient(double end) { return seconds() < end && turns(); }

/* A port of an IPv4 address. */
static inline struct sockaddr_in at_port(const char *address, int port)
{
    struct sockaddr_in at;
    memset(&at, 0, sizeof at);
    at.sin_family = AF_INET;
    at.sin_addr.s_addr = inet_addr(address);
    at.sin_port = htons((uint16_t)port);
    return at;
}

/* Whether another viewer connects to a port of an address, who was there before having left; from another address of the machine's, where one
 * is given. Else errno says why not. */
static inline int connects_at(int *fd, const char *address, int port, const char *from)
{
    struct sockaddr_in to = at_port(address, port), own = at_port(from ? from : "0.0.0.0", 0);
    int one = 1;
    leaves(fd);
    *fd = socket(AF_INET, SOCK_STREAM, 0);
    return *fd >= 0 && (!from || bind(*fd, (struct sockaddr *)&own, sizeof own) == 0) && connect(*fd, (struct sockaddr *)&to, sizeof to) == 0 &&
           setsockopt(*fd, IPPROTO_TCP, TCP_NODELAY, &one, sizeof one) == 0;
}

/* The same with the server's own port. */
static inline int connects_to(int *fd, const char *address, const char *from) { return connects_at(fd, address, vnc_server_port(s), from); }

static inline int connects(int *fd) { return connects_to(fd, "127.0.0.1", 0); }

/* Whether a viewer's socket took all of some bytes. */
static inline int says(int fd, const void *bytes, size_t count)
{
    double end = seconds() + patience;
    size_t at = 0;
    do {
        ssize_t n = send(fd, (const char *)bytes + at, count - at, MSG_DONTWAIT | MSG_NOSIGNAL);
        if (n < 0 && errno != EAGAIN && errno != EWOULDBLOCK) return 0;
        if (n > 0) at += (size_t)n;
        if (at == count) return 1;
    } while (is_patient(end));
    return 0;
}

/* The next bytes that a viewer is sent, at most so many: how many, and 0 where its connection has ended; -1 where nothing comes. */
static inline int receives(int fd, void *room, size_t count)
{
    double end = seconds() + patience;
    do {
        ssize_t n = recv(fd, room, count, MSG_DONTWAIT);
        if (n >= 0) return (int)n;
        if (errno != EAGAIN && errno != EWOULDBLOCK) return 0;
    } while (is_patient(end));
    return -1;
}

/* Whether a viewer is sent just these bytes next; so many, whichever they are; and nothing more before its connection ends. */
static inline int reads(int fd, const void *bytes, size_t count)
{
    const uint8_t *wanted = (const uint8_t *)bytes;
    uint8_t byte = 0;
    size_t at;
    for (at = 0; at < count; at++) {
        int got = receives(fd, &byte, 1);
        if (got == 1 && byte == wanted[at]) continue;
        printf(got == 1 ? "byte %u is %02x\n" : "there is no byte %u\n", (unsigned)at, byte);
        return 0;
    }
    return 1;
}

static inline int skips(int fd, size_t count)
{
    uint8_t room[64];
    while (count > 0) {
        int got = receives(fd, room, count < sizeof room ? count : sizeof room);
        if (got <= 0) return 0;
        count -= (size_t)got;
    }
    return 1;
}

static inline int ends(int fd)
{
    uint8_t byte;
    return receives(fd, &byte, 1) == 0;
}

/* The opening of a viewer of version 3.8 that takes the security type None and shares (RFC 6143, 7.1.1, 7.1.2, 7.3.1); and how many bytes
 * it is answered: a version, the security types, the result, and the ServerInit with a name of four letters (7.1.1 to 7.1.3, 7.3.2). */
#define OPENING "RFB 003.008\n\x01\x01"
enum { GREETED = 46 };

/* Requests of all of a picture of 2 by 1, and of what changes there (7.5.3); all of it takes so many bytes in Raw (7.6.1, 7.7.1). */
#define ALL "\x03\0\0\0\0\0\0\x02\0\x01"
#define CHANGES "\x03\x01\0\0\0\0\0\x02\0\x01"
enum { PICTURE = 24 };

/* A viewer's opening is over. */
static inline int opens(int *fd) { return connects(fd) && says(*fd, B(OPENING)) && skips(*fd, GREETED); }

/* It asks for all, and is sent it: so all that it said before was heard. Nothing is fetched. */
static inline int sees_all(int fd) { return says(fd, B(ALL)) && skips(fd, PICTURE); }

/* What viewers told next, and who came or went: whether that comes. */
static inline int next_input(vnc_input *in)
{
    double end = seconds() + patience;
    memset(in, 0, sizeof *in);
    do {
        if (vnc_server_next_inputs(s, in, 1) != 0) return 1;
    } while (is_patient(end));
    return 0;
}

static inline int next_event(vnc_event *event)
{
    double end = seconds() + patience;
    memset(event, 0, sizeof *event);
    do {
        if (vnc_server_next_events(s, event, 1) != 0) return 1;
    } while (is_patient(end));
    return 0;
}

/* It lets go of a key (7.5.4), which is fetched: so all that it said before was heard, and fetched. */
static inline int is_heard(int fd)
{
    vnc_input in;
    return says(fd, B("\x04\0\0\0\0\0\0\x20")) && next_input(&in) && in.kind == VNC_INPUT_KEY && in.down == 0 && in.key == 0x20;
}

/* It was sent nothing more: a bell (7.6.3) is the next byte. */
static inline int is_sent_no_more(int fd) { return vnc_server_bell(s) == 0 && reads(fd, "\x02", 1); }

static inline int is_event(uint64_t viewer, uint32_t kind, uint32_t reason, int32_t fault)
{
    vnc_event event;
    int is_there = next_event(&event);
    if (is_there && event.viewer == viewer && event.kind == kind && event.reason == reason && event.fault == fault) return 1;
    printf("viewer %lu, kind %u, reason %u, fault %d\n", (unsigned long)event.viewer, (unsigned)event.kind, (unsigned)event.reason, (int)event.fault);
    return 0;
}

/* Who came next; and who went, for a reason and by a fault. */
static inline int comes(uint64_t viewer) { return is_event(viewer, VNC_EVENT_CONNECTED, 0, 0); }
static inline int goes(uint64_t viewer, uint32_t reason, int32_t fault) { return is_event(viewer, VNC_EVENT_DISCONNECTED, reason, fault); }

/* Runs a program's checks with a server, which is freed behind them, with less patience where that is asked for, and says that all went well. */
static inline int runs(const char *name, int (*checks)(void), int hurried)
{
    s = (vnc_server *)malloc(vnc_server_size());
    HOLDS(s != 0);
    vnc_server_init(s);
    if (hurried) patience = 3;
    DO(checks());
    vnc_server_free(s);
    printf("%s ok\n", name);
    return 0;
}

#endif
