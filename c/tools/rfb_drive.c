/* rfb_drive.c: a program of LibVNCServer's names that has viewers on hold until it admits them, and waits for their sockets itself, as KDE's
 * krfb does, or has the layer take the turns; with viewers of its own: "rfb_drive ok" where each waits, is served or is closed as it should. */
#define _POSIX_C_SOURCE 200809L
#include "rfb_compat.h"
#include "checks.h"
#include <errno.h>
#include <netinet/tcp.h>
#include <poll.h>
#include <sys/resource.h>
#include <time.h>

#ifdef __cplusplus
#define STATE(name) rfbClientRec::name
#else
#define STATE(name) name
#endif

enum { W = 8, H = 4, MOST = 80, EACH_UPDATE = 50 };

/* A client as the program knows it: what it waits for, and whether it does. */
typedef struct {
    rfbClientPtr cl;
    int fd, waits, is_pending, asked_port;
} guest;

static rfbScreenInfoPtr s;
static guest guests[MOST];
static char picture[W * H * 4];
static enum rfbNewClientAction action;
static enum { NOTHING, REFUSES, CLOSES, PARTS, PARTS_WITH_OTHER, TAKES_TURNS, SHUTS } hook_does;
static rfbClientPtr other;
static int came, asked, gone, keys, ready_count, rfb_errors;
static double next_update, patience = 20;

static void err(const char *format, ...) { rfb_errors += format != NULL; }

static double seconds(void)
{
    struct timespec now = {0, 0};
    clock_gettime(CLOCK_MONOTONIC, &now);
    return (double)now.tv_sec + (double)now.tv_nsec / 1e9;
}

static void key(rfbBool down, rfbKeySym k, rfbClientPtr cl)
{
    keys += down && k == 'a' && cl->onHold == FALSE;
    if (hook_does == PARTS) rfbClientConnectionGone(cl);
}

static void leave(rfbClientPtr cl)
{
    guest *g = (guest *)cl->clientData;
    gone++;
    if (g->cl == cl) memset(g, 0, sizeof *g), g->fd = -1;
    if (hook_does == SHUTS) rfbShutdownServer(s, TRUE);
    if (hook_does == PARTS_WITH_OTHER) {
        hook_does = NOTHING;
        rfbClientConnectionGone(other);
    }
}

static enum rfbNewClientAction come(rfbClientPtr cl)
{
    int k = 0;
    while (k < MOST - 1 && guests[k].cl) k++;
    guests[k].cl = cl;
    guests[k].fd = cl->sock;
    guests[k].waits = guests[k].is_pending = 1;
    cl->clientData = &guests[k];
    cl->clientGoneHook = leave;
    came += cl->state == STATE(RFB_PROTOCOL_VERSION) && strcmp(cl->host, "127.0.0.1") == 0;
    if (hook_does == REFUSES) rfbRefuseOnHoldClient(cl);
    if (hook_does == CLOSES) rfbCloseClient(cl);
    for (k = 0; k < 5 && hook_does == TAKES_TURNS; k++) k % 2 ? rfbProcessEvents(s, 2000) : rfbProcessNewConnection(s);
    return action;
}

/* The port that a client comes from, by its socket; 0 where that doesn't tell. */
static int port_of(int fd)
{
    struct sockaddr_in at;
    socklen_t size = sizeof at;
    memset(&at, 0, sizeof at);
    return getpeername(fd, (struct sockaddr *)&at, &size) ? 0 : ntohs(at.sin_port);
}

/* Where a client has left, it is parted with. */
static int has_left(guest *g)
{
    if (g->cl->sock != -1) return 0;
    g->waits = 0;
    rfbClientConnectionGone(g->cl);
    return 1;
}

/* What a program does whose notifier says that a client's socket is ready. */
static void looks_at(guest *g)
{
    struct pollfd one = {-1, POLLIN | POLLPRI, 0};
    one.fd = g->cl->sock;
    while (poll(&one, 1, 0) == 1) {
        if (g->is_pending && g->cl->state == STATE(RFB_INITIALISATION)) {
            g->waits = 0; /* its user is asked */
            g->asked_port = port_of(g->cl->sock);
            asked++;
            return;
        }
        rfbProcessClientMessage(g->cl);
        if (has_left(g)) return;
    }
}

/* Admits a client; from now on it is waited for by its socket, and updated. */
static guest *admits(guest *g)
{
    g->fd = g->cl->sock;
    g->is_pending = 0;
    g->waits = 1;
    g->cl->onHold = FALSE;
    return g;
}

static void updates(void)
{
    int k;
    if (seconds() < next_update) return;
    next_update = seconds() + EACH_UPDATE / 1e3;
    for (k = 0; k < MOST; k++)
        if (guests[k].cl && !guests[k].is_pending) {
            rfbUpdateClient(guests[k].cl);
            has_left(&guests[k]);
        }
}

/* One round of the program's own loop, which waits so many milliseconds at most. */
static void loops(int ms)
{
    struct pollfd fds[MOST + 1];
    double left = (next_update - seconds()) * 1e3 + 1;
    int k;
    memset(fds, 0, sizeof fds);
    for (k = 0; k <= MOST; k++) {
        fds[k].fd = k == MOST ? s->listenSock : guests[k].cl && guests[k].waits ? guests[k].fd : -1;
        fds[k].events = POLLIN;
    }
    ready_count += poll(fds, MOST + 1, left < 0 ? 0 : left < ms ? (int)left : ms) > 0;
    if (fds[MOST].revents) rfbProcessNewConnection(s);
    for (k = 0; k < MOST; k++)
        if (fds[k].revents && guests[k].cl && guests[k].waits && guests[k].fd == fds[k].fd) looks_at(&guests[k]);
    updates();
}

static int loops_until(const int *count, int wanted)
{
    double end = seconds() + patience;
    while (*count != wanted && seconds() < end) loops(5);
    return *count == wanted;
}

static void loops_for(double time)
{
    double end = seconds() + time;
    while (seconds() < end) loops(5);
}

/* ---- viewers ---- */

static int connects(void)
{
    const int yes = 1;
    struct sockaddr_in to;
    int fd = socket(AF_INET, SOCK_STREAM, 0);
    memset(&to, 0, sizeof to);
    to.sin_family = AF_INET;
    to.sin_addr.s_addr = htonl(INADDR_LOOPBACK);
    to.sin_port = htons((uint16_t)s->port);
    setsockopt(fd, IPPROTO_TCP, TCP_NODELAY, &yes, sizeof yes);
    if (connect(fd, (struct sockaddr *)&to, sizeof to) == 0) return fd;
    close(fd);
    return -1;
}

static int port_here(int fd)
{
    struct sockaddr_in at;
    socklen_t size = sizeof at;
    memset(&at, 0, sizeof at);
    return getsockname(fd, (struct sockaddr *)&at, &size) ? -1 : ntohs(at.sin_port);
}

static int says(int fd, const char *bytes, size_t count) { return send(fd, bytes, count, MSG_NOSIGNAL) == (ssize_t)count; }

/* Who takes turns while a viewer waits: the layer's own thread, this program's loop, or this program by rfbProcessEvents. */
enum { THREAD, LOOP, EVENTS };

static void round_of(int way)
{
    struct timespec pause = {0, 1000000};
    if (way == LOOP) loops(1);
    else if (way == EVENTS) rfbProcessEvents(s, 1000);
    else nanosleep(&pause, NULL);
}

/* Whether a viewer reads so many bytes; 0 where it is closed, or nothing comes. */
static int reads_in(int fd, void *room, size_t count, int way)
{
    double end = seconds() + patience;
    size_t at = 0;
    while (at < count && seconds() < end) {
        ssize_t n = recv(fd, (char *)room + at, count - at, MSG_DONTWAIT);
        if (n == 0 || (n < 0 && errno != EAGAIN && errno != EWOULDBLOCK)) return 0;
        if (n > 0) at += (size_t)n;
        else round_of(way);
    }
    return at == count;
}

static int reads(int fd, void *room, size_t count) { return reads_in(fd, room, count, LOOP); }

/* Whether a viewer reads the end of its connection, and nothing before it. */
static int ends_in(int fd, int way)
{
    double end = seconds() + patience;
    char byte;
    ssize_t n = -1;
    do {
        n = recv(fd, &byte, 1, MSG_DONTWAIT);
        if (n < 0 && errno != EAGAIN && errno != EWOULDBLOCK) n = 0; /* it was reset */
        if (n < 0) round_of(way);
    } while (n < 0 && seconds() < end);
    close(fd);
    return n == 0;
}

static int ends(int fd) { return ends_in(fd, LOOP); }

/* Whether a viewer was sent nothing so far, and its connection stands. */
static int waits(int fd)
{
    char byte;
    return recv(fd, &byte, 1, MSG_DONTWAIT) < 0 && (errno == EAGAIN || errno == EWOULDBLOCK);
}

#define OPENING "RFB 003.008\n\x01\x01"
#define ALL "\x03\0\0\0\0\0\0\x08\0\x04"
#define CHANGES "\x03\x01\0\0\0\0\0\x08\0\x04"
#define A_KEY "\x04\x01\0\0\0\0\0\x61"
enum { GREETED = 12 + 2 + 4 + 24, UPDATE = 4 + 12 + W * H * 4 };

/* Whether a viewer is greeted, by a server that has its opening. */
static int is_greeted(int fd, int way)
{
    uint8_t room[GREETED + 64];
    return reads_in(fd, room, GREETED, way) && memcmp(room, "RFB 003.008\n\x01\x01", 14) == 0 && room[19] == W && room[21] == H &&
           reads_in(fd, room + GREETED, room[GREETED - 1], way);
}

/* Whether a viewer that asks for all is shown the picture, in one rectangle. */
static int sees(int fd, int way)
{
    uint8_t room[UPDATE];
    int k, same = 0;
    if (!says(fd, ALL, 10) || !reads_in(fd, room, UPDATE, way)) return 0;
    for (k = 0; k < W * H; k++) same += room[16 + 4 * k] == (uint8_t)picture[4 * k + 2] && room[18 + 4 * k] == (uint8_t)picture[4 * k];
    return same == W * H;
}

static guest *guest_of(int fd)
{
    int k;
    for (k = 0; k < MOST; k++)
        if (guests[k].cl && guests[k].asked_port == port_here(fd)) return &guests[k];
    return NULL;
}

/* A viewer comes, and says its opening; the program's user is asked of it, who knows where it comes from. Nobody has read of it, nor sent it
 * anything. Its socket, or -1. */
static int comes(void)
{
    const int before = asked;
    int fd = connects();
    if (fd < 0 || !says(fd, OPENING, 14) || !loops_until(&asked, before + 1) || !guest_of(fd) || !guest_of(fd)->cl->onHold || !waits(fd)) return -1;
    return fd;
}

/* One that is admitted, and served. */
static int is_served(int fd)
{
    guest *g = admits(guest_of(fd));
    return is_greeted(fd, LOOP) && sees(fd, LOOP) && g->cl->state == STATE(RFB_NORMAL) && port_of(g->cl->sock) == port_here(fd);
}

static rfbScreenInfoPtr screen(void)
{
    rfbScreenInfoPtr made = rfbGetScreen(NULL, NULL, W, H, 8, 3, 4);
    struct sockaddr_in at;
    socklen_t size = sizeof at;
    int k, fd = socket(AF_INET, SOCK_STREAM, 0);
    memset(&at, 0, sizeof at);
    at.sin_family = AF_INET;
    at.sin_addr.s_addr = htonl(INADDR_LOOPBACK);
    if (!made || bind(fd, (struct sockaddr *)&at, sizeof at) || getsockname(fd, (struct sockaddr *)&at, &size)) exit(3);
    close(fd);
    made->port = ntohs(at.sin_port);
    made->listenInterface = htonl(INADDR_LOOPBACK);
    made->frameBuffer = picture;
    made->newClientHook = come;
    made->kbdAddEvent = key;
    made->passwordCheck = rfbCheckPasswordByList; /* which asks for no password by itself */
    for (k = 0; k < W * H * 4; k++) picture[k] = (char)(k * 37);
    for (k = 0; k < MOST; k++) memset(&guests[k], 0, sizeof guests[k]), guests[k].fd = -1;
    action = RFB_CLIENT_ON_HOLD;
    came = asked = gone = keys = rfb_errors = 0;
    rfbInitServer(made);
    return made;
}

/* ---- a program that waits for sockets itself ---- */

/* A viewer waits until it is admitted; then it is served, with updates and inputs, and leaves. */
static int admission(void)
{
    uint8_t room[UPDATE];
    int fd, before;
    s = screen();
    HOLDS(rfbIsActive(s) && s->listen6Sock == -1 && rfb_errors == 0);
    HOLDS((fd = comes()) >= 0);
    before = ready_count;
    loops_for(0.3); /* nothing is ready: nobody has to look */
    HOLDS(ready_count - before < 5 && waits(fd) && gone == 0);
    HOLDS(is_served(fd));
    HOLDS(says(fd, CHANGES, 10));
    loops_for(0.1);
    HOLDS(waits(fd));
    picture[0] = 77;
    rfbMarkRectAsModified(s, 0, 0, 1, 1);
    HOLDS(reads(fd, room, 4 + 12 + 4) && room[18] == 77 && memcmp(room + 4, "\0\0\0\0\0\x01\0\x01", 8) == 0);
    HOLDS(says(fd, A_KEY A_KEY A_KEY, 24) && loops_until(&keys, 3));
    close(fd);
    HOLDS(loops_until(&gone, 1) && came == 1 && asked == 1 && s->clientHead == NULL);
    rfbScreenCleanup(s);
    return 0;
}

/* One on hold is refused, by both ways; another leaves meanwhile, and is admitted or refused then. A viewer that is served goes on. */
static int refusals(void)
{
    int k, fd, served;
    guest *g;
    s = screen();
    HOLDS((served = comes()) >= 0 && is_served(served));
    for (k = 0; k < 4; k++) {
        HOLDS((fd = comes()) >= 0);
        g = guest_of(fd);
        if (k >= 2) close(fd);
        loops_for(0.1); /* in which it is closed, where it is; nothing becomes of that yet */
        HOLDS(gone == k && g->cl && g->cl->sock >= 0);
        if (k == 0) rfbCloseClient(g->cl), rfbClientConnectionGone(g->cl);
        else if (k == 1 || k == 2) rfbRefuseOnHoldClient(g->cl);
        else admits(g);
        if (k < 2) HOLDS(ends(fd));
        HOLDS(loops_until(&gone, k + 1));
        HOLDS(sees(served, LOOP));
    }
    close(served);
    HOLDS(loops_until(&gone, 5));
    rfbScreenCleanup(s);
    IS(gone, 5);
    return 0;
}

/* Who left in another client's call has its socket until a call of its own; who is let go while served reads its end at once; and one that is
 * accepted or refused as it comes. */
static int records(void)
{
    int first, second, third, socket_of_first, before, k;
    guest *g, *h;
    s = screen();
    HOLDS((first = comes()) >= 0 && is_served(first) && (second = comes()) >= 0 && is_served(second));
    g = guest_of(first), h = guest_of(second);
    socket_of_first = g->cl->sock;
    close(first);
    for (k = 0; k < 50; k++) {
        rfbProcessClientMessage(h->cl);
        rfbProcessNewConnection(s);
    }
    HOLDS(gone == 0 && g->cl->sock == socket_of_first && h->cl->sock >= 0);
    rfbUpdateClient(g->cl);
    HOLDS(has_left(g) && gone == 1);
    rfbCloseClient(h->cl);
    rfbClientConnectionGone(h->cl);
    IS(gone, 2);
    HOLDS(recv(second, &first, 1, MSG_DONTWAIT) == 0 && ends(second));
    HOLDS((second = comes()) >= 0); /* closed on hold, it is parted with in its own call as well */
    g = guest_of(second);
    rfbCloseClient(g->cl);
    before = ready_count;
    loops_for(0.2);
    HOLDS(ready_count - before < 5 && gone == 2 && g->cl->sock >= 0 && ends(second));
    rfbUpdateClient(g->cl);
    HOLDS(has_left(g) && gone == 3);
    action = RFB_CLIENT_REFUSE;
    HOLDS((third = connects()) >= 0 && loops_until(&gone, 4) && ends(third));
    action = RFB_CLIENT_ACCEPT;
    HOLDS((third = connects()) >= 0 && says(third, OPENING, 14) && loops_until(&came, 5));
    g = (guest *)s->clientHead->clientData;
    g->is_pending = 0;
    HOLDS(port_of(g->cl->sock) == port_here(third) && g->cl->onHold == FALSE && is_greeted(third, LOOP) && sees(third, LOOP));
    close(third);
    HOLDS(loops_until(&gone, 5));
    rfbScreenCleanup(s);
    return 0;
}

/* It is shut while one is on hold and one is served; then it begins anew. And without closing them: who is on hold may still be admitted. */
static int ending(void)
{
    int served, held, fd, port;
    s = screen();
    port = s->port;
    HOLDS((served = comes()) >= 0 && is_served(served) && (held = comes()) >= 0);
    rfbShutdownServer(s, TRUE);
    HOLDS(gone == 2 && s->clientHead == NULL && !rfbIsActive(s) && s->listenSock == -1 && connects() == -1);
    HOLDS(ends(served) && ends(held));
    rfbInitServer(s);
    HOLDS(rfbIsActive(s) && s->port == port && (served = comes()) >= 0 && is_served(served) && (held = comes()) >= 0);
    rfbShutdownServer(s, FALSE);
    HOLDS(gone == 2 && rfbIsActive(s) && connects() == -1 && sees(served, LOOP) && waits(held));
    HOLDS(is_served(held));
    rfbInitServer(s); /* who is there stays */
    HOLDS((fd = comes()) >= 0 && is_served(fd) && sees(served, LOOP));
    rfbShutdownServer(s, FALSE);
    close(served), close(held), close(fd);
    HOLDS(loops_until(&gone, 5));
    loops_for(0.1);
    HOLDS(!rfbIsActive(s) && s->listenSock == -1);
    rfbScreenCleanup(s);
    IS(rfb_errors, 0);
    return 0;
}

/* Connections come and go without end, while a viewer asks for one update after the other: it has many, and nobody is kept for ever. */
static int floods(void)
{
    double end;
    int served, made = 1, alone = 0, rounds = 0;
    s = screen();
    HOLDS((served = comes()) >= 0 && is_served(served));
    for (end = seconds() + 1; seconds() < end; alone++) HOLDS(sees(served, LOOP));
    action = RFB_CLIENT_REFUSE;
    for (end = seconds() + 1; seconds() < end; rounds++) {
        for (; made < came + 100; made++) close(connects());
        HOLDS(sees(served, LOOP));
    }
    if (rounds < alone / 10 || came < 80) printf("%d updates, and %d alone; %d connections\n", rounds, alone, came);
    HOLDS(rounds >= alone / 10 && came >= 80);
    HOLDS(loops_until(&came, made));
    close(served);
    HOLDS(loops_until(&gone, made));
    rfbScreenCleanup(s);
    return 0;
}

/* Where no descriptor is to be had, who comes waits, and no turn is taken in vain; once there are some, it is asked of. */
static int no_room(void)
{
    static int held[256];
    struct rlimit limit, few;
    int count = 0, served, fd, before;
    s = screen();
    HOLDS((served = comes()) >= 0 && is_served(served) && (fd = connects()) >= 0);
    if (getrlimit(RLIMIT_NOFILE, &limit)) return 1;
    few = limit, few.rlim_cur = 128;
    HOLDS(setrlimit(RLIMIT_NOFILE, &few) == 0);
    while (count < 256 && (held[count] = dup(0)) >= 0) count++;
    before = ready_count;
    loops_for(0.5);
    HOLDS(count < 256 && came == 1 && ready_count - before < 30 && sees(served, LOOP));
    while (count > 0) close(held[--count]);
    HOLDS(setrlimit(RLIMIT_NOFILE, &limit) == 0);
    if (!waits(fd)) close(fd), fd = connects(); /* as valgrind takes it, and closes it */
    HOLDS(loops_until(&asked, 2) && gone == 0);
    close(fd), close(served);
    HOLDS(loops_until(&gone, 1));
    rfbScreenCleanup(s);
    IS(gone, 2);
    return 0;
}

/* ---- a program whose turns the layer takes ---- */

/* As many as there may be are on hold: one more waits until one has left. */
static int full(void)
{
    enum { ALL_OF_THEM = 1000 };
    static int viewers[ALL_OF_THEM + 1];
    struct rlimit limit, many;
    double end = seconds() + patience;
    int k;
    if (getrlimit(RLIMIT_NOFILE, &limit)) return 1;
    many = limit, many.rlim_cur = 2 * ALL_OF_THEM + 128;
    if (setrlimit(RLIMIT_NOFILE, &many)) return 0; /* it can't be tried */
    s = screen();
    for (k = 0; k <= ALL_OF_THEM; k++) {
        HOLDS((viewers[k] = connects()) >= 0);
        while (came < k + 1 && k < ALL_OF_THEM && seconds() < end) rfbProcessEvents(s, 1000);
    }
    for (k = 0; k < 20; k++) rfbProcessEvents(s, 10000);
    HOLDS(came == ALL_OF_THEM && gone == 0 && waits(viewers[ALL_OF_THEM]));
    close(viewers[7]);
    end = seconds() + patience;
    while (came == ALL_OF_THEM && seconds() < end) rfbProcessEvents(s, 60000000); /* the turn in which one leaves has the other come */
    HOLDS(came == ALL_OF_THEM + 1 && gone == 1 && seconds() < end);
    rfbScreenCleanup(s);
    HOLDS(gone == ALL_OF_THEM + 1);
    for (k = 0; k <= ALL_OF_THEM; k++)
        if (k != 7) close(viewers[k]);
    return setrlimit(RLIMIT_NOFILE, &limit);
}

static int events_until(const int *count, int wanted)
{
    double end = seconds() + patience;
    while (*count != wanted && seconds() < end) rfbProcessEvents(s, 1000);
    return *count == wanted;
}

/* One that is served, by turns of rfbProcessEvents, or -1. */
static int is_shown(void)
{
    int fd = connects();
    return fd >= 0 && says(fd, OPENING, 14) && is_greeted(fd, EVENTS) && sees(fd, EVENTS) ? fd : -1;
}

/* Hooks part with their own client, or with another, also where an iterator stands at it: each is told once, and nobody else goes. */
static int hooks(void)
{
    rfbClientIteratorPtr all;
    rfbClientPtr first_client;
    int first, second, third, k;
    s = screen();
    for (k = 0; k < 2; k++) {
        hook_does = k ? CLOSES : REFUSES;
        action = k ? RFB_CLIENT_ACCEPT : RFB_CLIENT_ON_HOLD;
        HOLDS((first = connects()) >= 0 && events_until(&gone, k + 1) && ends_in(first, EVENTS) && s->clientHead == NULL);
    }
    hook_does = NOTHING;
    HOLDS((first = is_shown()) >= 0);
    first_client = s->clientHead;
    HOLDS((second = is_shown()) >= 0 && (all = rfbGetClientIterator(s)) != NULL && rfbClientIteratorNext(all) == s->clientHead);
    hook_does = PARTS;
    HOLDS(says(second, A_KEY A_KEY, 16) && events_until(&gone, 3) && ends_in(second, EVENTS));
    IS(keys, 1);
    hook_does = NOTHING;
    HOLDS(rfbClientIteratorNext(all) == first_client && rfbClientIteratorNext(all) == NULL && s->clientHead == first_client);
    rfbReleaseClientIterator(all);
    HOLDS((second = is_shown()) >= 0 && (third = is_shown()) >= 0);
    other = s->clientHead->next;
    hook_does = PARTS_WITH_OTHER;
    close(third);
    HOLDS(events_until(&gone, 5) && ends_in(second, EVENTS) && sees(first, EVENTS) && s->clientHead == first_client);
    close(first);
    HOLDS(events_until(&gone, 6));
    rfbScreenCleanup(s);
    return 0;
}

/* A program that asks its user takes turns meanwhile: nobody is served before it has said so, and who is refused never is. */
static int questions(void)
{
    int way, fd, k;
    for (way = LOOP; way <= EVENTS; way++) {
        s = screen();
        hook_does = TAKES_TURNS;
        action = RFB_CLIENT_REFUSE;
        HOLDS((fd = connects()) >= 0 && says(fd, OPENING, 14) && ends_in(fd, way) && gone == 1 && s->clientHead == NULL);
        action = RFB_CLIENT_ACCEPT;
        HOLDS((fd = connects()) >= 0 && says(fd, OPENING, 14));
        for (k = 0; k < 50 || (k < 3000 && !s->clientHead); k++) {
            round_of(way);
            if (way == LOOP && s->clientHead) ((guest *)s->clientHead->clientData)->is_pending = 0;
        }
        HOLDS(is_greeted(fd, way) && sees(fd, way));
        hook_does = NOTHING;
        close(fd);
        rfbScreenCleanup(s);
        IS(gone, 2);
    }
    return 0;
}

/* Many come at once, so that accepting rests, and then the server is shut: the loop isn't woken again and again. */
static int shut_at_rest(void)
{
    int served, k, before;
    s = screen();
    HOLDS((served = comes()) >= 0 && is_served(served));
    action = RFB_CLIENT_REFUSE;
    for (k = 0; k < 50; k++) close(connects());
    for (k = 0; k < 5; k++) loops(5);
    rfbShutdownServer(s, FALSE);
    loops_for(0.3);
    before = ready_count;
    loops_for(0.5);
    HOLDS(ready_count - before < 30 && sees(served, LOOP));
    close(served);
    loops_for(0.1);
    rfbScreenCleanup(s);
    return 0;
}

/* ---- and in another thread ---- */

static int sleeps_until(const int *count, int wanted)
{
    double end = seconds() + patience;
    while (*(const volatile int *)count != wanted && seconds() < end) round_of(THREAD);
    return *(const volatile int *)count == wanted;
}

/* The client that came last, by an iterator. */
static rfbClientPtr newest(void)
{
    rfbClientIteratorPtr all = rfbGetClientIterator(s);
    rfbClientPtr cl = rfbClientIteratorNext(all);
    rfbReleaseClientIterator(all);
    return cl;
}

static int background(void)
{
    int fd[5], k;
    s = screen();
    rfbRunEventLoop(s, -1, TRUE);
    for (k = 0; k < 5; k++) {
        HOLDS((fd[k] = connects()) >= 0 && says(fd[k], OPENING, 14) && sleeps_until(&came, k + 1));
        HOLDS(waits(fd[k]) && port_of(newest()->sock) == port_here(fd[k]));
        if (k == 0) newest()->onHold = FALSE;
        if (k == 1) rfbStartOnHoldClient(newest());
        if (k == 2) rfbRefuseOnHoldClient(newest());
        if (k == 3) close(fd[k]);
        if (k < 2) HOLDS(is_greeted(fd[k], THREAD) && sees(fd[k], THREAD));
        if (k == 2) HOLDS(ends_in(fd[k], THREAD));
        if (k == 2 || k == 3) HOLDS(sleeps_until(&gone, k - 1));
    }
    close(fd[0]);
    HOLDS(sleeps_until(&gone, 3) && sees(fd[1], THREAD) && waits(fd[4]));
    rfbShutdownServer(s, TRUE);
    HOLDS(gone == 5 && !rfbIsActive(s) && ends_in(fd[1], THREAD) && ends_in(fd[4], THREAD));
    rfbScreenCleanup(s);
    return 0;
}

/* A server is begun anew while its loop runs still, and once it has ended; each time its viewers are shown the picture. */
static int begun_anew(void)
{
    int fd[3], k;
    s = screen();
    action = RFB_CLIENT_ACCEPT;
    for (k = 0; k < 3; k++) {
        rfbRunEventLoop(s, -1, TRUE);
        HOLDS((fd[k] = connects()) >= 0 && says(fd[k], OPENING, 14) && is_greeted(fd[k], THREAD) && sees(fd[k], THREAD));
        if (k == 1) HOLDS(sees(fd[0], THREAD));
        rfbShutdownServer(s, k > 0);
        if (k == 1) HOLDS(gone == 2 && ends_in(fd[0], THREAD) && ends_in(fd[1], THREAD));
        if (k < 2) rfbInitServer(s);
    }
    HOLDS(gone == 3 && ends_in(fd[2], THREAD) && !rfbIsActive(s));
    rfbScreenCleanup(s);
    return 0;
}

/* A loop that waits without end sees that the server was shut, whenever that was, and that an iterator let a client go that has left. */
static int woken(void)
{
    double begun = seconds();
    rfbClientIteratorPtr all;
    int fd, k;
    for (k = 0; k < 100; k++) {
        s = screen();
        rfbRunEventLoop(s, -1, TRUE);
        rfbShutdownServer(s, FALSE);
        rfbScreenCleanup(s);
    }
    HOLDS(seconds() - begun < 2 * patience);
    s = screen();
    action = RFB_CLIENT_ACCEPT;
    rfbRunEventLoop(s, -1, TRUE);
    HOLDS((fd = connects()) >= 0 && says(fd, OPENING, 14) && is_greeted(fd, THREAD) && sees(fd, THREAD));
    HOLDS((all = rfbGetClientIterator(s)) != NULL && rfbClientIteratorNext(all) != NULL);
    close(fd);
    for (k = 0; k < 100; k++) round_of(THREAD);
    IS(gone, 0);
    HOLDS(rfbClientIteratorNext(all) == NULL && sleeps_until(&gone, 1));
    rfbReleaseClientIterator(all);
    rfbScreenCleanup(s);
    return 0;
}

/* A hook that another thread's call runs shuts the server, and doesn't wait for the loop, which waits for it. */
static int shut_in_hook(void)
{
    int fd;
    s = screen();
    rfbRunEventLoop(s, -1, TRUE);
    HOLDS((fd = connects()) >= 0 && sleeps_until(&came, 1));
    hook_does = SHUTS;
    rfbRefuseOnHoldClient(newest());
    hook_does = NOTHING;
    HOLDS(gone == 1 && ends_in(fd, THREAD));
    rfbShutdownServer(s, TRUE);
    HOLDS(!rfbIsActive(s));
    rfbScreenCleanup(s);
    return 0;
}

/* Nothing that is encrypted is like anything. */
static int passwords(void)
{
    unsigned char first[CHALLENGESIZE] = {0}, second[CHALLENGESIZE] = {0}, none[CHALLENGESIZE] = {0};
    char password[MAXPWLEN + 1] = "secret";
    rfb_errors = 0;
    rfbEncryptBytes(first, password);
    rfbEncryptBytes(second, password);
    HOLDS(rfb_errors == 2 && memcmp(first, second, CHALLENGESIZE) != 0 && memcmp(first, none, CHALLENGESIZE) != 0);
    return 0;
}

/* With an argument it is less patient. */
int main(int argc, char **argv)
{
    (void)argv;
    if (argc > 1) patience = 3;
    rfbErr = err;
    DO(admission() || refusals() || records() || ending() || floods() || no_room() || full() || hooks() || questions() || shut_at_rest() || background() ||
       begun_anew() || woken() || shut_in_hook() || passwords());
    puts("rfb_drive ok");
    return 0;
}
