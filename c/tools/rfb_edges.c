/* rfb_edges.c: what programs may ask of rfb_compat.h, with viewers of its own: "rfb_edges ok" where each answer is the one that stands
 * here, and each viewer's picture, put together from changes and copies, is frameBuffer. */
#define _POSIX_C_SOURCE 200809L
#include "rfb_compat.h"
#include <errno.h>
#include <fcntl.h>
#include <limits.h>
#include <netinet/tcp.h>
#include <rfb/keysym.h>
#include <stdarg.h>
#include <sys/resource.h>
#include <time.h>

#define IS(call, want) do { long got = (long)(call); if (got != (long)(want)) { printf("line %d: %s gives %ld\n", __LINE__, #call, got); return 1; } } while (0)

enum { W = 40, H = 30 };
typedef struct { int fd; uint32_t seen[H][W]; int copies, bells; char text[16]; } viewer;

static int keys, points, gone, refuses, strangers, shares = 1, silent, errors;
static char said[16], error[256];
static rfbClientPtr newest;

/* What rfbErr says last, and how often. */
static void err(const char *format, ...)
{
    va_list args;
    va_start(args, format);
    vsnprintf(error, sizeof error, format, args);
    va_end(args);
    errors++;
}

static void key(rfbBool down, rfbKeySym k, rfbClientPtr cl) { keys += down == 1 && k == XK_a && cl == newest; }
static void point(int mask, int x, int y, rfbClientPtr cl) { points += mask == 1 && x == 3 && y == 4; rfbDefaultPtrAddEvent(mask, x, y, cl); }
static void text(char *t, int n, rfbClientPtr cl) { if (n < 16 && cl) memcpy(said, t, (size_t)n + 1); }
static void leave(rfbClientPtr cl) { gone++; free(cl->clientData); }

static enum rfbNewClientAction come(rfbClientPtr cl)
{
    newest = cl;
    strangers += strcmp(cl->host, "127.0.0.1") != 0 || cl->clientGoneHook == NULL;
    cl->clientData = malloc(1);
    cl->clientGoneHook = leave;
    return refuses == 0 ? RFB_CLIENT_ACCEPT : refuses == 1 ? RFB_CLIENT_REFUSE : RFB_CLIENT_ON_HOLD;
}

static int free_port(void)
{
    struct sockaddr_in at;
    socklen_t count = sizeof at;
    int fd = socket(AF_INET, SOCK_STREAM, 0);
    memset(&at, 0, sizeof at);
    at.sin_family = AF_INET;
    at.sin_addr.s_addr = htonl(INADDR_LOOPBACK);
    if (bind(fd, (struct sockaddr *)&at, sizeof at) || getsockname(fd, (struct sockaddr *)&at, &count)) at.sin_port = 0;
    close(fd);
    return ntohs(at.sin_port);
}

static int connects_by_ipv6(int port)
{
    struct sockaddr_in6 to;
    int fd = socket(AF_INET6, SOCK_STREAM, 0);
    memset(&to, 0, sizeof to);
    to.sin6_family = AF_INET6;
    to.sin6_addr = in6addr_loopback;
    to.sin6_port = htons((uint16_t)port);
    if (connect(fd, (struct sockaddr *)&to, sizeof to) == 0) return fd;
    close(fd);
    return -1;
}

static int connects(int port)
{
    const int yes = 1;
    struct sockaddr_in to;
    int fd = socket(AF_INET, SOCK_STREAM, 0);
    setsockopt(fd, IPPROTO_TCP, TCP_NODELAY, &yes, sizeof yes);
    memset(&to, 0, sizeof to);
    to.sin_family = AF_INET;
    to.sin_addr.s_addr = htonl(INADDR_LOOPBACK);
    to.sin_port = htons((uint16_t)port);
    if (connect(fd, (struct sockaddr *)&to, sizeof to) == 0) return fd;
    close(fd);
    return -1;
}

/* The viewer reads so many bytes, and the server takes turns meanwhile, where it has no loop of its own: 0, or -1 where it is closed. */
static int reads(rfbScreenInfoPtr s, int fd, void *room, size_t wanted)
{
    size_t at = 0;
    int tries;
    for (tries = 0; at < wanted && tries < 3000; tries++) {
        ssize_t n = recv(fd, (char *)room + at, wanted - at, MSG_DONTWAIT);
        struct timespec pause = {0, 1000000};
        if (n == 0) return -1;
        if (n > 0) at += (size_t)n;
        else if (s) rfbProcessEvents(s, 1000);
        else nanosleep(&pause, 0);
    }
    return at == wanted ? 0 : -1;
}

static int says(int fd, const char *bytes, size_t count) { return send(fd, bytes, count, MSG_NOSIGNAL) == (ssize_t)count ? 0 : -1; }

/* One rectangle of an update (RFC 6143, 7.6.1), Raw or CopyRect. */
static int sees_rect(rfbScreenInfoPtr s, viewer *v)
{
    static uint32_t before[H][W];
    uint8_t head[12], from[4];
    int x, y, left, top, width, height;
    if (reads(s, v->fd, head, 12)) return -1;
    left = head[1], top = head[3], width = head[5], height = head[7];
    if (left + width > W || top + height > H || (head[11] == 1 && reads(s, v->fd, from, 4))) return -1;
    memcpy(before, v->seen, sizeof before);
    v->copies += head[11] == 1;
    for (y = 0; y < height; y++)
        for (x = 0; x < width; x++) {
            uint32_t *at = &v->seen[top + y][left + x];
            if (head[11] == 1) *at = before[from[3] + y][from[1] + x];
            else if (reads(s, v->fd, at, 4)) return -1;
        }
    return 0;
}

/* What comes next: an update, a bell or a text. */
static int sees(rfbScreenInfoPtr s, viewer *v)
{
    uint8_t head[8] = {0};
    int k;
    if (reads(s, v->fd, head, 1)) return -1;
    if (head[0] == 2) return v->bells++, 0;
    if (head[0] == 3) return reads(s, v->fd, head + 1, 7) || head[7] > 15 || reads(s, v->fd, v->text, head[7]) ? -1 : 0;
    if (reads(s, v->fd, head + 1, 3)) return -1;
    for (k = 0; k < head[3]; k++)
        if (sees_rect(s, v)) return -1;
    return says(v->fd, "\x03\x01\0\0\0\0\0\x28\0\x1e", 10);
}

static int opens(rfbScreenInfoPtr s, viewer *v, int in_background)
{
    char room[64];
    memset(v, 0, sizeof *v);
    memset(v->seen, 0xff, sizeof v->seen);
    v->fd = connects(s->port);
    if (v->fd < 0 || says(v->fd, "RFB 003.008\n\x01", 13) || says(v->fd, shares ? "\x01" : "\0", 1)) return -1;
    if (!silent && says(v->fd, "\x02\0\0\x02\0\0\0\x01\0\0\0\0\x03\0\0\0\0\0\0\x28\0\x1e", 22)) return -1;
    s = in_background ? NULL : s;
    return reads(s, v->fd, room, 12 + 2 + 4 + 24) || reads(s, v->fd, room + 42, (size_t)room[41]);
}

/* The colour of a pixel of two bytes with 5 bits a sample, or of four with 8. */
static uint32_t colour_of(rfbScreenInfoPtr s, const uint8_t *p, int bytes)
{
    uint32_t n = p[0] | (uint32_t)p[1] << 8;
    if (bytes == 2) return ((n & 31) * 255 + 15) / 31 << 16 | ((n >> 5 & 31) * 255 + 15) / 31 << 8 | ((n >> 10 & 31) * 255 + 15) / 31;
    return (uint32_t)p[s->serverFormat.redShift / 8] << 16 | (uint32_t)p[1] << 8 | p[s->serverFormat.blueShift / 8];
}

/* Whether the viewer's picture becomes frameBuffer, of so many bytes a pixel. */
static int shows(rfbScreenInfoPtr s, viewer *v, int bytes, int in_background)
{
    int tries, x, y, off = 1;
    for (tries = 0; off && tries < 50; tries++) {
        if (tries && sees(in_background ? NULL : s, v)) return -1;
        for (off = y = 0; y < H; y++)
            for (x = 0; x < W; x++) {
                const uint8_t *p = (const uint8_t *)s->frameBuffer + (size_t)y * (size_t)s->paddedWidthInBytes + (size_t)(x * bytes);
                off += colour_of(s, p, bytes) != v->seen[y][x];
            }
    }
    return off;
}

static int turns(rfbScreenInfoPtr s, const int *until, int wanted)
{
    int k;
    for (k = 0; k < 3000 && *until != wanted; k++) rfbProcessEvents(s, 1000);
    return *until == wanted;
}

static rfbScreenInfoPtr screen(int bytes)
{
    rfbScreenInfoPtr s = rfbGetScreen(NULL, NULL, W, H, bytes == 2 ? 5 : 8, 3, bytes);
    int k;
    if (!s) exit(3);
    s->port = free_port();
    s->listenInterface = htonl(INADDR_LOOPBACK);
    s->frameBuffer = (char *)malloc(W * H * 4);
    if (!s->frameBuffer) exit(3);
    for (k = 0; k < W * H * 4; k++) s->frameBuffer[k] = (char)(k * k / 7);
    s->kbdAddEvent = key;
    s->ptrAddEvent = point;
    s->setXCutText = text;
    s->newClientHook = come;
    return s;
}

static void clean(rfbScreenInfoPtr s)
{
    free(s->frameBuffer);
    rfbScreenCleanup(s);
}

/* A screen that wants protection is not served, whenever it says so, and is told why. */
static int refused(void)
{
    char program[] = "x", value[] = "value", words[][13] = {"-rfbauth", "-passwd", "-sslkeyfile", "-sslcertfile"}, *args[] = {program, NULL, value, NULL};
    const char *said_of[] = {"authPasswdData is", "authPasswdData is", "authPasswdData is", "-sslkeyfile", "-sslcertfile"};
    int count, k;
    for (k = 0; k < 5; k++) {
        rfbScreenInfoPtr s = screen(4);
        s->passwordCheck = rfbCheckPasswordByList;
        if (k == 0) s->authPasswdData = value;
        if (k > 0) {
            args[1] = words[k - 1], args[2] = value, count = 3, errors = 0;
            IS(rfbProcessArguments(s, &count, args), TRUE);
            IS(count == 1 && errors == 1 && strstr(error, words[k - 1]) == error && strstr(error, "refused") != NULL, 1);
        }
        errors = 0;
        rfbInitServer(s);
        IS(errors == 1 && strstr(error, said_of[k]) == error, 1);
        IS(rfbIsActive(s), 0);
        IS(s->socketState, RFB_SOCKET_SHUTDOWN);
        IS(s->listenSock, -1);
        IS(connects(s->port), -1);
        IS(rfbProcessEvents(s, 0), FALSE);
        rfbRunEventLoop(s, -1, FALSE);
        clean(s);
    }
    IS(rfbCheckPasswordByList(NULL, value, 5), FALSE);
    IS(rfbGetScreen(NULL, NULL, W, H, 8, 3, 5) != NULL, 0);
    return 0;
}

/* How many bytes something writes to stderr. */
static long printed(void (*part)(void))
{
    const int before = dup(2);
    FILE *file = tmpfile();
    long count;
    if (!file || before < 0 || dup2(fileno(file), 2) < 0) exit(3);
    part();
    count = (long)lseek(2, 0, SEEK_CUR);
    if (dup2(before, 2) < 0) exit(3);
    close(before);
    fclose(file);
    return count;
}

static void log_some(void) { rfbLog("%d\n", 7); }

/* All words that LibVNCServer takes out of the arguments are taken out, each as often as it is there: those with no effect are told. */
static int arguments(void)
{
    static char words[][20] = {"x", "-rfbport", "1", "-rfbport", "7", "-rfbportv6", "8", "-deferupdate", "9", "-desktop", "name", "-alwaysshared", "-nevershared",
        "-dontdisconnect", "-listen", "127.0.0.2", "-nothing", "-httpdir", "dir", "-httpport", "3002", "-httpportv6", "3", "-enablehttpproxy", "-rfbwait", "4",
        "-rfbversion", "3.3", "-permitfiletransfer", "-deferptrupdate", "5", "-progressive", "6", "-last"};
    static char wants[][20] = {"-rfbport", "-rfbportv6", "-rfbwait", "-rfbauth", "-rfbversion", "-passwd", "-deferupdate", "-deferptrupdate", "-desktop", "-httpdir",
        "-httpport", "-httpportv6", "-progressive", "-listen", "-listenv6", "-sslkeyfile", "-sslcertfile", "-record"};
    enum { WORDS = sizeof words / sizeof *words, WANTS = sizeof wants / sizeof *wants };
    static char sizes[][8] = {"x", "-width", "640", "other", "-bpp", "16", "-width", "320", "-height"}; /* whose value is missing */
    static char help[] = "-help", listen_at[] = "-listen", listen_v6[] = "-listenv6", any[] = "any", host[] = "a.host", local[] = "localhost", v6[] = "::1";
    char *args[WORDS];
    rfbScreenInfoPtr s;
    int count = WORDS, width = 0, height = 7, bits = 0, k;
    for (k = 0; k < WORDS; k++) args[k] = words[k];
    errors = 0;
    s = rfbGetScreen(&count, args, W, H, 8, 3, 4);
    IS(s != NULL, 1);
    IS(count == 3 && !strcmp(args[1], "-nothing") && !strcmp(args[2], "-last"), 1);
    IS(errors, 10);
    IS(s->port == 7 && s->ipv6port == 8 && s->deferUpdateTime == 9 && s->httpPort == 3002, 1);
    IS(s->alwaysShared && s->neverShared && s->dontDisconnect && s->httpEnableProxyConnect, 1);
    IS(strcmp(s->desktopName, "name") == 0 && strcmp(s->httpDir, "dir") == 0, 1);
    IS(s->listenInterface, inet_addr("127.0.0.2"));
    args[1] = listen_at, args[2] = any, count = 3;
    IS(rfbProcessArguments(s, &count, args), TRUE);
    IS(s->listenInterface, htonl(INADDR_ANY));
    args[1] = listen_at, args[2] = local, count = 3;
    IS(rfbProcessArguments(s, &count, args), TRUE);
    IS(s->listenInterface, htonl(INADDR_LOOPBACK));
    args[1] = listen_v6, args[2] = v6, count = 3, errors = 0;
    IS(rfbProcessArguments(s, &count, args), TRUE);
    IS(count == 1 && errors == 1 && s->ipv6port == 0, 1);
    args[1] = listen_at, args[2] = host, count = 3;
    IS(rfbProcessArguments(s, &count, args), FALSE);
    for (k = 0; k < WANTS; k++) {
        args[1] = wants[k], count = 2, errors = 0;
        IS(rfbProcessArguments(s, &count, args), FALSE);
        IS(errors == 1 && strstr(error, wants[k]) == error, 1);
    }
    for (k = 0, count = sizeof sizes / sizeof *sizes; k < count; k++) args[k] = sizes[k];
    IS(rfbProcessSizeArguments(&width, &height, &bits, &count, args), TRUE);
    IS(width == 320 && height == 7 && bits == 16 && count == 3 && !strcmp(args[1], "other") && !strcmp(args[2], "-height"), 1);
    IS(printed(rfbUsage) > WANTS * 10, 1);
    args[1] = help, count = 2;
    IS(rfbProcessArguments(s, &count, args), FALSE);
    rfbLogEnable(0);
    IS(printed(log_some), 0);
    rfbLogEnable(1);
    IS(printed(log_some), 2);
    rfbScreenCleanup(s);
    return 0;
}

/* A port that another has; the first that is free; no descriptor left; and one that select can't have. */
static int ports(void)
{
    static int held[FD_SETSIZE];
    rfbScreenInfoPtr s = screen(4), first = screen(4), second = screen(4), other = screen(4);
    struct rlimit limit, few;
    int count = 0, fd, isLimited;
    rfbInitServer(s);
    IS(rfbIsActive(s), 1);
    other->port = s->port;
    errors = 0;
    rfbInitServer(other);
    IS(errors == 1 && strstr(error, strerror(EADDRINUSE)) != NULL, 1);
    IS(rfbIsActive(other), 0);
    clean(other);
    first->autoPort = second->autoPort = TRUE;
    rfbInitServer(first);
    rfbInitServer(second);
    IS(first->port >= 5900 && first->port < 6000 && second->port >= 5900 && second->port < 6000 && first->port != second->port, 1);
    IS((fd = connects(second->port)) < 0, 0);
    close(fd);
    clean(first);
    clean(second);
    clean(s);
    other = screen(4);
    if (getrlimit(RLIMIT_NOFILE, &limit)) return 1;
    few = limit, few.rlim_cur = 3;
    IS(setrlimit(RLIMIT_NOFILE, &few), 0);
    isLimited = (fd = dup(0)) < 0; /* but not under valgrind */
    if (fd >= 0) close(fd);
    errors = 0;
    if (isLimited) rfbInitServer(other);
    few.rlim_cur = limit.rlim_max < FD_SETSIZE + 64 ? limit.rlim_max : FD_SETSIZE + 64;
    IS(setrlimit(RLIMIT_NOFILE, &few), 0);
    if (isLimited) IS(errors == 1 && strstr(error, strerror(EMFILE)) != NULL, 1);
    while (count < FD_SETSIZE && (fd = dup(0)) >= 0) held[count++] = fd;
    rfbInitServer(other);
    if (few.rlim_cur == FD_SETSIZE + 64) IS(rfbIsActive(other) && other->listenSock >= FD_SETSIZE && other->maxFd == 0, 1);
    clean(other);
    while (count > 0) close(held[--count]);
    IS(setrlimit(RLIMIT_NOFILE, &limit), 0);
    return 0;
}

static int comes_from(rfbScreenInfoPtr s, const char *host)
{
    int k;
    for (k = 0; k < 3000 && !newest; k++) rfbProcessEvents(s, 1000);
    return newest && strcmp(newest->host, host) == 0;
}

/* Where the interface is any, viewers come by both versions of IP, but where ipv6port is 0, or another has the port of IPv6. */
static int versions(void)
{
    const int yes = 1;
    struct sockaddr_in6 at;
    int probe = socket(AF_INET6, SOCK_STREAM, 0), others = -1, has_both, fd, k;
    memset(&at, 0, sizeof at);
    at.sin6_family = AF_INET6;
    at.sin6_addr = in6addr_loopback;
    has_both = probe >= 0 && bind(probe, (struct sockaddr *)&at, sizeof at) == 0;
    if (probe >= 0) close(probe);
    for (k = 0; k < 3; k++) {
        rfbScreenInfoPtr s = screen(4);
        s->listenInterface = htonl(INADDR_ANY);
        s->ipv6port = k == 1 ? 0 : s->port;
        if (k == 2 && has_both) {
            others = socket(AF_INET6, SOCK_STREAM, 0);
            at.sin6_addr = in6addr_any, at.sin6_port = htons((uint16_t)s->port);
            IS(setsockopt(others, IPPROTO_IPV6, IPV6_V6ONLY, &yes, sizeof yes) || bind(others, (struct sockaddr *)&at, sizeof at) || listen(others, 1), 0);
        }
        newest = NULL;
        rfbInitServer(s);
        IS((fd = connects(s->port)) < 0, 0);
        IS(comes_from(s, "127.0.0.1"), 1);
        close(fd);
        newest = NULL;
        fd = k == 2 ? -1 : connects_by_ipv6(s->port);
        IS(fd >= 0, has_both && k == 0);
        if (fd >= 0) IS(comes_from(s, "::1"), 1);
        if (fd >= 0) strangers--, close(fd);
        clean(s);
    }
    if (others >= 0) close(others);
    return 0;
}

/* Whether a turn answers so, of some. */
static int turns_give(rfbScreenInfoPtr s, int value)
{
    int k;
    for (k = 0; k < 3000; k++)
        if (rfbProcessEvents(s, 1000) == value) return 1;
    return 0;
}

/* Whether a count becomes so, in turns that answer FALSE. */
static int tells(rfbScreenInfoPtr s, const int *count, int wanted)
{
    int k;
    for (k = 0; k < 3000 && *count != wanted; k++)
        if (rfbProcessEvents(s, 1000) != FALSE) return 0;
    return *count == wanted;
}

#define THREE_KEYS "\x04\x01\0\0\0\0\0\x61\x04\x01\0\0\0\0\0\x61\x04\x01\0\0\0\0\0\x61"

/* rfbProcessEvents: FALSE where nobody watches and for inputs, of which a turn tells one or all; TRUE for updates. */
static int values(void)
{
    rfbScreenInfoPtr s = screen(4);
    viewer v;
    int k;
    keys = gone = 0;
    rfbInitServer(s);
    for (k = 0; k < 3; k++) IS(rfbProcessEvents(s, 0), FALSE);
    IS((v.fd = connects(s->port)) < 0, 0);
    IS(says(v.fd, "RFB 003.008\n\x01\x01", 14), 0);
    for (k = 0; k < 20; k++) IS(rfbProcessEvents(s, 1000), FALSE);
    IS(says(v.fd, "\x03\0\0\0\0\0\0\x28\0\x1e", 10), 0);
    IS(turns_give(s, TRUE), 1);
    IS(says(v.fd, "\x03\x01\0\0\0\0\0\x28\0\x1e", 10), 0);
    for (k = 0; k < 50; k++) rfbProcessEvents(s, 1000);
    IS(rfbProcessEvents(s, 0), FALSE);
    rfbFillRect(s, 0, 0, 3, 3, 0x123456);
    IS(rfbProcessEvents(s, 0), TRUE);
    for (k = 0; k < 50; k++) rfbProcessEvents(s, 1000);
    IS(says(v.fd, THREE_KEYS, 24), 0);
    IS(tells(s, &keys, 1), 1);
    for (k = 2; k <= 3; k++) { /* without a wait */
        IS(rfbProcessEvents(s, 60000000), FALSE);
        IS(keys, k);
    }
    s->handleEventsEagerly = TRUE;
    IS(says(v.fd, THREE_KEYS, 24), 0);
    for (k = 0; k < 3000 && keys == 3; k++) IS(rfbProcessEvents(s, 1000), FALSE);
    IS(keys, 6);
    s->handleEventsEagerly = FALSE;
    IS(says(v.fd, THREE_KEYS, 24), 0);
    close(v.fd);
    IS(turns(s, &gone, 1), 1);
    IS(keys, 9); /* told before it was gone */
    IS(rfbProcessEvents(s, 0), FALSE);
    clean(s);
    return 0;
}

/* While many inputs wait, updates go on, and a viewer that leaves is parted with. None is lost, and all are told in their order. */
static int floods(void)
{
    rfbScreenInfoPtr s = screen(4);
    viewer v, w;
    char byte;
    int k;
    keys = gone = 0;
    rfbInitServer(s);
    IS(opens(s, &w, 0), 0);
    IS(opens(s, &v, 0), 0);
    IS(shows(s, &v, 4, 0), 0);
    for (k = 0; k < 50; k++) rfbProcessEvents(s, 1000);
    for (k = 0; k < 10; k++) IS(says(v.fd, THREE_KEYS, 24), 0);
    IS(turns(s, &keys, 1), 1);
    rfbFillRect(s, 0, 0, W, H, 0x123456);
    for (k = 0; k < 5; k++) rfbProcessEvents(s, 0);
    IS(keys, 6);
    IS(recv(v.fd, &byte, 1, MSG_PEEK | MSG_DONTWAIT), 1);
    close(w.fd);
    for (k = 0; k < 3000 && gone == 0; k++) {
        IS(says(v.fd, THREE_KEYS, 24), 0);
        rfbProcessEvents(s, 1000);
    }
    IS(gone, 1);
    IS(turns(s, &keys, 30 + 3 * k), 1);
    close(v.fd);
    clean(s);
    return 0;
}

/* The turn in which a viewer leaves answers TRUE. */
static int leaving(void)
{
    rfbScreenInfoPtr s = screen(4);
    viewer v;
    int k, answer = FALSE;
    gone = 0;
    rfbInitServer(s);
    IS(opens(s, &v, 0), 0);
    for (k = 0; k < 50; k++) rfbProcessEvents(s, 1000);
    close(v.fd);
    for (k = 0; k < 3000 && gone == 0; k++) answer = rfbProcessEvents(s, 1000);
    IS(gone == 1 && answer == TRUE, 1);
    clean(s);
    return 0;
}

/* Iterators give who is there, the newest first, and hold whom they stand at. */
static int iterators(void)
{
    rfbScreenInfoPtr s = screen(4);
    rfbClientIteratorPtr all, held;
    rfbClientPtr first, second;
    viewer v, w;
    int k;
    gone = 0;
    IS(rfbClientIteratorNext(NULL) == NULL, 1);
    rfbReleaseClientIterator(NULL);
    rfbInitServer(s);
    IS((all = rfbGetClientIterator(s)) != NULL && rfbClientIteratorNext(all) == NULL, 1);
    rfbReleaseClientIterator(all);
    IS(opens(s, &v, 0), 0);
    first = newest;
    IS(opens(s, &w, 0), 0);
    second = newest;
    IS((all = rfbGetClientIterator(s)) != NULL && (held = rfbGetClientIterator(s)) != NULL, 1);
    IS(rfbClientIteratorNext(all) == second && rfbClientIteratorNext(all) == first && rfbClientIteratorNext(all) == NULL, 1);
    IS(rfbClientIteratorNext(held) == second, 1);
    close(w.fd);
    for (k = 0; k < 100; k++) rfbProcessEvents(s, 1000);
    IS(gone, 0);
    IS(rfbClientIteratorNext(all) == first && rfbClientIteratorNext(all) == NULL, 1);
    IS(second->clientData != NULL && rfbClientIteratorNext(held) == first, 1);
    IS(turns(s, &gone, 1), 1);
    rfbCloseClient(first);
    IS(rfbClientIteratorNext(all) == NULL, 1);
    for (k = 0; k < 100; k++) rfbProcessEvents(s, 1000);
    IS(gone, 1);
    rfbShutdownServer(s, TRUE);
    IS(connects(s->port), -1);
    IS(gone == 1 && rfbIsActive(s) == 1, 1);
    rfbReleaseClientIterator(held);
    rfbReleaseClientIterator(all);
    rfbProcessEvents(s, 0);
    IS(gone == 2 && rfbIsActive(s) == 0, 1);
    close(v.fd);
    clean(s);
    return 0;
}

/* How many bits are set. */
static int bits_of(const char *mask, int bytes)
{
    int count = 0, k;
    for (k = 0; mask && k < 8 * bytes; k++) count += mask[k / 8] >> k % 8 & 1;
    return count;
}

/* Cursors have the bits of what was drawn, and are freed once, with what is theirs. */
static int cursors(void)
{
    static rfbCursor ours;
    static unsigned char alpha[16 * 16];
    char drawn[] = " x       x          ", *mask; /* as a string of both rows, or of the first alone */
    const int values[] = {0, 128, 255}, least[] = {0, 120, 256}, most[] = {0, 136, 256};
    rfbScreenInfoPtr s = screen(4);
    rfbCursorPtr c = rfbMakeXCursor(10, 2, drawn, NULL), d;
    int k;
    drawn[10] = 0;
    d = rfbMakeXCursor(10, 2, drawn, drawn);
    if (!c || !d) exit(3);
    IS(memcmp(c->source, "\x40\x40\0\0", 4), 0);
    IS(memcmp(c->mask, "\xe0\xc0\xe0\xc0", 4), 0);
    IS(memcmp(d->mask, "\x40\x40\0\0", 4), 0);
    c->richSource = (unsigned char *)malloc(1), c->alphaSource = (unsigned char *)malloc(1), c->cleanupRichSource = TRUE;
    for (k = 0; k < 3; k++) {
        memset(alpha, values[k], sizeof alpha);
        mask = rfbMakeMaskFromAlphaSource(16, 16, alpha);
        if (!mask) exit(3);
        IS(bits_of(mask, 32) >= least[k] && bits_of(mask, 32) <= most[k], 1);
        free(mask);
    }
    rfbSetCursor(s, c);
    rfbSetCursor(s, c);
    ours.source = (unsigned char *)malloc(1), ours.cleanupSource = TRUE;
    rfbSetCursor(s, &ours);
    rfbSetCursor(s, d);
    IS(ours.source != NULL, 1);
    rfbFreeCursor(&ours);
    IS(ours.source == NULL && !ours.cleanupSource, 1);
    rfbFreeCursor(&ours);
    rfbFreeCursor(NULL);
    clean(s);
    return 0;
}

/* A program that changes width and height by itself: viewers are told, and those that come. A size that can't be ends the server. */
static int sizes(void)
{
    rfbScreenInfoPtr s = screen(4);
    rfbClientIteratorPtr all = rfbGetClientIterator(s);
    rfbClientPtr cl;
    uint8_t head[16], init[42];
    viewer v, w;
    int k;
    rfbInitServer(s);
    IS(opens(s, &v, 0), 0);
    IS(shows(s, &v, 4, 0), 0);
    IS(says(v.fd, "\x02\0\0\x02\0\0\0\0\xff\xff\xff\x21", 12), 0);
    for (k = 0; k < 20; k++) rfbProcessEvents(s, 1000); /* which hear it */
    s->width = H, s->height = W, s->paddedWidthInBytes = 4 * H;
    while ((cl = rfbClientIteratorNext(all)) != NULL) cl->newFBSizePending = TRUE;
    rfbReleaseClientIterator(all);
    rfbMarkRectAsModified(s, 0, 0, H, W);
    IS(reads(s, v.fd, head, 16), 0);
    IS(memcmp(head + 4, "\0\0\0\0\0\x1e\0\x28\xff\xff\xff\x21", 12), 0);
    IS(newest->newFBSizePending, FALSE);
    close(v.fd);
    IS((w.fd = connects(s->port)) < 0, 0);
    IS(says(w.fd, "RFB 003.008\n\x01\x01", 14), 0);
    IS(reads(s, w.fd, init, 42), 0);
    IS(memcmp(init + 18, "\0\x1e\0\x28", 4), 0);
    errors = 0;
    s->width = 0;
    rfbProcessEvents(s, 0);
    IS(errors == 1 && rfbIsActive(s) == 0, 1);
    rfbInitServer(s);
    IS(errors == 2 && rfbIsActive(s) == 0, 1); /* it is not served again */
    close(w.fd);
    clean(s);
    return 0;
}

/* A program that waits by select for what allFds has, and takes a turn where that is ready: no wait lasts until its time is over. */
static int own_loop(void)
{
    enum { LARGE_W = 1024, LARGE_H = 768, BYTES = LARGE_W * LARGE_H * 4 };
    rfbScreenInfoPtr s = rfbGetScreen(NULL, NULL, LARGE_W, LARGE_H, 8, 3, 4);
    static char room[65536];
    long had = 0;
    ssize_t n;
    int fd;
    if (!s) exit(3);
    s->port = free_port();
    s->listenInterface = htonl(INADDR_LOOPBACK);
    s->kbdAddEvent = key;
    s->newClientHook = come;
    s->frameBuffer = (char *)malloc(BYTES);
    if (!s->frameBuffer) exit(3);
    memset(s->frameBuffer, 7, BYTES);
    keys = 0;
    rfbInitServer(s);
    IS(s->maxFd == s->listenSock && FD_ISSET(s->listenSock, &s->allFds) != 0, 1);
    IS((fd = connects(s->port)) < 0, 0);
    IS(says(fd, "RFB 003.008\n\x01\x01\x03\0\0\0\0\0\x04\0\x03\0", 24), 0);
    while (had < BYTES || keys < 6) {
        struct timeval most = {5, 0};
        fd_set fds = s->allFds;
        IS(select(s->maxFd + 1, &fds, NULL, NULL, &most), 1);
        IS(FD_ISSET(s->listenSock, &fds) != 0, 1);
        rfbProcessEvents(s, 0);
        while ((n = recv(fd, room, sizeof room, MSG_DONTWAIT)) > 0) {
            if (had < BYTES && had + n >= BYTES) IS(says(fd, THREE_KEYS THREE_KEYS, 48), 0);
            had += n;
        }
        if (n == 0) return 1;
    }
    close(fd);
    clean(s);
    return 0;
}

/* The file of -record is made by rfbInitServer, which refuses one that is there already; and -record wants a file. */
static int recorded(void)
{
    char program[] = "x", option[] = "-record", folder[] = "/tmp/rfb_edges_XXXXXX", path[32], line[64] = "", *args[] = {program, option, path, NULL};
    int count = 3, k;
    FILE *file;
    if (!mkdtemp(folder)) exit(3);
    snprintf(path, sizeof path, "%s/session", folder);
    for (k = 0; k < 2; k++) {
        rfbScreenInfoPtr s = screen(4);
        args[1] = option, args[2] = path, count = 3;
        IS(rfbProcessArguments(s, &count, args), TRUE);
        IS(count, 1);
        rfbInitServer(s);
        IS(rfbIsActive(s), k == 0);
        clean(s);
    }
    file = fopen(path, "rb");
    IS(file != NULL && fgets(line, sizeof line, file) != NULL, 1);
    IS(strcmp(line, "screen 40 30 LibVNCServer 1000\n"), 0);
    fclose(file);
    unlink(path);
    rmdir(folder);
    args[1] = option, args[2] = NULL, count = 2;
    IS(rfbGetScreen(&count, args, W, H, 8, 3, 4) != NULL, 0);
    return 0;
}

static int later(void)
{
    rfbScreenInfoPtr s = screen(4);
    viewer v;
    gone = 0;
    rfbInitServer(s);
    IS(opens(s, &v, 0), 0);
    IS(shows(s, &v, 4, 0), 0);
    s->authPasswdData = said;
    rfbProcessEvents(s, 0);
    IS(rfbIsActive(s), 0);
    IS(connects(s->port), -1);
    IS(gone, 1);
    close(v.fd);
    clean(s);
    return 0;
}

/* Marks, copies, what is not marked, other formats and sizes. */
static int pictures(int bytes)
{
    rfbScreenInfoPtr s = screen(bytes);
    sraRegionPtr r = sraRgnCreateRect(2, 2, 12, 9), q = sraRgnCreateRect(8, 5, 30, 14);
    char *first = s->frameBuffer, *second = (char *)malloc(W * H * 4);
    viewer v;
    int dx, dy;
    if (!r || !q || !second) exit(3);
    sraRgnOr(r, q);
    rfbInitServer(s);
    IS(opens(s, &v, 0), 0);
    IS(shows(s, &v, bytes, 0), 0);
    rfbFillRect(s, -3, -3, 9, 7, 0x1234567);
    rfbDrawLine(s, 39, 2, 5, 29, 0x7654321);
    rfbDrawPixel(s, 20, 20, 0);
    IS(shows(s, &v, bytes, 0), 0);
    for (dy = -4; dy <= 4; dy += 4)
        for (dx = -7; dx <= 7; dx += 7) {
            rfbDoCopyRect(s, -3, 2, 35, 50, dy, dx);
            rfbDoCopyRect(s, 0, 0, W, H, 0, dx + dy);
            IS(shows(s, &v, bytes, 0), 0);
            memset(s->frameBuffer + 6 * s->paddedWidthInBytes + 12 * bytes, dx + dy, 30); /* not marked: it is shown to who asks for all */
            rfbDoCopyRect(s, -5, 1, 33, 50, dx, dy);
            IS(says(v.fd, "\x03\0\0\0\0\0\0\x28\0\x1e", 10), 0);
            IS(shows(s, &v, bytes, 0), 0);
            rfbDoCopyRegion(s, r, dx, dy);
            rfbMarkRegionAsModified(s, r);
            rfbMarkRectAsModified(s, 40, 7, 0, 4);
            IS(shows(s, &v, bytes, 0), 0);
        }
    memmove(s->frameBuffer, s->frameBuffer + 3 * s->paddedWidthInBytes, (size_t)(27 * s->paddedWidthInBytes));
    rfbScheduleCopyRect(s, 0, 0, W, 27, 0, -3);
    IS(shows(s, &v, bytes, 0), 0);
    IS(v.copies > 0, 1);
    memset(second, 0x55, W * H * 4);
    rfbNewFramebuffer(s, second, W, H, bytes == 2 ? 8 : 5, 3, 6 - bytes);
    memset(first, 1, W * H * 4);
    IS(shows(s, &v, 6 - bytes, 0), 0);
    close(v.fd);
    sraRgnDestroy(r);
    sraRgnDestroy(q);
    free(first);
    clean(s);
    return 0;
}

/* What moves all over, and then hardly at all, in colours as the library has them. */
static int moves(void)
{
    rfbScreenInfoPtr s = screen(4);
    viewer v;
    int k;
    s->serverFormat.redShift = 16;
    s->serverFormat.blueShift = 0;
    rfbInitServer(s);
    IS(opens(s, &v, 0), 0);
    for (k = 0; k < 60; k++) {
        if (k < 40) memset(s->frameBuffer, k, W * H * 4);
        s->frameBuffer[4 * (k * 97 % (W * H))]++;
        rfbMarkRectAsModified(s, 0, 0, W, H);
        IS(shows(s, &v, 4, 0), 0);
    }
    close(v.fd);
    clean(s);
    return 0;
}

/* Hooks, clients that are let go, and a server that ends once the last has left. */
static int clients(void)
{
    rfbScreenInfoPtr s = screen(4);
    viewer v, w;
    char byte;
    int k;
    keys = points = gone = 0;
    rfbInitServer(s);
    IS(opens(s, &v, 0), 0);
    IS(says(v.fd, "\x04\x01\0\0\0\0\0\x61\x05\x01\0\x03\0\x04\x06\0\0\0\0\0\0\x02hi\x05\0\0\x03\0\x04", 30), 0);
    IS(turns(s, &points, 1), 1);
    IS(turns(s, &keys, 1), 1);
    IS(s->cursorX == 3 && s->cursorY == 4, 1);
    for (k = 0; k < 3000 && said[0] != 'h'; k++) rfbProcessEvents(s, 1000);
    IS(strcmp(said, "hi"), 0);
    rfbSendBell(s);
    rfbSendServerCutText(s, said, 2);
    while (v.text[0] == 0 || v.bells == 0)
        if (sees(s, &v)) return 1;
    IS(v.bells == 1 && memcmp(v.text, "hi", 2) == 0, 1);
    for (refuses = 1; refuses < 3; refuses++) { /* who is refused; who is on hold, and is closed then */
        IS((w.fd = connects(s->port)) < 0, 0);
        for (k = 0; refuses == 2 && k < 50; k++) rfbProcessEvents(s, 1000);
        if (refuses == 2) IS(newest->onHold && gone == 1 && recv(w.fd, &byte, 1, MSG_DONTWAIT) == -1, 1);
        if (refuses == 2) rfbCloseClient(newest);
        IS(turns(s, &gone, refuses), 1);
        IS(reads(s, w.fd, &byte, 1), -1);
        close(w.fd);
    }
    refuses = 0;
    IS(opens(s, &w, 0), 0);
    rfbCloseClient(newest);
    IS(turns(s, &gone, 3), 1);
    close(w.fd);
    /* who doesn't share is let go where the others are to stay, also where it asks for nothing; shares where all do; and else has them closed */
    s->dontDisconnect = TRUE;
    silent = 1, shares = 0;
    IS(opens(s, &w, 0), 0);
    IS(turns(s, &gone, 4), 1);
    close(w.fd);
    silent = 0;
    for (shares = k = 0; k < 3; k++) {
        s->dontDisconnect = k == 0 ? TRUE : FALSE;
        s->alwaysShared = k == 1 ? TRUE : FALSE;
        IS(opens(s, &w, 0), 0);
        if (k) IS(shows(s, &w, 4, 0), 0);
        if (k == 1) rfbCloseClient(newest);
        IS(turns(s, &gone, 5 + k), 1);
        if (k < 2) close(w.fd);
    }
    while (reads(s, v.fd, &byte, 1) == 0) {}
    close(v.fd);
    v = w;
    shares = 1;
    rfbShutdownServer(s, FALSE);
    IS(rfbIsActive(s), 1);
    IS(shows(s, &v, 4, 0), 0);
    close(v.fd);
    IS(turns(s, &gone, 8), 1);
    IS(rfbIsActive(s), 0);
    IS(connects(s->port), -1);
    clean(s);
    return 0;
}

/* How many places have a colour. */
static int places_with(rfbScreenInfoPtr s, uint32_t colour)
{
    const uint32_t *at = (const uint32_t *)(const void *)s->frameBuffer;
    int found = 0;
    for (int i = 0; i < W * H; i++) found += at[i] == colour;
    return found;
}

/* The ends of an int, and a screen that has no picture yet. */
static int ends_of_int(void)
{
    rfbScreenInfoPtr s = screen(4);
    char *picture = s->frameBuffer;
    s->frameBuffer = NULL;
    rfbFillRect(s, 0, 0, W, H, 1);
    rfbDrawPixel(s, 1, 1, 1);
    rfbDrawLine(s, 0, 0, 4, 4, 1);
    s->frameBuffer = picture;
    memset(picture, 0, W * H * 4);
    rfbDrawPixel(s, INT_MAX, INT_MAX, 1);
    rfbDrawPixel(s, INT_MIN, 3, 1);
    rfbDrawLine(s, INT_MAX, 3, INT_MAX, INT_MIN, 1);
    IS(places_with(s, 0), W * H);
    rfbDrawLine(s, INT_MIN, INT_MIN, INT_MAX, INT_MAX, 2);
    IS(places_with(s, 2), H);
    rfbDrawLine(s, INT_MAX, 3, INT_MIN, 3, 3);
    IS(places_with(s, 3), W);
    rfbDrawLine(s, 5, INT_MAX, 5, INT_MIN, 4);
    IS(places_with(s, 4), H);
    rfbFillRect(s, INT_MIN, INT_MIN, INT_MAX, INT_MAX, 5);
    IS(places_with(s, 5), W * H);
    rfbFillRect(s, INT_MAX, INT_MAX, INT_MIN, INT_MIN, 6);
    IS(places_with(s, 5), W * H);
    clean(s);
    return 0;
}

/* A program that is wider by itself than a screen may be has its copies; one that is refused has nothing drawn in its buffer of no size. */
static int large(void)
{
    enum { WIDE = 10000, HIGH = 4 };
    rfbScreenInfoPtr s = screen(4);
    sraRegionPtr r = sraRgnCreateRect(1, 0, 3, 2), q = sraRgnCreateRect(WIDE - 3, 1, WIDE, HIGH);
    uint32_t *wide = (uint32_t *)malloc(WIDE * HIGH * 4);
    int k, k_from, off = 0;
    if (!r || !q || !wide) exit(3);
    sraRgnOr(r, q);
    for (k = 0; k < WIDE * HIGH; k++) wide[k] = (uint32_t)k;
    free(s->frameBuffer);
    s->frameBuffer = (char *)wide, s->width = WIDE, s->height = HIGH, s->paddedWidthInBytes = 4 * WIDE;
    errors = 0;
    rfbDoCopyRegion(s, r, 1, 0);
    for (k = 0; k < WIDE * HIGH; k++) {
        const int x = k % WIDE, y = k / WIDE;
        k_from = (x >= 1 && x < 3 && y < 2) || (x >= WIDE - 3 && y >= 1) ? k - 1 : k;
        off += wide[k] != (uint32_t)(errors ? k : k_from); /* nothing is moved where memory is refused, which is said */
    }
    IS(off, 0);
    clean(s);
    sraRgnDestroy(r);
    sraRgnDestroy(q);
    s = screen(4);
    free(s->frameBuffer);
    rfbInitServer(s);
    errors = 0;
    rfbNewFramebuffer(s, (char *)malloc(1), 0, 0, 8, 3, 4);
    IS(errors == 1 && s->width == 0 && s->height == 0, 1);
    rfbFillRect(s, 0, 0, W, H, 1);
    rfbDrawLine(s, 0, 0, W, H, 1);
    rfbDoCopyRect(s, 0, 0, W, H, 1, 0);
    rfbMarkRectAsModified(s, 0, 0, W, H);
    rfbProcessEvents(s, 0);
    IS(rfbIsActive(s), 0);
    clean(s);
    return 0;
}

/* The hooks of a screen that a program hasn't set, which it may call, and the depth that it tells. */
static int defaults(void)
{
    rfbScreenInfoPtr s = rfbGetScreen(NULL, NULL, W, H, 8, 3, 4);
    if (!s) exit(3);
    s->kbdAddEvent(TRUE, XK_a, NULL);
    s->setXCutText(said, 1, NULL);
    IS(s->newClientHook(NULL), RFB_CLIENT_ACCEPT);
    IS(s->depth == 32 && s->serverFormat.depth == 32 && s->bitsPerPixel == 32, 1);
    rfbScreenCleanup(s);
    return 0;
}

/* The viewer says so many bytes, and the server takes turns meanwhile. */
static int says_all(rfbScreenInfoPtr s, int fd, const char *bytes, size_t count)
{
    size_t at = 0;
    int tries;
    for (tries = 0; at < count && tries < 3000; tries++) {
        const ssize_t n = send(fd, bytes + at, count - at, MSG_NOSIGNAL | MSG_DONTWAIT);
        if (n > 0) at += (size_t)n;
        rfbProcessEvents(s, n > 0 ? 0 : 1000);
    }
    return at == count ? 0 : -1;
}

#define PRESS "\x05\x01\0\x03\0\x04"
#define RELEASE "\x05\0\0\x03\0\x04"

/* The pointer is another's where who holds a button down is to look alone. A text that is too long is cut, which is said. */
static int lookers(void)
{
    static char text_of[8 + 262145] = "\x06\0\0\0\0\x04\0\0";
    rfbScreenInfoPtr s = screen(4);
    rfbClientPtr first;
    viewer v, w;
    int k;
    points = gone = 0;
    rfbInitServer(s);
    IS(opens(s, &v, 0), 0);
    first = newest;
    IS(opens(s, &w, 0), 0);
    IS(says(v.fd, PRESS, 6), 0);
    IS(turns(s, &points, 1), 1);
    IS(says(w.fd, PRESS RELEASE, 12), 0);
    for (k = 0; k < 50; k++) rfbProcessEvents(s, 1000);
    IS(points, 1);
    first->viewOnly = TRUE;
    IS(says(v.fd, RELEASE, 6) || says(w.fd, PRESS RELEASE PRESS, 18), 0);
    IS(turns(s, &points, 3), 1);
    text_of[7] = 1;
    errors = 0;
    IS(says_all(s, w.fd, text_of, 8 + 262145), 0);
    IS(turns(s, &errors, 1), 1);
    IS(strstr(error, "cut") != NULL, 1);
    close(v.fd);
    close(w.fd);
    clean(s);
    return 0;
}

/* How many clients there are of this machine. */
static int clients_of(rfbScreenInfoPtr s)
{
    rfbClientIteratorPtr all = rfbGetClientIterator(s);
    rfbClientPtr cl;
    int count = 0;
    while ((cl = rfbClientIteratorNext(all)) != NULL) count += strcmp(cl->host, "127.0.0.1") == 0;
    rfbReleaseClientIterator(all);
    return count;
}

/* The loop is in another thread, while this one draws, and looks who is there as others come and go. */
static int background(void)
{
    rfbScreenInfoPtr s = screen(2);
    viewer v;
    int k;
    rfbInitServer(s);
    rfbRunEventLoop(s, -1, TRUE);
    IS(opens(s, &v, 1), 0);
    IS(shows(s, &v, 2, 1), 0);
    for (k = 1; k < 200; k++) {
        rfbFillRect(s, k % W - 3, k * 7 % H - 3, k % W + k % 5, k * 7 % H + k % 7, (rfbPixel)(k * 1234567));
        if (k % 3 == 0) rfbDoCopyRect(s, k % 9, k % 7, W - k % 5, H - k % 4, k % 11 - 5, k % 13 - 6);
        if (k % 20 == 0) IS(shows(s, &v, 2, 1), 0);
        if (k % 20 == 10) close(connects(s->port));
        IS(clients_of(s) >= 1, 1);
    }
    rfbSendBell(s);
    while (v.bells == 0) IS(sees(NULL, &v), 0);
    IS(shows(s, &v, 2, 1), 0);
    rfbShutdownServer(s, TRUE);
    IS(rfbIsActive(s), 0);
    IS(connects(s->port), -1);
    close(v.fd);
    clean(s);
    return 0;
}

static int begins(void)
{
    IS(XK_Escape == 0xff1b && XK_a == 'a' && XK_F12 == 0xffc9, 1); /* of <rfb/keysym.h> */
    return refused() || arguments() || ports() || versions() || values() || floods() || leaving() || iterators() || cursors() || sizes() || own_loop();
}

static int goes_on(void) { return recorded() || later() || pictures(4) || pictures(2) || moves() || clients() || ends_of_int() || large() || defaults() || lookers() || background(); }

/* With an argument the second half comes first. */
int main(int argc, char **argv)
{
    (void)argv;
    rfbErr = err;
    if (argc > 1 ? goes_on() || begins() : begins() || goes_on()) return 1;
    IS(strangers, 0);
    puts("rfb_edges ok");
    return 0;
}
