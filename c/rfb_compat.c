/* rfb_compat.c: the server of rfb_compat.h, over vnc_server.h.
 *
 * The library has a picture of its own. A mark is kept as a rectangle, and the
 * next turn takes what stands there then out of frameBuffer into the picture. A
 * copy first takes what is marked, then moves frameBuffer and the picture
 * alike. Where it can't, as marks are left, or there are several rectangles, or
 * characters were drawn, which nobody marks, it marks where the copy came to.
 * Nothing is taken while nobody watches. For a viewer that comes, or asks for
 * places whether these changed or not, all is taken: also what was drawn and
 * never marked.
 *
 * The lock is held in all of a turn but its wait, and so in hooks:
 *
 *   turn -> wait, for wait_of(..)   the lock is open
 *        -> serve                   where the server isn't ending
 *             take_marks            what is marked: frameBuffer to picture
 *             close_some            isClosing to isLetGo
 *             vnc_server_process_events
 *             note_events           isGone, by what it says of viewers
 *             share                 a client that is open now
 *             hear                  inputs: library to ring
 *             accept_some           come: newClientHook
 *             admit_some            who isn't on hold: its socket to the server
 *             tell_next             inputs: ring to kbdAddEvent ..
 *        -> settle                  isGone to part, unless the program drives
 *                                   sockets itself; the server, where it is to
 *                                   end, too
 *
 *   a screen   RFB_SOCKET_INIT -- rfbInitServer --> RFB_SOCKET_READY
 *                -- refused, isEnding or rfbShutdownServer --> .._SHUTDOWN
 *                -- rfbInitServer, unless it hasFailed --> RFB_SOCKET_READY
 *   a client   made by come -> (onHold) -> number, by admit -> isOpen
 *                -> hasAsked -- isClosing -> isLetGo --> isGone
 *                -> isParted, by part: clientGoneHook -> freed
 *
 * A program drives sockets itself by rfbProcessNewConnection and so on. A turn
 * that these take parts with nobody: that is rfbClientConnectionGone's. Of who
 * comes in such a turn the layer keeps a descriptor, and the server has another
 * of the same socket: so sock stays what it is until a call for that very
 * client says that it is gone.
 */
#define _POSIX_C_SOURCE 200809L
#include "rfb_compat.h"
#include "rfb_compat_parts.h"
#include "vnc_server.h"
#include <errno.h>
#include <fcntl.h>
#include <poll.h>
#include <pthread.h>

enum {
    /* How many clients there may be: a further one waits for another to go. */
    MOST_VIEWERS = 1000,
    /* With more marks than this they are joined into one around all. */
    MOST_MARKS = 32,
    /* In milliseconds: a wait that has no end is begun again behind this. */
    LONGEST = 1000000,
    /* A rectangle of fewer places is always compared. */
    MANY = 1024,
    /* So often is one that moves painted without being compared. */
    UNCOMPARED = 15,
    /* The port, unless the program has another. */
    FIRST_PORT = 5900,
    /* How many are accepted in a turn while nobody is served, at most. */
    MOST_ACCEPTED = 32,
    /* How many descriptors a turn finds ready, at most. */
    MOST_READY = 16,
    /* In milliseconds: so often a turn that waits looks whether a client is on
     * hold still, as a program sets that with no call. */
    HOLD_LOOK = 20,
    /* How many inputs are held here, and with how many the library takes no
     * turn, so that viewers' sockets hold the others back. */
    MOST_HEARD = 256,
    FEW_HEARD = 64
};

/* How far a client is: C++ has these names in the record. */
#ifdef __cplusplus
#define STATE(name) rfbClientRec::name
#else
#define STATE(name) name
#endif

/* An input that hooks are to be told, and a text's bytes. */
struct heard {
    vnc_input in;
    char *text;
};

struct rfbCompat {
    vnc_server *server; /* NULL before rfbInitServer, and once it has ended */
    vnc_waker *waker;
    pthread_mutex_t lock;
    pthread_t looper; /* the thread of rfbRunEventLoop, where hasLooper */
    rfbBool hasLooper;
    rfbBool isLooping; /* it takes turns still */
    rfbBool isEnding;
    rfbBool hasFailed; /* it ended by no wish of the program's */
    struct rfbDoor door;
    int clients;   /* how many there are */
    uint64_t came; /* how many have come */
    uint64_t went; /* how many were parted with */
    int depth;   /* turns that run, as a hook may take one */
    int waiting; /* turns that wait */
    int parting; /* clients whose clientGoneHook runs */
    long usec;   /* of rfbRunEventLoop */
    sraRect marked[MOST_MARKS];
    int marks;
    int64_t asked;       /* how often viewers asked for all */
    int64_t lost;        /* how much of what viewers did was lost */
    sraRect dense;       /* what last differed nearly everywhere */
    int uncompared;      /* so many times more it isn't compared */
    struct heard heard[MOST_HEARD]; /* a ring; others wait in the library */
    int first;                      /* where the ring begins */
    int inputs;                     /* how many are in it */
};

static void lock(rfbScreenInfoPtr s) { pthread_mutex_lock(&s->compat->lock); }

static void unlock(rfbScreenInfoPtr s)
{
    pthread_mutex_unlock(&s->compat->lock);
}

/* TRUE is -1, as in LibVNCServer. */
static rfbBool truth(int is) { return is ? TRUE : FALSE; }

/* Ends the server with this turn, for good. */
static void fail(rfbScreenInfoPtr s)
{
    s->compat->isEnding = s->compat->hasFailed = TRUE;
}

/* ---- what of frameBuffer is taken; the lock is held ---- */

/* Has a turn that waits see to what is new; or a program that waits for
 * listenSock take one. */
static void wake(rfbScreenInfoPtr s)
{
    if (s->compat->waker) vnc_waker_wake(s->compat->waker);
}

static uint32_t sample_of(const rfbColourMap *map, uint32_t k)
{
    return (uint32_t)(map->is16 ? map->data.shorts[k] >> 8
                                : map->data.bytes[k]);
}

static void fill_table(const rfbColourMap *map, uint32_t *table)
{
    if (!map->data.bytes) return;
    for (uint32_t k = 0; k < 3 * 256 && k / 3 < map->count; k++)
        table[k / 3] = table[k / 3] << 8 | sample_of(map, k);
}

/* Whether rows of frameBuffer, from `first` on, are colours as
 * vnc_server_paint has them. */
static rfbBool are_colours(rfbScreenInfoPtr s, sraRect r, const uint8_t *first)
{
    const rfbPixelFormat *f = &s->serverFormat;
    const rfbBool isDirect =
        truth(f->trueColour && !f->bigEndian && f->bitsPerPixel == 32);
    const rfbBool isOfBytes =
        truth(f->redMax == 255 && f->greenMax == 255 && f->blueMax == 255);
    const rfbBool isInPlace =
        truth(f->redShift == 16 && f->greenShift == 8 && f->blueShift == 0);
    const rfbBool isAligned = truth((uintptr_t)first % sizeof(uint32_t) == 0);
    const rfbBool isWide = truth(r.x1 == 0 && r.x2 == s->width &&
                                 s->paddedWidthInBytes == 4 * s->width);
    return truth(isDirect && isOfBytes && isInPlace && isAligned && isWide);
}

/* Takes a rectangle that lies on the screen by comparing it: how many places
 * changed, or a vnc_code. */
static int64_t compare_rect(rfbScreenInfoPtr s, sraRect r, const uint8_t *first)
{
    const rfbPixelFormat *f = &s->serverFormat;
    const size_t bytes = f->bitsPerPixel / 8u;
    const size_t stride = (size_t)s->paddedWidthInBytes;
    const uint32_t width = (uint32_t)(r.x2 - r.x1);
    const uint32_t height = (uint32_t)(r.y2 - r.y1);
    const size_t count = (height - 1) * stride + width * bytes;
    const vnc_pixel_format format = {(uint32_t)bytes, f->bigEndian,
                                     f->redMax,       f->greenMax,
                                     f->blueMax,      f->redShift,
                                     f->greenShift,   f->blueShift};
    uint32_t table[256] = {0};
    if (f->trueColour)
        return vnc_server_update_from(s->compat->server, (uint32_t)r.x1,
                                      (uint32_t)r.y1, width, height, first,
                                      count, stride, &format, 1, NULL, 0);
    if (bytes != 1) return VNC_ERROR_BAD_FORMAT;
    fill_table(&s->colourMap, table);
    return vnc_server_update_from(s->compat->server, (uint32_t)r.x1,
                                  (uint32_t)r.y1, width, height, first, count,
                                  stride, NULL, 0, table, 256);
}

/* Takes a rectangle that lies on the screen: 0 or more, or a vnc_code. Where
 * nearly all of one differed twice in turn, it is painted the next times
 * without being compared, as what moves goes on moving. */
static int64_t take_rect(rfbScreenInfoPtr s, sraRect r)
{
    struct rfbCompat *c = s->compat;
    const size_t bytes = s->serverFormat.bitsPerPixel / 8u;
    const uint8_t *first = (const uint8_t *)s->frameBuffer +
                           (size_t)r.y1 * (size_t)s->paddedWidthInBytes +
                           (size_t)r.x1 * bytes;
    const int64_t all = (int64_t)(r.x2 - r.x1) * (r.y2 - r.y1);
    const rfbBool isSame = truth(memcmp(&r, &c->dense, sizeof r) == 0);
    rfbBool isDense;
    int64_t places;
    if (c->uncompared > 0 && isSame && are_colours(s, r, first)) {
        c->uncompared--;
        return vnc_server_paint(c->server, r.x1, r.y1, r.x2, r.y2,
                                (const uint32_t *)(const void *)first,
                                (size_t)all);
    }
    places = compare_rect(s, r, first);
    isDense = truth(places >= all / 8 * 7 && all >= MANY);
    if (isDense || isSame) {
        c->uncompared = isDense && isSame ? UNCOMPARED : 0;
        c->dense = isDense ? r : rect_of(0, 0, 0, 0);
    }
    return places;
}

/* Joins a rectangle to the marks. */
static void add_mark(struct rfbCompat *c, sraRect r)
{
    const rfbBool isFull = truth(c->marks == MOST_MARKS);
    for (int k = 0; k < c->marks; k++) {
        const sraRect m = c->marked[k];
        const sraRect both =
            rect_of(smaller(r.x1, m.x1), smaller(r.y1, m.y1),
                    larger(r.x2, m.x2), larger(r.y2, m.y2));
        if (memcmp(&both, &m, sizeof m) == 0) return;
        if (isFull) r = both; /* which becomes the one around all */
    }
    if (isFull) c->marks = 0;
    c->marked[c->marks++] = r;
}

/* Marks what of a rectangle lies on the screen, its corners in any order. */
static void mark(rfbScreenInfoPtr s, int x1, int y1, int x2, int y2)
{
    const sraRect r = rect_of(larger(smaller(x1, x2), 0),
                              larger(smaller(y1, y2), 0),
                              smaller(larger(x1, x2), s->width),
                              smaller(larger(y1, y2), s->height));
    if (!s->clientHead || r.x1 >= r.x2 || r.y1 >= r.y2) return;
    if (r.x2 - r.x1 == s->width && r.y2 - r.y1 == s->height)
        s->isWritten = FALSE; /* as all is taken */
    add_mark(s->compat, r);
    if (s->compat->waiting) wake(s);
}

static rfbBool has_size(rfbScreenInfoPtr s)
{
    return truth(vnc_server_width(s->compat->server) == s->width &&
                 vnc_server_height(s->compat->server) == s->height);
}

/* Gives the picture the screen's width and height. What was marked before they
 * changed is no more: all is. Where a size is refused the server ends with this
 * turn. */
static void follow_size(rfbScreenInfoPtr s)
{
    struct rfbCompat *c = s->compat;
    int32_t code = VNC_ERROR_BAD_SIZE;
    if (!c->server || c->isEnding || has_size(s)) return;
    if (s->width > 0 && s->height > 0)
        code = vnc_server_new_framebuffer(c->server, (uint32_t)s->width,
                                          (uint32_t)s->height);
    if (code < 0) {
        rfbErr("a screen of %d by %d: the server ends: %s\n", s->width,
               s->height, vnc_code_text(code));
        fail(s);
    }
    for (rfbClientPtr cl = s->clientHead; cl; cl = cl->next)
        cl->newFBSizePending = FALSE;
    c->marks = 0;
    mark(s, 0, 0, s->width, s->height);
}

/* Takes what is marked. Where memory is refused the rest stays marked. */
static void take_marks(rfbScreenInfoPtr s)
{
    struct rfbCompat *c = s->compat;
    follow_size(s);
    for (; c->marks > 0; c->marks--) {
        int64_t code = 0;
        if (c->server && !c->isEnding && s->frameBuffer)
            code = take_rect(s, c->marked[c->marks - 1]);
        if (code == VNC_ERROR_NO_MEMORY) return;
        if (code < 0)
            rfbErr("frameBuffer can't be taken: %s\n",
                   vnc_code_text((int32_t)code));
    }
}

void rfbMarkRectAsModified(rfbScreenInfoPtr s, int x1, int y1, int x2, int y2)
{
    lock(s);
    mark(s, x1, y1, x2, y2);
    unlock(s);
}

void rfbMarkRegionAsModified(rfbScreenInfoPtr s, sraRegionPtr r)
{
    for (size_t k = 0; k < r->count; k++)
        rfbMarkRectAsModified(s, r->at[k].x1, r->at[k].y1, r->at[k].x2,
                              r->at[k].y2);
}

/* ---- copies ---- */

/* Copies one rectangle of the picture, or marks where it came to. */
static void copy_picture(rfbScreenInfoPtr s, sraRect r, int dx, int dy,
                         rfbBool isStale)
{
    int32_t code = 0;
    if (s->clientHead && s->compat->server)
        code = vnc_server_do_copy_rect(s->compat->server, r.x1, r.y1, r.x2,
                                       r.y2, dx, dy);
    if (isStale || code < 0) mark(s, r.x1, r.y1, r.x2, r.y2);
}

static void copy(rfbScreenInfoPtr s, const sraRect *to, size_t count, int dx,
                 int dy, rfbBool isMoved)
{
    rfbBool isStale;
    if (!s->frameBuffer) return;
    if (dx <= -s->width || dx >= s->width) return;
    if (dy <= -s->height || dy >= s->height) return;
    lock(s);
    if (!isMoved) {
        take_marks(s);
        rfbCopyPixels(s, to, count, dx, dy);
    }
    isStale = truth(count > 1 || s->compat->marks > 0 || s->isWritten);
    for (size_t k = 0; k < count; k++)
        copy_picture(s, rfbCopied(s, to[k], dx, dy), dx, dy, isStale);
    unlock(s);
}

void rfbDoCopyRegion(rfbScreenInfoPtr s, sraRegionPtr r, int dx, int dy)
{
    copy(s, r->at, r->count, dx, dy, FALSE);
}

void rfbScheduleCopyRegion(rfbScreenInfoPtr s, sraRegionPtr r, int dx, int dy)
{
    copy(s, r->at, r->count, dx, dy, TRUE);
}

void rfbDoCopyRect(rfbScreenInfoPtr s, int x1, int y1, int x2, int y2, int dx,
                   int dy)
{
    const sraRect to = rect_of(x1, y1, x2, y2);
    copy(s, &to, 1, dx, dy, FALSE);
}

void rfbScheduleCopyRect(rfbScreenInfoPtr s, int x1, int y1, int x2, int y2,
                         int dx, int dy)
{
    const sraRect to = rect_of(x1, y1, x2, y2);
    copy(s, &to, 1, dx, dy, TRUE);
}

/* Sends all a text, or where there is none, a bell. */
static void send_all(rfbScreenInfoPtr s, const char *text, size_t length)
{
    vnc_server *server;
    int32_t code = 0;
    lock(s);
    server = s->compat->server;
    if (server && text)
        code = vnc_server_cut_text(server, (const uint8_t *)text, length);
    else if (server) code = vnc_server_bell(server);
    if (code < 0)
        rfbErr("a text or a bell is not sent: %s\n", vnc_code_text(code));
    wake(s);
    unlock(s);
}

void rfbSendBell(rfbScreenInfoPtr s) { send_all(s, NULL, 0); }

void rfbSendServerCutText(rfbScreenInfoPtr s, char *text, int len)
{
    if (text && len >= 0) send_all(s, text, (size_t)len);
}

/* ---- clients; the lock is held ---- */

void rfbCloseClient(rfbClientPtr cl)
{
    lock(cl->screen);
    cl->isClosing = TRUE;
    wake(cl->screen);
    unlock(cl->screen);
}

static rfbClientPtr client_of(rfbClientPtr cl, uint64_t number)
{
    while (cl && cl->number != number) cl = cl->next;
    return cl;
}

/* Lets a viewer go. Where that is refused, nobody is served any more. */
static void let_go(rfbScreenInfoPtr s, uint64_t number)
{
    const int32_t code = vnc_server_close_viewer(s->compat->server, number);
    if (code < 0 && code != VNC_ERROR_NO_VIEWER) fail(s);
}

/* Notes that a client is gone. Where the layer has its connection that ends, so
 * that a program which waits for it looks. */
static void note_gone(rfbClientPtr cl)
{
    cl->isGone = TRUE;
    if (cl->connection < 0) {
        cl->sock = RFB_INVALID_SOCKET;
        return;
    }
    rfbDoorForget(&cl->screen->compat->door, cl->connection);
    shutdown(cl->connection, SHUT_RDWR);
}

/* Lets a client out of somebody's hands: it is freed with the last that held
 * it, once it was parted with. */
static void drop(rfbClientPtr cl)
{
    rfbScreenInfoPtr s = cl->screen;
    rfbClientPtr *at = &s->clientHead;
    if (--cl->holds > 0) return;
    if (!cl->isParted) {
        if (cl->isGone && !cl->isDriven) wake(s); /* a turn parts with it */
        return;
    }
    while (*at && *at != cl) at = &(*at)->next;
    if (*at) *at = cl->next;
    s->compat->clients--;
    free(cl);
}

/* Closes what the layer has of a client's sockets. */
static void close_sockets(struct rfbDoor *door, rfbClientPtr cl)
{
    rfbDoorForget(door, cl->connection);
    if (cl->connection >= 0) close(cl->connection);
    if (cl->lookout >= 0) close(cl->lookout);
    cl->connection = cl->lookout = cl->sock = RFB_INVALID_SOCKET;
}

/* Parts with a client that is gone: calls its hook, once, and frees it, or
 * leaves that to who holds it. */
static void part(rfbScreenInfoPtr s, rfbClientPtr cl)
{
    const rfbBool isFirst = truth(!cl->isParted);
    cl->isGone = cl->isParted = TRUE;
    close_sockets(&s->compat->door, cl);
    if (s->pointerClient == cl) s->pointerClient = NULL;
    cl->holds++;
    if (isFirst) s->compat->went++;
    s->compat->parting++;
    if (isFirst && cl->clientGoneHook) cl->clientGoneHook(cl);
    s->compat->parting--;
    drop(cl);
}

/* Writes down where a client comes from. */
static void name_host(rfbClientPtr cl, const struct sockaddr_storage *from)
{
    const void *at = from->ss_family == AF_INET6
        ? (const void *)&((const struct sockaddr_in6 *)from)->sin6_addr
        : (const void *)&((const struct sockaddr_in *)from)->sin_addr;
    cl->host = cl->address;
    if (!inet_ntop(from->ss_family, at, cl->address, sizeof cl->address))
        strcpy(cl->address, "unknown");
}

static void nothing_of_client(rfbClientPtr cl) { (void)cl; }

/* A client of a connection that came: NULL where memory is refused. */
static rfbClientPtr new_client(rfbScreenInfoPtr s, int connection,
                               const struct sockaddr_storage *from,
                               rfbBool isDriven)
{
    rfbClientPtr cl = (rfbClientPtr)calloc(1, sizeof *cl);
    if (!cl) return NULL;
    cl->screen = s;
    cl->isDriven = isDriven;
    cl->connection = connection;
    cl->lookout = isDriven ? rfbLookoutNew(connection) : RFB_INVALID_SOCKET;
    cl->sock = cl->lookout >= 0 ? cl->lookout : connection;
    cl->state = STATE(RFB_PROTOCOL_VERSION);
    cl->clientGoneHook = nothing_of_client;
    name_host(cl, from);
    cl->next = s->clientHead;
    s->clientHead = cl;
    s->compat->clients++;
    s->compat->came++;
    return cl;
}

/* Asks the program what becomes of a connection that came. */
static void come(rfbScreenInfoPtr s, int connection,
                 const struct sockaddr_storage *from, rfbBool isDriven)
{
    enum rfbNewClientAction action = RFB_CLIENT_ACCEPT;
    rfbClientPtr cl = new_client(s, connection, from, isDriven);
    if (!cl) {
        close(connection);
        return;
    }
    cl->holds++;
    cl->isAskedOf = TRUE;
    if (s->newClientHook) action = s->newClientHook(cl);
    cl->isAskedOf = FALSE;
    if (cl->connection >= 0 && action == RFB_CLIENT_REFUSE) part(s, cl);
    cl->onHold = truth(action == RFB_CLIENT_ON_HOLD);
    if (cl->connection >= 0 && cl->onHold)
        rfbDoorWatch(&s->compat->door, cl->connection);
    drop(cl);
}

/* Whether somebody is served. */
static rfbBool is_watched(rfbScreenInfoPtr s)
{
    for (rfbClientPtr cl = s->clientHead; cl; cl = cl->next)
        if (cl->hasAsked && !cl->isGone) return TRUE;
    return FALSE;
}

/* Asks the program of those that came, while there is room. Where somebody is
 * served it is one in a turn. */
static void accept_some(rfbScreenInfoPtr s, rfbBool isDriven)
{
    struct rfbCompat *c = s->compat;
    const rfbBool isBusy = is_watched(s);
    struct sockaddr_storage from;
    for (int k = 0; k < (isBusy ? 1 : MOST_ACCEPTED); k++) {
        int connection = -1;
        if (c->clients < MOST_VIEWERS)
            connection = rfbDoorNext(&c->door, isBusy, &from);
        if (connection < 0) break;
        come(s, connection, &from, isDriven);
    }
    rfbDoorFill(&c->door, truth(c->clients >= MOST_VIEWERS));
}

/* Whether a client's connection waits for the server. */
static rfbBool is_waiting(rfbClientPtr cl)
{
    return truth(cl->number == 0 && !cl->isAskedOf && !cl->isClosing &&
                 !cl->isGone);
}

/* The descriptor that the server is to have of a client's connection: where
 * the program drives sockets it is another of the same. */
static int descriptor_for_server(rfbClientPtr cl)
{
    const int connection = cl->connection;
    if (cl->isDriven) return fcntl(connection, F_DUPFD_CLOEXEC, 0);
    cl->connection = RFB_INVALID_SOCKET;
    return connection;
}

/* Gives the server a client's connection, and takes frameBuffer, also what was
 * never marked. */
static void admit(rfbScreenInfoPtr s, rfbClientPtr cl)
{
    struct rfbCompat *c = s->compat;
    int64_t code = VNC_ERROR_CANNOT_ADOPT;
    int fd;
    rfbDoorForget(&c->door, cl->connection);
    rfbLookoutRest(cl->lookout, cl->connection);
    cl->sock = cl->connection;
    cl->state = STATE(RFB_INITIALISATION);
    fd = descriptor_for_server(cl);
    if (fd >= 0) code = vnc_server_adopt(c->server, fd);
    if (code == VNC_ERROR_BAD_SOCKET) close(fd); /* it has left */
    else if (code < 0)
        rfbErr("a viewer of %s is not served: %s\n", cl->host,
               vnc_code_text((int32_t)code));
    if (code < 0) {
        note_gone(cl);
        return;
    }
    cl->number = (uint64_t)code;
    mark(s, 0, 0, s->width, s->height);
    take_marks(s);
}

static void admit_some(rfbScreenInfoPtr s)
{
    for (rfbClientPtr cl = s->clientHead; cl; cl = cl->next)
        if (is_waiting(cl) && !cl->onHold) admit(s, cl);
}

/* Lets go those that are to be closed. */
static void close_some(rfbScreenInfoPtr s)
{
    for (rfbClientPtr cl = s->clientHead; cl; cl = cl->next) {
        if (!cl->isClosing || cl->isLetGo || cl->isGone) continue;
        cl->isLetGo = TRUE;
        if (cl->number) let_go(s, cl->number);
        else note_gone(cl);
    }
}

/* The client that came first of those whose opening is over since the last
 * turn, or NULL. */
static rfbClientPtr opened_first(rfbScreenInfoPtr s)
{
    rfbClientPtr first = NULL;
    for (rfbClientPtr cl = s->clientHead; cl; cl = cl->next)
        if (!cl->isOpen && !cl->isClosing && !cl->isGone &&
            vnc_server_is_open(s->compat->server, cl->number) == 1)
            first = cl; /* as the newest stands first */
    return first;
}

/* Has a client that is open now, and doesn't share, be alone: closes the
 * others, or where dontDisconnect is set, itself. */
static void share(rfbScreenInfoPtr s, rfbClientPtr cl)
{
    vnc_settings set;
    cl->isOpen = TRUE;
    cl->state = STATE(RFB_NORMAL);
    if (vnc_server_settings(s->compat->server, cl->number, &set) < 0) return;
    if (!s->neverShared && (s->alwaysShared || set.shared)) return;
    for (rfbClientPtr it = s->clientHead; it; it = it->next)
        if (it != cl && it->isOpen && !it->isClosing && !it->isGone)
            (s->dontDisconnect ? cl : it)->isClosing = TRUE;
}

/* Notes which clients have asked for all; where one did in this turn, takes
 * frameBuffer, also what was never marked. */
static void note_requests(rfbScreenInfoPtr s)
{
    struct rfbCompat *c = s->compat;
    const int64_t asked = vnc_server_full_request_count(c->server);
    vnc_settings set;
    if (asked <= c->asked) return;
    for (rfbClientPtr cl = s->clientHead; cl; cl = cl->next)
        if (!cl->hasAsked &&
            vnc_server_settings(c->server, cl->number, &set) == 0)
            cl->hasAsked = truth(set.full_requests > 0);
    c->asked = asked;
    mark(s, 0, 0, s->width, s->height);
    take_marks(s);
}

/* Fetches inputs from the library, as many as there is room for: where the ring
 * isn't full then, none wait there. */
static void hear(rfbScreenInfoPtr s)
{
    struct rfbCompat *c = s->compat;
    struct heard next;
    while (c->inputs < MOST_HEARD &&
           vnc_server_next_inputs(c->server, &next.in, 1) > 0) {
        const size_t length = (size_t)next.in.length;
        next.text = NULL;
        if (next.in.kind == VNC_INPUT_TEXT)
            next.text = (char *)calloc(length + 1, 1);
        if (next.text)
            vnc_server_text(c->server, (uint8_t *)next.text, length);
        if (next.in.kind == VNC_INPUT_TEXT && !next.text)
            rfbErr("a viewer's text is lost: out of memory\n");
        else if (next.in.kind == VNC_INPUT_TEXT && next.in.shortened)
            rfbErr("a viewer's text is cut behind %zu bytes\n", length);
        c->heard[(c->first + c->inputs) % MOST_HEARD] = next;
        c->inputs++;
    }
}

/* Whether a viewer may have inputs to be told. */
static rfbBool is_heard(struct rfbCompat *c, uint64_t viewer)
{
    for (int k = 0; k < c->inputs; k++)
        if (c->heard[(c->first + k) % MOST_HEARD].in.viewer == viewer)
            return TRUE;
    return truth(c->inputs == MOST_HEARD);
}

/* Tells the program's hook an input. While a client holds a button down, and
 * doesn't only look, the pointer is its alone. */
static void tell(rfbScreenInfoPtr s, rfbClientPtr cl, const struct heard *heard)
{
    const vnc_input *in = &heard->in;
    const rfbBool isAnothers =
        truth(s->pointerClient && s->pointerClient != cl &&
              !s->pointerClient->viewOnly);
    if (in->kind == VNC_INPUT_POINTER && !isAnothers) {
        s->pointerClient = in->buttons ? cl : NULL;
        if (s->ptrAddEvent)
            s->ptrAddEvent((int)in->buttons, (int)in->x, (int)in->y, cl);
    }
    if (in->kind == VNC_INPUT_KEY && s->kbdAddEvent)
        s->kbdAddEvent(in->down ? 1 : 0, in->key, cl);
    if (heard->text && s->setXCutText)
        s->setXCutText(heard->text, (int)in->length, cl);
}

/* Takes the next input out of the ring, and tells it: whether there was one. */
static rfbBool tell_next(rfbScreenInfoPtr s)
{
    struct rfbCompat *c = s->compat;
    const struct heard next = c->heard[c->first];
    rfbClientPtr cl;
    if (c->inputs == 0) return FALSE;
    c->first = (c->first + 1) % MOST_HEARD;
    c->inputs--;
    hear(s);
    cl = client_of(s->clientHead, next.in.viewer);
    if (cl && !cl->isClosing && !cl->isParted && !cl->viewOnly)
        tell(s, cl, &next);
    free(next.text);
    return TRUE;
}

/* Ends the server: nobody is served any more, and what waits is freed. */
static void end_server(rfbScreenInfoPtr s)
{
    struct rfbCompat *c = s->compat;
    if (c->server &&
        vnc_server_record_state(c->server) == VNC_RECORD_BROKEN)
        rfbErr("the record %s has ended before its session\n", s->record);
    vnc_waker_free(c->waker);
    c->waker = NULL;
    vnc_server_free(c->server);
    c->server = NULL;
    rfbDoorClose(&c->door);
    for (; c->inputs > 0; c->inputs--)
        free(c->heard[(c->first + c->inputs - 1) % MOST_HEARD].text);
    for (rfbClientPtr cl = s->clientHead; cl; cl = cl->next) cl->number = 0;
    s->listenSock = RFB_INVALID_SOCKET;
    s->maxFd = 0;
    FD_ZERO(&s->allFds);
}

/* A client to part with: one that is gone, that nobody holds, and that has no
 * inputs to be told. */
static rfbClientPtr next_to_part(rfbScreenInfoPtr s)
{
    struct rfbCompat *c = s->compat;
    for (rfbClientPtr cl = s->clientHead; cl; cl = cl->next)
        if (cl->isGone && cl->holds == 0 &&
            (c->isEnding || !is_heard(c, cl->number)))
            return cl;
    return NULL;
}

/* Parts with those that are gone, unless that is left to the program, and ends
 * the server where it is to end. */
static void settle(rfbScreenInfoPtr s, rfbBool parts)
{
    struct rfbCompat *c = s->compat;
    rfbClientPtr cl;
    if (c->isEnding) {
        s->socketState = RFB_SOCKET_SHUTDOWN;
        for (cl = s->clientHead; cl; cl = cl->next)
            if (!cl->isGone) note_gone(cl);
    }
    while (parts && (cl = next_to_part(s))) part(s, cl);
    if (c->clients < MOST_VIEWERS) rfbDoorFill(&c->door, FALSE);
    if (s->socketState != RFB_SOCKET_SHUTDOWN) return;
    rfbDoorShut(&c->door);
    if (!s->clientHead || c->isEnding) end_server(s);
}

/* ---- iterators ---- */

struct rfbClientIterator {
    rfbScreenInfoPtr screen;
    rfbClientPtr at;
};

rfbClientIteratorPtr rfbGetClientIterator(rfbScreenInfoPtr s)
{
    rfbClientIteratorPtr i = (rfbClientIteratorPtr)calloc(1, sizeof *i);
    if (i) i->screen = s;
    return i;
}

rfbClientPtr rfbClientIteratorNext(rfbClientIteratorPtr i)
{
    rfbClientPtr next;
    if (!i) return NULL;
    lock(i->screen);
    next = i->at ? i->at->next : i->screen->clientHead;
    while (next && (next->isClosing || next->isGone)) next = next->next;
    if (next) next->holds++;
    if (i->at) drop(i->at);
    i->at = next;
    unlock(i->screen);
    return next;
}

void rfbReleaseClientIterator(rfbClientIteratorPtr i)
{
    if (!i) return;
    lock(i->screen);
    if (i->at) drop(i->at);
    unlock(i->screen);
    free(i);
}

/* ---- turns ---- */

/* What asks for protection that isn't here, or NULL. */
static const char *protection_of(rfbScreenInfoPtr s)
{
    return s->authPasswdData ? "authPasswdData is set" : s->promise;
}

/* Whether protection is wanted that isn't here, which is said. */
static rfbBool is_refused(rfbScreenInfoPtr s)
{
    const char *what = protection_of(s);
    if (what)
        rfbErr("%s: there are no passwords and no TLS here, so the screen is "
               "not served\n",
               what);
    return truth(what != NULL);
}

/* Notes who left, by what the library says; and where that was lost, by whom it
 * has. */
static void note_events(rfbScreenInfoPtr s)
{
    struct rfbCompat *c = s->compat;
    const int64_t lost = vnc_server_lost_count(c->server);
    vnc_event event;
    rfbClientPtr cl;
    while (vnc_server_next_events(c->server, &event, 1) > 0) {
        cl = client_of(s->clientHead, event.viewer);
        if (cl && event.kind == VNC_EVENT_DISCONNECTED) note_gone(cl);
    }
    for (cl = s->clientHead; cl && lost > c->lost; cl = cl->next)
        if (cl->number && !cl->isGone &&
            vnc_server_is_open(c->server, cl->number) == VNC_ERROR_NO_VIEWER)
            note_gone(cl);
    c->lost = lost;
}

/* Takes what is marked, and a turn of the library's, and sees to what came of
 * it, and to who comes. */
static void take_turn(rfbScreenInfoPtr s, rfbBool isDriven)
{
    rfbClientPtr cl;
    int32_t code;
    take_marks(s);
    close_some(s);
    code = vnc_server_process_events(s->compat->server, 0);
    if (code < 0) {
        rfbErr("a turn ended early: %s\n", vnc_code_text(code));
        poll(NULL, 0, 10);
    }
    note_events(s);
    while ((cl = opened_first(s))) share(s, cl);
    note_requests(s);
    hear(s);
    accept_some(s, isDriven);
    admit_some(s);
    note_events(s);
}

/* Takes a turn of the library's, unless many inputs wait: then no more are
 * heard, and viewers' sockets hold them back. Tells a hook an input, or hooks
 * all: whether one was told. */
static rfbBool serve(rfbScreenInfoPtr s, rfbBool isDriven)
{
    rfbBool hasTold = FALSE;
    const rfbBool tellsAll = truth(s->handleEventsEagerly || isDriven);
    if (s->compat->inputs < FEW_HEARD) take_turn(s, isDriven);
    while ((!hasTold || tellsAll) && tell_next(s)) hasTold = TRUE;
    return hasTold;
}

/* For how long a turn may wait for the sake of those that the server hasn't. */
static int wait_of_waiting(rfbScreenInfoPtr s)
{
    int most = LONGEST;
    for (rfbClientPtr cl = s->clientHead; cl; cl = cl->next)
        if (is_waiting(cl)) most = smaller(most, cl->onHold ? HOLD_LOOK : 0);
    return most;
}

/* For how long a turn may wait that is to wait so many milliseconds at most. */
static int wait_of(rfbScreenInfoPtr s, int ms)
{
    struct rfbCompat *c = s->compat;
    int most = LONGEST;
    /* an iterator stands there, or a loop has to see that it has ended */
    if (!c->server && (s->clientHead || ms < 0)) most = 10;
    if (ms < 0) ms = LONGEST;
    if (!c->server) return smaller(ms, most);
    if (c->isEnding || c->inputs > 0) return 0;
    if (c->marks) most = larger(s->deferUpdateTime, 0);
    most = smaller(most, wait_of_waiting(s));
    return smaller(ms, smaller(larger(vnc_server_timeout(c->server), 0), most));
}

/* Notes that a descriptor was ready: where it is a connection that waits for
 * the server, that has ended. */
static void note_ready(rfbScreenInfoPtr s, int ready)
{
    struct rfbCompat *c = s->compat;
    if (!c->server ||
        rfbDoorNote(&c->door, vnc_server_fd(c->server), ready))
        return;
    for (rfbClientPtr cl = s->clientHead; cl; cl = cl->next)
        if (cl->connection == ready && is_waiting(cl)) note_gone(cl);
}

/* Waits until there is something to do, without the lock, for so many
 * milliseconds at most: whether a socket was ready. */
static rfbBool wait_for(rfbScreenInfoPtr s, int ms)
{
    struct rfbCompat *c = s->compat;
    int ready[MOST_READY], count, all;
    c->waiting++;
    ms = wait_of(s, ms);
    all = c->door.all;
    unlock(s);
    count = rfbDoorWait(all, ms, ready, MOST_READY);
    lock(s);
    c->waiting--;
    for (int k = 0; k < count; k++) note_ready(s, ready[k]);
    return truth(count > 0);
}

/* Takes one turn, which waits so many milliseconds at most, for a program that
 * drives sockets itself or not: what rfbProcessEvents answers. */
static rfbBool turn(rfbScreenInfoPtr s, int ms, rfbBool isDriven)
{
    struct rfbCompat *c = s->compat;
    rfbBool isReady, isDue = FALSE, hasTold = FALSE;
    uint64_t went;
    lock(s);
    c->depth++;
    isReady = wait_for(s, ms);
    went = c->went;
    if (c->server && is_refused(s)) fail(s);
    if (c->server && !c->isEnding) {
        isDue = truth(is_watched(s) && (c->marks > 0 || isReady ||
                                        vnc_server_timeout(c->server) == 0));
        hasTold = serve(s, isDriven);
    }
    if (c->depth == 1) settle(s, truth(!isDriven));
    if (c->went != went) isDue = TRUE;
    /* A program that waits by itself takes the next turn at once. */
    if (c->depth == 1 && c->server && !c->hasLooper && wait_of(s, -1) == 0)
        wake(s);
    c->depth--;
    unlock(s);
    return truth(isDue && !hasTold);
}

static int ms_of(rfbScreenInfoPtr s, long usec)
{
    if (usec < 0) return s->deferUpdateTime;
    return usec < 1000L * LONGEST ? (int)((usec + 999) / 1000) : LONGEST;
}

rfbBool rfbProcessEvents(rfbScreenInfoPtr s, long usec)
{
    return turn(s, ms_of(s, usec), FALSE);
}

/* ---- a program that drives sockets itself ---- */

rfbBool rfbProcessNewConnection(rfbScreenInfoPtr s)
{
    uint64_t came;
    lock(s);
    came = s->compat->came;
    turn(s, 0, TRUE);
    came = s->compat->came - came;
    unlock(s);
    return truth(came > 0);
}

/* Takes a turn for a client. Where that has left, its sock says so then. */
static rfbBool drive(rfbClientPtr cl)
{
    rfbScreenInfoPtr s = cl->screen;
    rfbBool isDue;
    lock(s);
    cl->holds++;
    isDue = turn(s, 0, TRUE);
    if (cl->isGone) cl->sock = RFB_INVALID_SOCKET;
    drop(cl);
    unlock(s);
    return isDue;
}

/* Of a client on hold there is nothing to process: its sock is its connection
 * from then on, and the program is to say what becomes of it. */
void rfbProcessClientMessage(rfbClientPtr cl)
{
    lock(cl->screen);
    if (cl->onHold && is_waiting(cl)) {
        cl->state = STATE(RFB_INITIALISATION);
        cl->sock = cl->connection;
    }
    unlock(cl->screen);
    drive(cl);
}

rfbBool rfbUpdateClient(rfbClientPtr cl) { return drive(cl); }

void rfbStartOnHoldClient(rfbClientPtr cl)
{
    lock(cl->screen);
    cl->onHold = FALSE;
    wake(cl->screen);
    unlock(cl->screen);
}

void rfbClientConnectionGone(rfbClientPtr cl)
{
    rfbScreenInfoPtr s = cl->screen;
    lock(s);
    if (!cl->isParted) {
        if (s->compat->server && cl->number && !cl->isGone)
            let_go(s, cl->number);
        note_gone(cl);
        part(s, cl);
    }
    wake(s);
    unlock(s);
}

void rfbRefuseOnHoldClient(rfbClientPtr cl)
{
    rfbClientConnectionGone(cl);
}

/* ---- loops ---- */

rfbBool rfbIsActive(rfbScreenInfoPtr s)
{
    rfbBool isActive;
    lock(s);
    /* 1, as in LibVNCServer */
    isActive = s->socketState != RFB_SOCKET_SHUTDOWN || s->clientHead != NULL;
    unlock(s);
    return isActive;
}

static rfbBool is_over(rfbScreenInfoPtr s)
{
    rfbBool isOver;
    lock(s);
    isOver = truth(s->compat->isEnding ||
                   (s->socketState == RFB_SOCKET_SHUTDOWN && !s->clientHead));
    if (isOver) s->compat->isLooping = FALSE;
    unlock(s);
    return isOver;
}

static void *loop(void *at)
{
    rfbScreenInfoPtr s = (rfbScreenInfoPtr)at;
    const long usec = s->compat->usec;
    while (!is_over(s)) turn(s, usec < 0 ? -1 : ms_of(s, usec), FALSE);
    return NULL;
}

/* Has a thread take turns, unless one does still. One that has ended, as the
 * server had, is joined first: it takes the lock no more. */
static void start_looper(rfbScreenInfoPtr s)
{
    struct rfbCompat *c = s->compat;
    if (c->hasLooper && c->isLooping) return;
    if (c->hasLooper) pthread_join(c->looper, NULL);
    c->hasLooper = c->isLooping =
        truth(pthread_create(&c->looper, NULL, loop, s) == 0);
    if (!c->hasLooper) rfbErr("rfbRunEventLoop: no thread\n");
}

void rfbRunEventLoop(rfbScreenInfoPtr s, long usec, rfbBool runInBackground)
{
    lock(s);
    s->compat->usec = usec;
    if (runInBackground) start_looper(s);
    unlock(s);
    if (!runInBackground) loop(s);
}

/* ---- beginning and end ---- */

static void make_lock(pthread_mutex_t *made)
{
    pthread_mutexattr_t recursive;
    pthread_mutexattr_init(&recursive);
    pthread_mutexattr_settype(&recursive, PTHREAD_MUTEX_RECURSIVE);
    pthread_mutex_init(made, &recursive);
    pthread_mutexattr_destroy(&recursive);
}

static void nothing_of_key(rfbBool down, rfbKeySym key, rfbClientPtr cl)
{
    (void)down, (void)key, (void)cl;
}

static void nothing_of_text(char *text, int length, rfbClientPtr cl)
{
    (void)text, (void)length, (void)cl;
}

static enum rfbNewClientAction accept_client(rfbClientPtr cl)
{
    (void)cl;
    return RFB_CLIENT_ACCEPT;
}

static void set_defaults(rfbScreenInfoPtr s)
{
    s->whitePixel = 0xffffffff;
    s->port = s->ipv6port = FIRST_PORT;
    s->listenSock = s->listen6Sock = RFB_INVALID_SOCKET;
    s->listenInterface = htonl(INADDR_ANY);
    s->deferUpdateTime = 5;
    s->desktopName = "LibVNCServer";
    s->ptrAddEvent = rfbDefaultPtrAddEvent;
    s->kbdAddEvent = nothing_of_key;
    s->setXCutText = nothing_of_text;
    s->newClientHook = accept_client;
}

rfbScreenInfoPtr rfbGetScreen(int *argc, char **argv, int width, int height,
                              int bitsPerSample, int samplesPerPixel,
                              int bytesPerPixel)
{
    rfbScreenInfoPtr s =
        (rfbScreenInfoPtr)calloc(1, sizeof *s + sizeof *s->compat);
    if (!s) return NULL;
    if (!rfbSetFormat(s, width, height, bitsPerSample, samplesPerPixel,
                    bytesPerPixel)) {
        free(s);
        return NULL;
    }
    s->compat = (struct rfbCompat *)(s + 1);
    make_lock(&s->compat->lock);
    pthread_mutex_init(&s->cursorMutex, NULL);
    rfbDoorInit(&s->compat->door);
    set_defaults(s);
    if (rfbProcessArguments(s, argc, argv)) return s;
    rfbScreenCleanup(s);
    return NULL;
}

/* Says why nobody is served, which for the system is `error`. */
static void say_refusal(rfbScreenInfoPtr s, int32_t code, int error)
{
    const rfbBool isSystem = truth(error && (code == VNC_ERROR_NETWORK ||
                                             code == VNC_ERROR_CANNOT_RECORD));
    const char *why = isSystem ? strerror(error) : vnc_code_text(code);
    if (code == VNC_ERROR_CANNOT_RECORD)
        rfbErr("the record %s can't be made: %s\n", s->record, why);
    rfbErr("nobody is served on port %d: %s\n", s->port, why);
}

/* Makes a server, which listens nowhere: 0, or why not, which is said. */
static int32_t make_server(rfbScreenInfoPtr s)
{
    struct rfbCompat *c = s->compat;
    const rfbBool isOther = truth(vnc_server_abi() != VNC_SERVER_ABI);
    vnc_server *server =
        isOther ? NULL : (vnc_server *)malloc(vnc_server_size());
    int32_t code = isOther ? VNC_ERROR_VERSION : VNC_ERROR_NO_MEMORY;
    char name[256] = "";
    errno = 0;
    if (s->desktopName) strncpy(name, s->desktopName, sizeof name - 1);
    if (server) {
        vnc_server_init(server);
        code = vnc_server_record(server, s->record ? s->record : "");
    }
    if (code == 0)
        code = vnc_server_serve(server, (uint32_t)s->width, (uint32_t)s->height,
                                name, MOST_VIEWERS);
    if (code == 0) {
        c->server = server;
        return 0;
    }
    say_refusal(s, code, errno);
    vnc_server_free(server);
    return code;
}

/* Makes the server's waker: 0, or why not, which is said. */
static int32_t make_waker(struct rfbCompat *c)
{
    int32_t code = vnc_waker_new(c->server, &c->waker);
    if (code == 0) code = vnc_waker_wake(c->waker); /* whether it is one */
    if (code < 0)
        rfbErr("nobody is served: no waker: %s\n", vnc_code_text(code));
    return code;
}

/* Puts the descriptor to wait on where programs look for it. */
static void offer_descriptor(rfbScreenInfoPtr s)
{
    s->listenSock = s->compat->door.all;
    if (s->listenSock < 0 || s->listenSock >= FD_SETSIZE) return;
    s->maxFd = s->listenSock;
    FD_SET(s->listenSock, &s->allFds);
}

/* Has what listens bring connections to the server, which is made, unless there
 * is one still: whether it does. If not that is said. */
static rfbBool open_door(rfbScreenInfoPtr s)
{
    struct rfbCompat *c = s->compat;
    if (!c->server) {
        c->asked = c->lost = 0;
        c->isEnding = FALSE;
        if (make_server(s) < 0 || make_waker(c) < 0) return FALSE;
    }
    if (rfbDoorOpen(&c->door, vnc_server_fd(c->server))) return TRUE;
    rfbErr("nobody is served on port %d: %s\n", s->port, strerror(errno));
    return FALSE;
}

/* Says where viewers may come. */
static void say_place(rfbScreenInfoPtr s)
{
    char address[INET_ADDRSTRLEN] = "";
    inet_ntop(AF_INET, &s->listenInterface, address, sizeof address);
    rfbLog("listening on port %d of %s%s\n", s->port, address,
           s->compat->door.listeners[1] >= 0 ? " and of IPv6" : "");
    if (s->passwordCheck)
        rfbLog("passwordCheck is set, and authPasswdData isn't: nobody is "
               "asked for a password\n");
}

void rfbInitServer(rfbScreenInfoPtr s)
{
    struct rfbCompat *c = s->compat;
    rfbBool isServed = FALSE;
    lock(s);
    if (!c->server || (s->socketState != RFB_SOCKET_READY && !c->isEnding)) {
        if (c->hasFailed) rfbErr("nobody is served: the screen has ended\n");
        else if (!is_refused(s) && rfbDoorListen(&c->door, s))
            isServed = open_door(s);
        if (isServed) say_place(s);
        s->socketState = isServed ? RFB_SOCKET_READY : RFB_SOCKET_SHUTDOWN;
        if (c->depth == 0) settle(s, FALSE);
        if (c->server) offer_descriptor(s);
    }
    unlock(s);
}

void rfbNewFramebuffer(rfbScreenInfoPtr s, char *frameBuffer, int width,
                       int height, int bitsPerSample, int samplesPerPixel,
                       int bytesPerPixel)
{
    struct rfbCompat *c = s->compat;
    const rfbBool isResized = truth(s->width != width || s->height != height);
    int32_t code = 0;
    lock(s);
    if (!rfbSetFormat(s, width, height, bitsPerSample, samplesPerPixel,
                    bytesPerPixel)) {
        code = VNC_ERROR_BAD_FORMAT;
        s->width = s->height = 0; /* nothing is drawn in it */
    } else if (c->server && isResized)
        code = vnc_server_new_framebuffer(c->server, (uint32_t)width,
                                          (uint32_t)height);
    if (code < 0) {
        rfbErr("rfbNewFramebuffer: the server ends: %s\n", vnc_code_text(code));
        fail(s);
    }
    s->frameBuffer = frameBuffer;
    c->marks = 0;
    mark(s, 0, 0, s->width, s->height);
    unlock(s);
}

void rfbShutdownServer(rfbScreenInfoPtr s, rfbBool disconnectClients)
{
    struct rfbCompat *c = s->compat;
    rfbBool isInHook, joins;
    lock(s);
    /* other threads' turns wait; the loop wants the lock that a hook has */
    isInHook = truth(c->depth > c->waiting || c->parting > 0);
    joins = truth(disconnectClients && c->hasLooper && !isInHook &&
                  !pthread_equal(c->looper, pthread_self()));
    s->socketState = RFB_SOCKET_SHUTDOWN;
    rfbDoorShut(&c->door);
    if (disconnectClients) c->isEnding = TRUE;
    wake(s);
    unlock(s);
    if (joins) {
        pthread_join(c->looper, NULL);
        c->hasLooper = FALSE;
    }
    lock(s);
    if (c->depth == 0) settle(s, disconnectClients);
    unlock(s);
}

void rfbSetCursor(rfbScreenInfoPtr s, rfbCursorPtr c)
{
    lock(s);
    if (s->cursor && s->cursor != c && s->cursor->cleanup)
        rfbFreeCursor(s->cursor);
    s->cursor = c;
    unlock(s);
}

void rfbScreenCleanup(rfbScreenInfoPtr s)
{
    lock(s);
    for (rfbClientPtr cl = s->clientHead; cl; cl = cl->next) cl->holds = 0;
    unlock(s);
    rfbShutdownServer(s, TRUE);
    rfbFreeCursor(s->cursor);
    pthread_mutex_destroy(&s->cursorMutex);
    pthread_mutex_destroy(&s->compat->lock);
    free(s);
}
