/* rfb_compat_parts.h: what rfb_compat.c has of the files beside it. Programs
 * include rfb_compat.h alone. */
#ifndef RFB_COMPAT_PARTS_H
#define RFB_COMPAT_PARTS_H

#include "rfb_compat.h"

#ifdef __cplusplus
extern "C" {
#endif

static inline int larger(int a, int b) { return a > b ? a : b; }

static inline int smaller(int a, int b) { return a < b ? a : b; }

static inline sraRect rect_of(int x1, int y1, int x2, int y2)
{
    const sraRect r = {x1, y1, x2, y2};
    return r;
}

/* ---- frameBuffer: rfb_compat_draw.c ---- */

/* The library's pictures have no more. */
enum { RFB_MOST_COLUMNS = 8192, RFB_MOST_ROWS = 8192 };

/* Gives the screen a size and a format: FALSE where it can't have them. */
rfbBool rfbSetFormat(rfbScreenInfoPtr s, int width, int height, int bits,
                     int samples, int bytes);

/* What of a rectangle lies on the screen, and comes from there. */
sraRect rfbCopied(rfbScreenInfoPtr s, sraRect r, int dx, int dy);

/* Moves what comes to so many rectangles of frameBuffer. */
void rfbCopyPixels(rfbScreenInfoPtr s, const sraRect *to, size_t count, int dx,
                   int dy);

/* ---- who comes: rfb_compat_listen.c ---- */

/* Where connections come in. A descriptor that isn't there is -1. */
struct rfbDoor {
    int all;          /* an epoll: it can be read where there is work to do */
    int listeners[2]; /* the sockets that listen: of IPv4, and of IPv6 */
    int next;         /* which of them was asked last */
    int clock;        /* a timer, which ends a rest */
    rfbBool isKnocked; /* somebody may be there */
    rfbBool isResting; /* nobody is accepted before the timer says so */
    rfbBool isFull;    /* nobody is accepted before somebody has gone */
    int64_t due;       /* when the next may come while others are served */
};

/* Makes a door that is shut. */
void rfbDoorInit(struct rfbDoor *door);

/* Listens on the screen's port, or on the first that is free, and puts that
 * into port: FALSE where it can't, which is said. */
rfbBool rfbDoorListen(struct rfbDoor *door, rfbScreenInfoPtr s);

/* Has all that there is to wait for in one descriptor: the server's, and who
 * comes. FALSE where the system refuses it. */
rfbBool rfbDoorOpen(struct rfbDoor *door, int server);

/* Listens no more. */
void rfbDoorShut(struct rfbDoor *door);

/* Closes all of it. */
void rfbDoorClose(struct rfbDoor *door);

/* Says whether there is room for one more. */
void rfbDoorFill(struct rfbDoor *door, rfbBool isFull);

/* Waits for so many milliseconds at most: how many descriptors are ready, and
 * the first of them. `all` is that of a door, or -1. */
int rfbDoorWait(int all, int milliseconds, int *ready, int most);

/* Notes that a descriptor was ready: FALSE where it isn't one of the door's
 * own, and so a connection that is watched, which has ended. */
rfbBool rfbDoorNote(struct rfbDoor *door, int server, int ready);

/* Accepts the next connection: -1 where there is none, or it is to wait, as
 * others are served, or the system has no room. */
int rfbDoorNext(struct rfbDoor *door, rfbBool isBusy,
                struct sockaddr_storage *from);

/* Watches a connection, of which nothing is read, for its end; or no more. */
void rfbDoorWatch(struct rfbDoor *door, int connection);
void rfbDoorForget(struct rfbDoor *door, int connection);

/* Makes a descriptor that can be read at once, and once rfbLookoutRest was
 * called, only where the connection can. -1 where the system refuses it. */
int rfbLookoutNew(int connection);
void rfbLookoutRest(int lookout, int connection);

#ifdef __cplusplus
}
#endif

#endif
