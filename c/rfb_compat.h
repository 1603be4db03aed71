/* rfb_compat.h: names of LibVNCServer's rfb.h over vnc_server.h, so that a
 * program written for LibVNCServer runs on the proved server with this in place
 * of <rfb/rfb.h>. Written from the names and their meaning. Neither this nor
 * the C behind it is proved.
 * cc program.c $(pkg-config --variable=sources rfb_compat) \
 *    $(pkg-config --cflags --libs rfb_compat)
 * <rfb/keysym.h> is in the folder of this file too: -I.
 *
 * As there    The program draws in frameBuffer, in its own format, and marks
 *             what it changed. What stands there as the next turn begins,
 *             deferUpdateTime milliseconds later at most, is sent where it
 *             differs from what was there. Hooks run in the loop.
 * Refused     A screen that wants a password is never served: see
 *             rfbInitServer.
 * On hold     Nothing is read of such a client, nor is it sent anything, until
 *             the program sets onHold to FALSE, or calls rfbStartOnHoldClient.
 * Not here    What docs/EMBEDDING.md lists. A field that is not read says so;
 *             what is missing doesn't compile.
 * Threads     Each call takes the screen's lock, which is recursive. The loop
 *             has it but while it waits, and so do hooks: a hook must not wait
 *             for another thread that calls. One thread takes the turns. A
 *             rfbClientPtr lasts until its clientGoneHook has returned.
 *             frameBuffer is read with no lock of the program's.
 * Machines    Linux, where the lowest byte comes first.
 */
#ifndef RFB_COMPAT_H
#define RFB_COMPAT_H

#include <arpa/inet.h>
#include <netinet/in.h>
#include <pthread.h>
#include <stdint.h>
#include <stdio.h>
#include <stdlib.h>
#include <string.h>
#include <sys/select.h>
#include <sys/socket.h>
#include <sys/time.h>
#include <sys/types.h>
#include <unistd.h>

#ifdef __cplusplus
extern "C" {
#endif

/* What programs ask of LibVNCServer's configuration. */
#ifndef LIBVNCSERVER_ALLOW24BPP
#define LIBVNCSERVER_ALLOW24BPP 1
#endif
#ifndef LIBVNCSERVER_HAVE_LIBPTHREAD
#define LIBVNCSERVER_HAVE_LIBPTHREAD 1
#endif
#ifndef LIBVNCSERVER_HAVE_GETTIMEOFDAY
#define LIBVNCSERVER_HAVE_GETTIMEOFDAY 1
#endif
#ifndef TRUE
#define TRUE (-1)
#define FALSE 0
#endif
#ifndef RFB_INVALID_SOCKET
#define RFB_INVALID_SOCKET (-1)
#endif
/* Of passwords, which aren't here: see rfbEncryptBytes. */
#define MAXPWLEN 8
#define CHALLENGESIZE 16
/* For cursorMutex. */
#define MUTEX(mutex) pthread_mutex_t mutex
#define LOCK(mutex) pthread_mutex_lock(&(mutex))
#define UNLOCK(mutex) pthread_mutex_unlock(&(mutex))

typedef int8_t rfbBool;
typedef uint32_t rfbKeySym;
typedef uint32_t rfbPixel;
typedef int rfbSocket;
typedef struct _rfbScreenInfo *rfbScreenInfoPtr;
typedef struct _rfbClientRec *rfbClientPtr;

enum rfbNewClientAction {
    RFB_CLIENT_ACCEPT,
    RFB_CLIENT_ON_HOLD,
    RFB_CLIENT_REFUSE
};
enum rfbSocketState { RFB_SOCKET_INIT, RFB_SOCKET_READY, RFB_SOCKET_SHUTDOWN };

typedef void (*rfbKbdAddEventProcPtr)(rfbBool down, rfbKeySym key,
                                      rfbClientPtr cl);
typedef void (*rfbPtrAddEventProcPtr)(int buttonMask, int x, int y,
                                      rfbClientPtr cl);
typedef void (*rfbSetXCutTextProcPtr)(char *text, int len, rfbClientPtr cl);
typedef enum rfbNewClientAction (*rfbNewClientHookPtr)(rfbClientPtr cl);
typedef void (*ClientGoneHookPtr)(rfbClientPtr cl);
typedef rfbBool (*rfbPasswordCheckProcPtr)(rfbClientPtr cl,
                                           const char *response, int len);
typedef void (*SelectionChangedHookPtr)(int index);
typedef void (*rfbLogProc)(const char *format, ...);

typedef struct {
    uint8_t bitsPerPixel, depth, bigEndian, trueColour;
    uint16_t redMax, greenMax, blueMax;
    uint8_t redShift, greenShift, blueShift;
} rfbPixelFormat;

typedef struct {
    uint32_t count;
    rfbBool is16;
    union {
        uint8_t *bytes;
        uint16_t *shorts;
    } data; /* three for each colour; the program's, and never freed here */
} rfbColourMap;

typedef struct rfbCursor {
    rfbBool cleanup, cleanupSource, cleanupMask, cleanupRichSource;
    unsigned char *source, *mask;
    unsigned short width, height, xhot, yhot;
    unsigned short foreRed, foreGreen, foreBlue, backRed, backGreen, backBlue;
    unsigned char *richSource, *alphaSource;
    rfbBool alphaPreMultiplied; /* not read */
} rfbCursor, *rfbCursorPtr;

typedef struct _rfbScreenInfo {
    int width, height;      /* columns and rows */
    int paddedWidthInBytes; /* from one row of frameBuffer to the next */
    int depth, bitsPerPixel, sizeInBytes;
    rfbPixel blackPixel, whitePixel;
    void *screenData;            /* the program's */
    rfbPixelFormat serverFormat; /* of frameBuffer; viewers never see it */
    rfbColourMap colourMap;      /* of pixels of one byte, if not trueColour */
    /* As rfbInitServer finds it; its first 255 bytes count. */
    const char *desktopName;
    char thisHost[255]; /* not read */
    int port; /* 1 to 65535 */
    /* The first free port from 5900 to 5999 is taken, and put into port. */
    rfbBool autoPort;
    /* Above 0, and listenInterface any: port is served by IPv6 too. */
    int ipv6port;
    /* All of the machine's, unless it is set before rfbInitServer. */
    in_addr_t listenInterface;
    /* A descriptor to wait on: see rfbProcessEvents. -1: nobody is served. */
    rfbSocket listenSock;
    rfbSocket listen6Sock; /* -1: listenSock has both versions of IP */
    /* The same for select, with allFds, which has no other; 0 if it can't. */
    int maxFd;
    fd_set allFds;
    enum rfbSocketState socketState;
    int deferUpdateTime; /* in milliseconds, 5 at first */
    /* A turn tells the hooks all inputs that wait; else one, and then the next
     * turn doesn't wait. */
    rfbBool handleEventsEagerly;
    /* Who doesn't share has the others closed once its opening is over, or with
     * dontDisconnect is closed itself. */
    rfbBool alwaysShared, neverShared, dontDisconnect;
    struct _rfbClientRec *clientHead, *pointerClient;
    char *frameBuffer; /* the program's */
    /* Each may be NULL. At first the pointer's moves cursorX and cursorY, and
     * the others do nothing, but that newClientHook accepts. */
    rfbKbdAddEventProcPtr kbdAddEvent;
    rfbPtrAddEventProcPtr ptrAddEvent;
    rfbSetXCutTextProcPtr setXCutText;
    rfbNewClientHookPtr newClientHook;
    void *authPasswdData; /* where it is set, the screen is not served */
    /* Never called. As there, it asks for no password without
     * authPasswdData. */
    rfbPasswordCheckProcPtr passwordCheck;
    int cursorX, cursorY;
    MUTEX(cursorMutex); /* the program's */
    rfbCursorPtr cursor;            /* kept and freed, not shown */
    char *httpDir;                  /* not read */
    int httpPort;                   /* not read */
    rfbBool httpEnableProxyConnect; /* not read */
    /* Not the program's, from here on: characters stand in frameBuffer that are
     * maybe not marked. */
    rfbBool isWritten;
    const char *record;  /* the file of -record, or NULL */
    const char *promise; /* the word that promises what isn't here, or NULL */
    struct rfbCompat *compat;
} rfbScreenInfo;

typedef struct _rfbClientRec {
    rfbScreenInfoPtr screen;
    void *clientData; /* the program's, for clientGoneHook to free */
    ClientGoneHookPtr clientGoneHook; /* it may be NULL; at first nothing */
    /* Its connection, to wait for by poll, and to be asked for its address: no
     * read, write or close is to be called on it. -1 once it has left. See
     * rfbProcessClientMessage. */
    rfbSocket sock;
    char *host;       /* its address in digits, or "unknown" */
    /* How far it is: RFB_PROTOCOL_VERSION as it comes, RFB_INITIALISATION as
     * the server has its connection, or of one on hold as
     * rfbProcessClientMessage says, RFB_NORMAL once its opening is over. The
     * others don't come. */
    enum {
        RFB_PROTOCOL_VERSION,
        RFB_SECURITY_TYPE,
        RFB_AUTHENTICATION,
        RFB_INITIALISATION,
        RFB_NORMAL,
        RFB_INITIALISATION_SHARED,
        RFB_SHUTDOWN
    } state;
    /* Set where newClientHook answers so. The program sets it to FALSE, and the
     * next turn begins to serve the client; another thread than that which
     * takes the turns calls rfbStartOnHoldClient. Who is served can't be put on
     * hold. */
    rfbBool onHold;
    rfbBool viewOnly; /* its inputs go to no hook */
    rfbBool cursorWasMoved; /* not read */
    uint8_t authChallenge[CHALLENGESIZE]; /* 0: nobody is sent one */
    /* Not read: where the program changes the screen's width or height, the
     * next turn tells every viewer. */
    rfbBool newFBSizePending;
    struct _rfbClientRec *next;
    /* Not the program's, from here on: the server's number of it, 0 where the
     * server hasn't its connection. */
    uint64_t number;
    int connection;    /* its socket, where the layer has it, or -1 */
    int lookout;       /* what is sock's in newClientHook, or -1 */
    rfbBool isDriven;  /* it came by a turn of a program that drives sockets */
    rfbBool isAskedOf; /* its newClientHook runs */
    rfbBool isOpen;    /* its opening is over */
    rfbBool hasAsked;  /* it has asked for all */
    rfbBool isClosing; /* it is to be closed */
    rfbBool isLetGo;   /* the server was told so */
    rfbBool isGone;    /* its connection has ended */
    rfbBool isParted;  /* its hook was called */
    int holds;         /* how many iterators and calls stand at it */
    char address[48];
} rfbClientRec;

/* The server. 1 to 8192 columns and rows, 1 to 10 bits a sample, and pixels of
 * 1 to 4 bytes: else rfbGetScreen gives NULL. It takes out of the arguments all
 * words that LibVNCServer takes out, with their values, and -record; rfbErr
 * says of each that has no effect that it has none, and rfbUsage lists them.
 * NULL too where memory is refused, for -help, for a word whose value is
 * missing, and where -listen's is neither an IPv4 address in digits nor
 * localhost nor any. What happens is recorded in -record's file, which
 * rfbInitServer makes, and vncdemo replay reads: vnc_server_record of
 * vnc_server.h. Such a screen is served once, as its file is there the second
 * time. */
rfbScreenInfoPtr rfbGetScreen(int *argc, char **argv, int width, int height,
                              int bitsPerSample, int samplesPerPixel,
                              int bytesPerPixel);

/* Listens, also where rfbShutdownServer had it end. Where it can't, or
 * protection is wanted that isn't here (a password, or -sslkeyfile or
 * -sslcertfile of the arguments), it says so by rfbErr, and nobody is served:
 * socketState is RFB_SOCKET_SHUTDOWN, rfbIsActive is FALSE, and
 * rfbRunEventLoop returns at once. A screen that wants a password later is shut
 * in the next turn. One that has ended by itself is not served again. */
void rfbInitServer(rfbScreenInfoPtr s);

/* Another frameBuffer, also of another size. Viewers that can't be told a new
 * size see the part of it within their own. Where it is refused, rfbErr says
 * so, and the server ends with this turn; one of more than 8192 columns or
 * rows, or of another format than rfbGetScreen takes, leaves width and height
 * 0, so that nothing is drawn in it. */
void rfbNewFramebuffer(rfbScreenInfoPtr s, char *frameBuffer, int width,
                       int height, int bitsPerSample, int samplesPerPixel,
                       int bytesPerPixel);

/* No viewer may come any more. It ends at once, or where disconnectClients is
 * FALSE, once the last one has left. */
void rfbShutdownServer(rfbScreenInfoPtr s, rfbBool disconnectClients);
void rfbScreenCleanup(rfbScreenInfoPtr s); /* not from a hook */

/* Returns whether viewers may come, or are there still. */
rfbBool rfbIsActive(rfbScreenInfoPtr s);

/* Takes a turn, which waits so many microseconds at most, below 0
 * deferUpdateTime. TRUE where a viewer that has asked for places was there, and
 * something was marked or to be sent, or a socket was ready; and where a viewer
 * went. But FALSE where it told an input: there are programs that look for
 * their inputs after FALSE alone.
 * A program that waits by itself takes a turn of 0 once listenSock can be read,
 * and deferUpdateTime after it drew. That is one descriptor of the layer's
 * for all sockets, on which no accept, read or close is to be called: a select
 * loop sees it alone, and no client's. */
rfbBool rfbProcessEvents(rfbScreenInfoPtr s, long usec);
/* Takes turns until the server has ended; below 0 a turn waits without end. In
 * the background a thread of the layer's takes them, and this returns. */
void rfbRunEventLoop(rfbScreenInfoPtr s, long usec, rfbBool runInBackground);

/* Takes out the words that rfbGetScreen takes out, and does what they say.
 * FALSE where rfbGetScreen gives NULL for one. */
rfbBool rfbProcessArguments(rfbScreenInfoPtr s, int *argc, char **argv);
void rfbUsage(void); /* the words of the arguments, to stderr */

/* Takes out -width, -height and -bpp, with their numbers. Returns TRUE. */
rfbBool rfbProcessSizeArguments(int *width, int *height, int *bpp, int *argc,
                                char **argv);

/* What changed, and what is said to all. rfbDo.. also moves frameBuffer; before
 * rfbSchedule.. the program has moved it. A copy takes the places from (dx, dy)
 * to the left and above; what would come from off the screen is left out. */
typedef struct {
    int x1, y1, x2, y2;
} sraRect;
typedef struct sraRegion {
    sraRect *at;
    size_t count;
} sraRegion, *sraRegionPtr;
void rfbMarkRectAsModified(rfbScreenInfoPtr s, int x1, int y1, int x2, int y2);
void rfbMarkRegionAsModified(rfbScreenInfoPtr s, sraRegionPtr region);
void rfbDoCopyRect(rfbScreenInfoPtr s, int x1, int y1, int x2, int y2, int dx,
                   int dy);
void rfbDoCopyRegion(rfbScreenInfoPtr s, sraRegionPtr region, int dx, int dy);
void rfbScheduleCopyRect(rfbScreenInfoPtr s, int x1, int y1, int x2, int y2,
                         int dx, int dy);
void rfbScheduleCopyRegion(rfbScreenInfoPtr s, sraRegionPtr region, int dx,
                           int dy);
void rfbSendBell(rfbScreenInfoPtr s);
/* At most 65536 bytes. */
void rfbSendServerCutText(rfbScreenInfoPtr s, char *text, int len);

/* Closes a client in the next turn; its inputs are told no more. */
void rfbCloseClient(rfbClientPtr cl);

/* Has a client served that newClientHook had on hold. */
void rfbStartOnHoldClient(rfbClientPtr cl);

/* Does what rfbClientConnectionGone does. */
void rfbRefuseOnHoldClient(rfbClientPtr cl);

/* A program may wait for sockets itself, and not by rfbProcessEvents. Each of
 * the next three calls takes a turn that doesn't wait: what is ready is done,
 * for all clients, and the hooks are told all inputs. A turn of theirs parts
 * with nobody, but for who is refused. A client that has left has its sock
 * until the program calls one of the last two for it. Then that is -1, and the
 * program calls rfbClientConnectionGone. */

/* Is called once listenSock can be read, as it can for what comes of clients
 * too: whether a connection came. In its newClientHook, and for a client on
 * hold, sock is a descriptor of the layer's that can be read at once. */
rfbBool rfbProcessNewConnection(rfbScreenInfoPtr s);

/* Is called once sock can be read. For a client on hold nothing is processed:
 * its sock is its own connection from then on, and state RFB_INITIALISATION, so
 * that the program asks its user of it. */
void rfbProcessClientMessage(rfbClientPtr cl);

/* Is called every so many milliseconds, for what was marked. It answers as
 * rfbProcessEvents does. */
rfbBool rfbUpdateClient(rfbClientPtr cl);

/* Parts with a client, whether it has left or not: it is closed, its
 * clientGoneHook is called, and its record is freed. */
void rfbClientConnectionGone(rfbClientPtr cl);

/* Notes where the pointer is: cursorX and cursorY of the screen. */
void rfbDefaultPtrAddEvent(int buttonMask, int x, int y, rfbClientPtr cl);

/* Returns FALSE. */
rfbBool rfbCheckPasswordByList(rfbClientPtr cl, const char *response, int len);

/* Encrypts nothing, which rfbErr says: it fills CHALLENGESIZE bytes at random,
 * so whatever is compared with them differs. Where the system has none to give
 * it aborts. */
void rfbEncryptBytes(unsigned char *bytes, char *passwd);

/* The clients that are neither gone nor closed, the newest first, and NULL
 * behind them. The one that was given last stays until the next is asked for,
 * or the iterator is released, before rfbScreenCleanup. NULL where memory is
 * refused, which has no clients. */
typedef struct rfbClientIterator *rfbClientIteratorPtr;
rfbClientIteratorPtr rfbGetClientIterator(rfbScreenInfoPtr s);
rfbClientPtr rfbClientIteratorNext(rfbClientIteratorPtr iterator);
void rfbReleaseClientIterator(rfbClientIteratorPtr iterator);

/* Regions: the places of any of their rectangles. Where memory is refused the
 * first gives NULL, the second NULL or a region with no rectangle, and the last
 * says so by rfbErr and changes nothing. */
sraRegion *sraRgnCreate(void);
sraRegion *sraRgnCreateRect(int x1, int y1, int x2, int y2);
void sraRgnDestroy(sraRegion *r);
void sraRgnOr(sraRegion *dst, const sraRegion *src);

/* Drawing in frameBuffer; what lies off it is left out. Fill, pixel and line
 * mark what they draw; characters don't. */
typedef struct rfbFontData {
    unsigned char *data;
    /* Of each of 256 characters: where it begins, its width, its height, and
     * its x and y. */
    int *metaData;
} rfbFontData, *rfbFontDataPtr;
void rfbFillRect(rfbScreenInfoPtr s, int x1, int y1, int x2, int y2,
                 rfbPixel colour);
void rfbDrawPixel(rfbScreenInfoPtr s, int x, int y, rfbPixel colour);
void rfbDrawLine(rfbScreenInfoPtr s, int x1, int y1, int x2, int y2,
                 rfbPixel colour);

/* Draws a string, the first character at (x, y) as rfbFontBBox has it. */
void rfbDrawString(rfbScreenInfoPtr s, rfbFontDataPtr font, int x, int y,
                   const char *text, rfbPixel colour);

/* Draws a character, and returns its width. */
int rfbDrawCharWithClip(rfbScreenInfoPtr s, rfbFontDataPtr font, int x, int y,
                        unsigned char c, int x1, int y1, int x2, int y2,
                        rfbPixel colour, rfbPixel back);
void rfbDrawStringWithClip(rfbScreenInfoPtr s, rfbFontDataPtr font, int x,
                           int y, const char *text, int x1, int y1, int x2,
                           int y2, rfbPixel colour, rfbPixel back);

/* Tells where a character lies that is drawn at (x1, y1). */
void rfbFontBBox(rfbFontDataPtr font, unsigned char c, int *x1, int *y1,
                 int *x2, int *y2);

/* Loads 256 characters of 8 by 16; NULL where there are none. */
rfbFontDataPtr rfbLoadConsoleFont(char *filename);

/* Frees a font that was loaded. */
void rfbFreeFont(rfbFontDataPtr font);

/* A box to select from, by the arrows or the first button; Return takes, Escape
 * leaves. It takes turns until then. -1 where none is. */
int rfbSelectBox(rfbScreenInfoPtr s, rfbFontDataPtr font, char **list, int x1,
                 int y1, int x2, int y2, rfbPixel fore, rfbPixel back,
                 int border, SelectionChangedHookPtr changed);

/* Cursors, which no viewer is sent. A mask has a bit for each place, the
 * leftmost in a byte's highest bit. NULL where memory is refused. The first is
 * made of strings, in which a blank is no bit; the first mask has the bits of
 * `source` and those beside them; the second is dithered. */
rfbCursorPtr rfbMakeXCursor(int width, int height, char *source, char *mask);
char *rfbMakeMaskForXCursor(int width, int height, char *source);
char *rfbMakeMaskFromAlphaSource(int width, int height,
                                 unsigned char *alphaSource);
void rfbFreeCursor(rfbCursorPtr c);

/* Has another cursor. The one before is freed, where its cleanup is set. */
void rfbSetCursor(rfbScreenInfoPtr s, rfbCursorPtr c);

/* Both write to stderr, unless the program sets another. */
extern rfbLogProc rfbLog, rfbErr;

/* Has both write nothing where it is FALSE, and write again where it is not. */
void rfbLogEnable(int enabled);

#ifdef __cplusplus
}
#endif

#endif
