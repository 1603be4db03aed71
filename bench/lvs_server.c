/* lvs_server.c - a server on LibVNCServer that does what `vncdemo serve` does:
 * a black screen; a pointer event with bit 0 of its mask paints that one place
 * white; a key that goes down rings the bell; a client cut text comes back.
 *
 *   lvs_server [serve] --port P --width W --height H --mode thread|loop
 *
 * thread: rfbRunEventLoop in the background, two threads for each viewer.
 * loop, which is taken where none is said: rfbProcessEvents, one thread for
 * all. It ends after 600 s, or by SIGTERM. The word serve, --viewers N and
 * --one-thread are read and have no effect, so that it can stand in for
 * `vncdemo`. */
#define _GNU_SOURCE
#include <rfb/rfb.h>
#include <signal.h>
#include <stdio.h>
#include <stdlib.h>
#include <string.h>
#include <time.h>
#include <unistd.h>

static volatile sig_atomic_t ended;
static void on_signal(int s) { (void)s; ended = 1; }

static void on_pointer(int mask, int x, int y, rfbClientPtr cl)
{
    rfbScreenInfoPtr s = cl->screen;
    if (!(mask & 1) || x < 0 || y < 0 || x >= s->width || y >= s->height) return;
    ((uint32_t *)s->frameBuffer)[(long)y * s->width + x] = 0xffffff;
    rfbMarkRectAsModified(s, x, y, x + 1, y + 1);
}

static void on_key(rfbBool down, rfbKeySym key, rfbClientPtr cl)
{
    (void)key;
    if (down) rfbSendBell(cl->screen);
}

static void on_text(char *text, int len, rfbClientPtr cl)
{
    rfbSendServerCutText(cl->screen, text, len > 65536 ? 65536 : len);
}

int main(int argc, char **argv)
{
    int port = 5900, width = 640, height = 480, threaded = 0;
    int first = argc > 1 && !strcmp(argv[1], "serve") ? 2 : 1;
    for (int i = first; i < argc; i++) {
        const char *a = argv[i], *v = i + 1 < argc ? argv[i + 1] : "";
        if (!strcmp(a, "--one-thread")) continue;
        i++;
        if (!strcmp(a, "--port")) port = atoi(v);
        else if (!strcmp(a, "--width")) width = atoi(v);
        else if (!strcmp(a, "--height")) height = atoi(v);
        else if (!strcmp(a, "--viewers")) ;
        else if (!strcmp(a, "--mode")) threaded = !strcmp(v, "thread");
        else { fprintf(stderr, "bad option %s\n", a); return 2; }
    }
    if (width < 1 || height < 1 || width > 8192 || height > 8192) return 1;
    rfbLogEnable(0);

    rfbScreenInfoPtr s = rfbGetScreen(NULL, NULL, width, height, 8, 3, 4);
    if (!s) return 3;
    size_t places = (size_t)width * height;
    s->frameBuffer = calloc(places, 4);
    if (!s->frameBuffer) return 3;
    /* pages that were never written all read from one page of zeros, which
     * stays in the cache: not so on a screen that somebody draws on */
    for (size_t i = 0; i < places; i += 1024) ((volatile uint32_t *)s->frameBuffer)[i] = 0;
    s->serverFormat.depth = 24;
    s->serverFormat.redShift = 16;
    s->serverFormat.greenShift = 8;
    s->serverFormat.blueShift = 0;
    s->desktopName = "demo";
    s->alwaysShared = TRUE;
    s->listenInterface = htonl(INADDR_LOOPBACK);
    s->port = port;
    s->ipv6port = 0;
    s->autoPort = FALSE;
    s->deferUpdateTime = 0;
    s->maxRectsPerUpdate = 50;
    s->ptrAddEvent = on_pointer;
    s->kbdAddEvent = on_key;
    s->setXCutText = on_text;
    rfbSetCursor(s, NULL);

    struct sigaction sa = { .sa_handler = on_signal };
    sigaction(SIGTERM, &sa, NULL);
    sigaction(SIGINT, &sa, NULL);

    rfbInitServer(s);
    if (s->listenSock < 0) { fprintf(stderr, "network fault\n"); return 5; }

    time_t end = time(NULL) + 600;
    if (threaded) {
        rfbRunEventLoop(s, -1, TRUE);
        while (!ended && time(NULL) < end) usleep(100000);
    } else {
        /* all changes come from viewers, so select's wake-up is enough */
        while (!ended && time(NULL) < end && rfbIsActive(s)) rfbProcessEvents(s, 100000);
    }
    /* no orderly shutdown: the process owns nothing that outlives it */
    _exit(0);
}
