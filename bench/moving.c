/* moving.c - a program of LibVNCServer's API whose picture moves, compiled with `rfb/rfb.h`, or with `rfb_compat.h` over vnc_server:
 *
 *   moving --port P --what all|places|scroll [--rate N]
 *
 * A screen of 1920 by 1080. N times a second (15): all places change and all are marked; 100 places change and all are marked; or the
 * picture moves up by 16 rows by a copy, and the rows below are new. It ends after 600 s, or by SIGTERM. */
#define _GNU_SOURCE
#ifdef COMPAT
#include "rfb_compat.h"
#else
#include <rfb/rfb.h>
#endif
#include <signal.h>
#include <stdint.h>
#include <stdio.h>
#include <stdlib.h>
#include <string.h>
#include <time.h>
#include <unistd.h>

enum { WIDTH = 1920, HEIGHT = 1080, STEP = 16 };

static volatile sig_atomic_t ended;
static void on_signal(int s) { (void)s; ended = 1; }
static uint32_t *pixels;

static void fill(int from, int to, uint32_t frame)
{
    for (int y = from; y < to; y++)
        for (int x = 0; x < WIDTH; x++) pixels[y * WIDTH + x] = ((uint32_t)(x * 3 + y * 5) + frame * 0x10101) & 0xffffff;
}

static void move(rfbScreenInfoPtr s, const char *what, uint32_t frame)
{
    if (!strcmp(what, "all")) fill(0, HEIGHT, frame);
    if (!strcmp(what, "places"))
        for (uint32_t k = 0; k < 100; k++) pixels[(frame * 7919 + k * 20011) % (WIDTH * HEIGHT)] ^= 0xffffff;
    if (!strcmp(what, "scroll")) {
        rfbDoCopyRect(s, 0, 0, WIDTH, HEIGHT - STEP, 0, -STEP);
        fill(HEIGHT - STEP, HEIGHT, frame);
        rfbMarkRectAsModified(s, 0, HEIGHT - STEP, WIDTH, HEIGHT);
        return;
    }
    rfbMarkRectAsModified(s, 0, 0, WIDTH, HEIGHT);
}

static int64_t now(void)
{
    struct timespec t;
    clock_gettime(CLOCK_MONOTONIC, &t);
    return t.tv_sec * 1000000LL + t.tv_nsec / 1000;
}

int main(int argc, char **argv)
{
    const char *what = "all";
    int port = 5900, rate = 15;
    for (int i = 1; i + 1 < argc; i += 2) {
        if (!strcmp(argv[i], "--port")) port = atoi(argv[i + 1]);
        else if (!strcmp(argv[i], "--what")) what = argv[i + 1];
        else if (!strcmp(argv[i], "--rate")) rate = atoi(argv[i + 1]);
    }
    rfbScreenInfoPtr s = rfbGetScreen(NULL, NULL, WIDTH, HEIGHT, 8, 3, 4);
    if (!s || !(pixels = malloc(4u * WIDTH * HEIGHT))) return 3;
    fill(0, HEIGHT, 0);
    s->frameBuffer = (char *)pixels;
    s->serverFormat.redShift = 16;
    s->serverFormat.greenShift = 8;
    s->serverFormat.blueShift = 0;
    s->desktopName = "moving";
    s->alwaysShared = TRUE;
    s->port = port;
    s->deferUpdateTime = 0;
#ifndef COMPAT
    s->autoPort = FALSE;
    s->ipv6port = 0;
    rfbLogEnable(0); /* its cursor stays: without one its copies end the program */
#endif
    struct sigaction sa = { .sa_handler = on_signal };
    sigaction(SIGTERM, &sa, NULL);
    rfbInitServer(s);
    int64_t next = now();
    for (uint32_t frame = 1; !ended && frame < 600u * (uint32_t)rate; ) {
        int64_t left = next - now();
        if (left > 0) { rfbProcessEvents(s, (long)left); continue; }
        move(s, what, frame++);
        next += 1000000 / rate;
        rfbProcessEvents(s, 0);
    }
    _exit(0);
}
