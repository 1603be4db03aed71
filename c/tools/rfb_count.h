/* rfb_count.h: compiled before a program of LibVNCServer's names (-include), it has each input counted on stderr that reaches the hooks which
 * the program has set as it calls rfbInitServer. With RFB_COUNT_REAL the names are LibVNCServer's own. */
#ifndef RFB_COUNT_H
#define RFB_COUNT_H

#ifdef RFB_COUNT_REAL
#include <rfb/rfb.h>
#else
#include "rfb_compat.h"
#endif

static int rfb_count;
static rfbKbdAddEventProcPtr rfb_count_key;
static rfbPtrAddEventProcPtr rfb_count_pointer;

static void rfb_counted_key(rfbBool down, rfbKeySym key, rfbClientPtr cl)
{
    fprintf(stderr, "inputs %d\n", ++rfb_count);
    if (rfb_count_key) rfb_count_key(down, key, cl);
}

static void rfb_counted_pointer(int buttonMask, int x, int y, rfbClientPtr cl)
{
    fprintf(stderr, "inputs %d\n", ++rfb_count);
    if (rfb_count_pointer) rfb_count_pointer(buttonMask, x, y, cl);
}

static void rfb_counted_init(rfbScreenInfoPtr s)
{
    rfb_count_key = s->kbdAddEvent, s->kbdAddEvent = rfb_counted_key;
    rfb_count_pointer = s->ptrAddEvent, s->ptrAddEvent = rfb_counted_pointer;
    rfbInitServer(s);
}

#undef rfbInitServer
#define rfbInitServer rfb_counted_init

#endif
