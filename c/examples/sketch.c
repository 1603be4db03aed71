/* sketch.c [PORT [SECONDS]]: a sketch pad, for any number of viewers on a port of the loopback. What they draw with the first button
 * stays, and the third one wipes all of it. It ends after so many seconds, where they are given. Of port 0 the system chooses one.
 * cc sketch.c $(pkg-config --cflags --libs vnc_server) */
#include "vnc_server.h"
#include <stdio.h>
#include <time.h>

enum { WIDTH = 640, HEIGHT = 480, THICK = 3, PENS = 64 };

/* Where the pens of the viewers are. A viewer whose number is another's but for a multiple of PENS takes over its pen, lifted. */
static struct { uint64_t viewer; int x, y, is_down; } pens[PENS];

static int32_t wipe(vnc_server *server)
{
    static uint32_t white[WIDTH * HEIGHT];
    int k;
    for (k = 0; k < WIDTH * HEIGHT; k++) white[k] = 0xffffff;
    return vnc_server_paint(server, 0, 0, WIDTH, HEIGHT, white, WIDTH * HEIGHT);
}

static int within(int at, int most) { return at < 0 ? 0 : at > most ? most : at; }

/* A line of squares, as far as it lies on the pad. */
static int32_t draw(vnc_server *server, int x1, int y1, int x2, int y2, const uint32_t *ink)
{
    int wide = abs(x2 - x1), high = abs(y2 - y1), steps = wide > high ? wide : high, k;
    int32_t code = 0;
    for (k = 0; k <= steps && code == 0; k++) {
        int x = within(x1 + (steps ? (x2 - x1) * k / steps : 0) - 1, WIDTH - THICK), y = within(y1 + (steps ? (y2 - y1) * k / steps : 0) - 1, HEIGHT - THICK);
        code = vnc_server_paint(server, x, y, x + THICK, y + THICK, ink, THICK * THICK);
    }
    return code;
}

static int32_t use(vnc_server *server, const vnc_input *in)
{
    static const uint32_t inks[4] = {0x202020, 0xc02020, 0x2040c0, 0x208040};
    uint32_t ink[THICK * THICK];
    int slot = (int)(in->viewer % PENS), x = within((int)in->x, WIDTH - 1), y = within((int)in->y, HEIGHT - 1), k, was_down;
    if (in->kind != VNC_INPUT_POINTER) return 0;
    if (in->buttons & 4) return wipe(server);
    was_down = pens[slot].viewer == in->viewer && pens[slot].is_down;
    for (k = 0; k < THICK * THICK; k++) ink[k] = inks[in->viewer % 4];
    if (!was_down) pens[slot].x = x, pens[slot].y = y;
    k = in->buttons & 1 ? draw(server, pens[slot].x, pens[slot].y, x, y, ink) : 0;
    pens[slot].viewer = in->viewer, pens[slot].x = x, pens[slot].y = y, pens[slot].is_down = (int)(in->buttons & 1);
    return k;
}

int main(int argc, char **argv)
{
    vnc_server *server;
    vnc_input in[16];
    time_t end = argc > 2 ? time(0) + atoi(argv[2]) : 0;
    int32_t code = vnc_server_new("127.0.0.1", (uint16_t)(argc > 1 ? atoi(argv[1]) : 5900), WIDTH, HEIGHT, "sketch", 64, &server);
    if (code < 0) { fprintf(stderr, "sketch: %s\n", vnc_code_text(code)); return 1; }
    printf("port %d\n", (int)vnc_server_port(server));
    fflush(stdout);
    code = wipe(server);
    while (code == 0 && (end == 0 || time(0) < end)) {
        int64_t count, k;
        code = vnc_server_process_events(server, end ? 100 : -1);
        while (code == 0 && (count = vnc_server_next_inputs(server, in, 16)) > 0)
            for (k = 0; k < count && code == 0; k++) code = use(server, &in[k]);
    }
    vnc_server_free(server);
    if (code < 0) fprintf(stderr, "sketch: %s\n", vnc_code_text(code));
    return code < 0;
}
