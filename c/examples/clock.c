/* clock.c [PORT [SECONDS]]: a clock, for any number of viewers on a port of the loopback. It draws by itself each second, and heeds no
 * input. It ends after so many seconds, where they are given. Of port 0 the system chooses one; it prints which.
 * cc clock.c $(pkg-config --cflags --libs vnc_server) */
#define _POSIX_C_SOURCE 200809L
#include "vnc_server.h"
#include <stdio.h>
#include <time.h>

enum { WIDTH = 172, HEIGHT = 44, LONG = 12, THIN = 4 };

/* Where the bars of a digit are, from its left upper corner: the top, clockwise round to the left one above, and the middle. */
static const struct { int x, y, is_level; } bars[7] = {{4, 0, 1}, {16, 4, 0}, {16, 20, 0}, {4, 32, 1}, {0, 20, 0}, {0, 4, 0}, {4, 16, 1}};

/* Which of them are lit, a bit each. */
static const int lit[10] = {0x3f, 0x06, 0x5b, 0x4f, 0x66, 0x6d, 0x7d, 0x07, 0x7f, 0x6f};

static uint32_t inks[2][LONG * THIN];

static int32_t fill(vnc_server *server, int x, int y, int width, int height, int is_lit)
{
    return vnc_server_paint(server, x, y, x + width, y + height, inks[is_lit], (size_t)(width * height));
}

static int32_t draw_digit(vnc_server *server, int x, int digit)
{
    int32_t code = 0;
    int k;
    for (k = 0; k < 7 && code == 0; k++)
        code = fill(server, x + bars[k].x, 4 + bars[k].y, bars[k].is_level ? LONG : THIN, bars[k].is_level ? THIN : LONG, lit[digit] >> k & 1);
    return code;
}

/* Draws the digits that are not the shown ones. */
static int32_t draw(vnc_server *server, const char *now, char *shown)
{
    static const int places[6] = {4, 28, 64, 88, 124, 148};
    int32_t code = 0;
    int k;
    for (k = 0; k < 6 && code == 0; k++)
        if (now[k] != shown[k]) {
            code = draw_digit(server, places[k], now[k] - '0');
            shown[k] = now[k];
        }
    return code;
}

int main(int argc, char **argv)
{
    vnc_server *server;
    vnc_input unused[16];
    char shown[7] = "";
    long left = argc > 2 ? atol(argv[2]) : -1;
    int k;
    int32_t code = vnc_server_new("127.0.0.1", (uint16_t)(argc > 1 ? atoi(argv[1]) : 5900), WIDTH, HEIGHT, "clock", 64, &server);
    if (code < 0) {
        fprintf(stderr, "clock: %s\n", vnc_code_text(code));
        return 1;
    }
    printf("port %d\n", (int)vnc_server_port(server));
    fflush(stdout);
    for (k = 0; k < LONG * THIN; k++) {
        inks[0][k] = 0x301008;
        inks[1][k] = 0xff5020;
    }
    for (k = 0; k < 4 && code == 0; k++) code = fill(server, k & 1 ? 114 : 54, k & 2 ? 28 : 14, THIN, THIN, 1);
    while (code == 0 && left != 0) {
        struct timespec at;
        struct tm *local;
        char now[7];
        clock_gettime(CLOCK_REALTIME, &at);
        local = localtime(&at.tv_sec);
        if (!local || strftime(now, sizeof now, "%H%M%S", local) != 6) break;
        if (now[5] != shown[5] && left > 0) left--;
        code = draw(server, now, shown);
        if (code == 0) code = vnc_server_process_events(server, 1 + (int32_t)((999999999 - at.tv_nsec) / 1000000));
        while (vnc_server_next_inputs(server, unused, 16) > 0) {}
    }
    vnc_server_free(server);
    if (code < 0) fprintf(stderr, "clock: %s\n", vnc_code_text(code));
    return code < 0;
}
