/* own_pixels.c [PORT [SECONDS]]: a program that has a framebuffer of its own, of 16 bits a pixel, and says what it changed there: a ball
 * that bounces over a slope of colours. It ends after so many seconds, where they are given. Of port 0 the system chooses one.
 * cc own_pixels.c $(pkg-config --cflags --libs vnc_server) */
#include "vnc_server.h"
#include <stdio.h>
#include <time.h>

enum { WIDTH = 320, HEIGHT = 200, SIZE = 24 };

static uint16_t pixels[HEIGHT][WIDTH]; /* 5 bits of red above 6 of green above 5 of blue */

static uint16_t slope(int x, int y) { return (uint16_t)((x * 32 / WIDTH) << 11 | (y * 64 / HEIGHT) << 5 | (31 - x * 32 / WIDTH)); }

static void draw_ball(int left, int top, int is_there)
{
    int x, y;
    for (y = 0; y < SIZE; y++)
        for (x = 0; x < SIZE; x++) {
            int dx = 2 * x - SIZE + 1, dy = 2 * y - SIZE + 1;
            pixels[top + y][left + x] = is_there && dx * dx + dy * dy < SIZE * SIZE ? 0xffff : slope(left + x, top + y);
        }
}

/* The picture becomes the framebuffer in a rectangle: how many places changed, or a vnc_code. The machine's lowest byte comes first. */
static int64_t take(vnc_server *server, int left, int top, int width, int height)
{
    static const vnc_pixel_format format = {2, 0, 31, 63, 31, 11, 5, 0};
    size_t count = sizeof pixels - (size_t)((const char *)&pixels[top][left] - (const char *)pixels);
    return vnc_server_update_from(server, (uint32_t)left, (uint32_t)top, (uint32_t)width, (uint32_t)height, (const uint8_t *)&pixels[top][left], count, sizeof pixels[0],
                           &format, 1, 0, 0);
}

static void bounce(int *at, int *step, int most)
{
    if (*at + *step < 0 || *at + *step > most) *step = -*step;
    *at += *step;
}

int main(int argc, char **argv)
{
    vnc_server *server;
    vnc_input unused[16];
    time_t end = argc > 2 ? time(0) + atoi(argv[2]) : 0;
    int x = 40, y = 60, dx = 3, dy = 2, row, column;
    int32_t code = vnc_server_new("127.0.0.1", (uint16_t)(argc > 1 ? atoi(argv[1]) : 5900), WIDTH, HEIGHT, "own pixels", 64, &server);
    int64_t places;
    if (code < 0) { fprintf(stderr, "own_pixels: %s\n", vnc_code_text(code)); return 1; }
    printf("port %d\n", (int)vnc_server_port(server));
    fflush(stdout);
    for (row = 0; row < HEIGHT; row++)
        for (column = 0; column < WIDTH; column++) pixels[row][column] = slope(column, row);
    places = take(server, 0, 0, WIDTH, HEIGHT);
    while (places >= 0 && code == 0 && (end == 0 || time(0) < end)) {
        int old_x = x, old_y = y;
        draw_ball(x, y, 0);
        bounce(&x, &dx, WIDTH - SIZE);
        bounce(&y, &dy, HEIGHT - SIZE);
        draw_ball(x, y, 1);
        places = take(server, x < old_x ? x : old_x, y < old_y ? y : old_y, SIZE + abs(dx), SIZE + abs(dy));
        if (places >= 0) code = vnc_server_process_events(server, 40);
        while (vnc_server_next_inputs(server, unused, 16) > 0) {}
    }
    vnc_server_free(server);
    if (places < 0) code = (int32_t)places;
    if (code < 0) fprintf(stderr, "own_pixels: %s\n", vnc_code_text(code));
    return code < 0;
}
