/* pictures.c ENCODING COUNT: whole pictures of 1920 by 1080 for one viewer of vnc_screen.h, without a socket, for a profiler to count: in
 * Raw (0), RRE (2) or Hextile (5). It prints how many bytes they are.
 * cc -O2 pictures.c $(pkg-config --cflags --libs vnc_screen) && valgrind --tool=callgrind ./a.out 5 4 */
#include <stdio.h>
#include <vnc_screen.h>

enum { WIDTH = 1920, HEIGHT = 1080 };
static uint32_t picture[WIDTH * HEIGHT];
static uint8_t room[1 << 16];

static uint64_t fetched(vnc_screen *screen)
{
    uint64_t bytes = 0;
    int32_t n;
    while ((n = vnc_screen_output(screen, 1, room, sizeof room)) > 0) bytes += (uint64_t)n;
    return bytes;
}

int main(int argc, char **argv)
{
    static const uint8_t opening[] = "RFB 003.008\n\1\1", request[] = { 3, 0, 0, 0, 0, 0, WIDTH >> 8, WIDTH & 255, HEIGHT >> 8, HEIGHT & 255 };
    uint8_t encodings[] = { 2, 0, 0, 1, 0, 0, 0, argc > 2 ? (uint8_t)atoi(argv[1]) : 0 };
    int count = argc > 2 ? atoi(argv[2]) : 1;
    uint64_t bytes;
    vnc_screen *screen;
    if (vnc_screen_new(WIDTH, HEIGHT, "pictures", 50, &screen) < 0) return 1;
    vnc_screen_connect(screen, 1);
    if (vnc_screen_hear(screen, 1, opening, sizeof opening - 1) || vnc_screen_hear(screen, 1, encodings, sizeof encodings)) return 1;
    bytes = fetched(screen);
    for (int drawn = 0; drawn < count; drawn++) {
        for (int i = 0; i < WIDTH * HEIGHT; i++) picture[i] = (uint32_t)((i / 7 % 31 * 0x10305 + drawn * 0x10101) & 0xffffff);
        if (vnc_screen_update_from(screen, 0, 0, WIDTH, HEIGHT, (const uint8_t *)picture, sizeof picture, WIDTH * 4, NULL, 0, NULL, 0) < 0) return 1;
        if (vnc_screen_hear(screen, 1, request, sizeof request) || vnc_screen_cut(screen, 1) != 1) return 1;
        bytes += fetched(screen);
    }
    printf("%llu bytes\n", (unsigned long long)bytes);
    vnc_screen_free(screen);
}
