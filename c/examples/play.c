/* The run of crates/vncdemo/stdin, by calls: it prints what crates/vncdemo/stdout has. */
#include "vnc_screen.h"
#include <stdio.h>

static vnc_screen *screen;

static void bytes(const char *what, uint64_t viewer, int32_t code)
{
    uint8_t room[4096];
    int32_t count, any = 0, i;
    if (code < 0) { printf("refused %d\n", (int)code); return; }
    printf("%s %u ", what, (unsigned)viewer);
    while ((count = vnc_screen_output(screen, viewer, room, sizeof room)) > 0) {
        any = 1;
        for (i = 0; i < count; i++) printf("%02x", room[i]);
    }
    printf(any ? "\n" : "-\n");
}

static void done(int32_t code)
{
    if (code == 0) printf("ok\n");
    else printf("refused %d\n", (int)code);
}

static void hear(uint64_t viewer, const char *piece, size_t count) { bytes("hear", viewer, vnc_screen_hear(screen, viewer, (const uint8_t *)piece, count)); }
static void cut(uint64_t viewer) { bytes("cut", viewer, vnc_screen_cut(screen, viewer)); }

int main(void)
{
    static const uint32_t row[4] = {1, 2, 3, 4};
    int32_t made = vnc_screen_new(4, 1, "demo", 50, &screen);
    done(made);
    if (made < 0) return 3;
    done(vnc_screen_paint(screen, 0, 0, 4, 1, row, 4));
    bytes("connect", 1, vnc_screen_connect(screen, 1));
    bytes("connect", 2, vnc_screen_connect(screen, 2));
    hear(1, "RFB 003.008\n\x01\x01", 14);
    hear(2, "RFB 003.008\n\x01\x01", 14);
    hear(1, "\x02\x00\x00\x02\x00\x00\x00\x01\x00\x00\x00\x00", 12);
    hear(1, "\x03\x00\x00\x00\x00\x00\x00\x04\x00\x01", 10);
    hear(2, "\x03\x00\x00\x00\x00\x00\x00\x04\x00\x01", 10);
    cut(1);
    cut(2);
    done(vnc_screen_do_copy_rect(screen, 1, 0, 4, 1, 1, 0));
    hear(1, "\x03\x01\x00\x00\x00\x00\x00\x04\x00\x01", 10);
    hear(2, "\x03\x01\x00\x00\x00\x00\x00\x04\x00\x01", 10);
    cut(1);
    cut(2);
    vnc_screen_free(screen);
    return 0;
}
