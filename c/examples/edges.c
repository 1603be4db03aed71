/* Codes, inputs, faults, pieces, and calls after shut: "edges ok" where each answer is the one that stands here. */
#include "vnc_screen.h"
#include <stdio.h>
#include <string.h>

#define IS(call, want) do { long got = (long)(call); if (got != (long)(want)) { printf("line %d: %s gives %ld\n", __LINE__, #call, got); return 1; } } while (0)

static const uint8_t opening[] = "RFB 003.008\n\x01\x01";

/* What viewers set: a format (7.5.1) of 16 bits, one with a colour map, encodings (7.5.2), and the shared flag (7.3.1); and a request of
 * all that they made. */
static int settings(void)
{
    static const vnc_settings opened = {1, 0, 0, 0, 32, 24, 0, 1, 255, 255, 255, 16, 8, 0, 0}, unshared = {0, 0, 0, 0, 32, 24, 0, 1, 255, 255, 255, 16, 8, 0, 0};
    static const vnc_settings sixteen = {1, 0, 0, 0, 16, 15, 1, 1, 31, 63, 30, 11, 5, 1, 0}, mapped = {1, 5, 1, 1, 8, 6, 0, 0, 0, 0, 0, 0, 0, 0, 1};
    static const size_t size = sizeof(vnc_settings);
    vnc_settings room[2], before;
    uint32_t words[18] = {7, 7, 7, 7, 7, 7, 7};
    vnc_screen *s = 0;

    memset(room, 0x55, sizeof room);
    before = room[0];
    IS(size, 14 * 4 + 8);
    IS(vnc_screen_new(2, 1, "x", 50, &s), 0);
    IS(vnc_screen_settings(s, 7, room), VNC_ERROR_NO_VIEWER);
    IS(vnc_screen_settings_n(s, 7, 0, 0), VNC_ERROR_NO_VIEWER);
    IS(memcmp(room, &before, size), 0);
    IS(vnc_screen_connect(s, 7), 0);
    IS(vnc_screen_settings_n(s, 7, 0, 0), 0);
    IS(vnc_screen_settings_n(s, 7, words, 6), 6);
    IS(words[4] == 32 && words[5] == 24 && words[6] == 7, 1);
    IS(vnc_screen_settings_n(s, 7, words, 18), 16);
    IS(vnc_screen_settings(s, 7, room), 0);
    IS(memcmp(room, &unshared, size), 0);
    IS(memcmp(room + 1, &before, size), 0);
    IS(vnc_screen_hear(s, 7, opening, 14), 0);
    IS(vnc_screen_settings(s, 7, room), 0);
    IS(memcmp(room, &opened, size), 0);
    IS(vnc_screen_hear(s, 7, (const uint8_t *)"\0\0\0\0\x10\x0f\x01\x01\0\x1f\0\x3f\0\x1e\x0b\x05\x01\0\0", 20), 0);
    IS(vnc_screen_settings(s, 7, room), 0);
    IS(memcmp(room, &sixteen, size), 0);
    IS(vnc_screen_hear(s, 7, (const uint8_t *)"\0\0\0\0\x08\x06\0\0\0\x1f\0\x3f\0\x1f\x0b\x05\x01\0\0", 20), 0);
    IS(vnc_screen_hear(s, 7, (const uint8_t *)"\x02\0\0\x04\0\0\0\x01\0\0\0\x05\0\0\0\x02\xff\xff\xff\x21", 20), 0);
    /* a request of all, and one of changes (7.5.3) */
    IS(vnc_screen_hear(s, 7, (const uint8_t *)"\x03\0\0\0\0\0\0\x02\0\x01\x03\x01\0\0\0\0\0\x02\0\x01", 20), 0);
    IS(vnc_screen_settings(s, 7, room), 0);
    IS(memcmp(room, &mapped, size), 0);
    IS(vnc_screen_close(s), 0);
    IS(vnc_screen_settings(s, 7, room), VNC_ERROR_CLOSED);
    IS(vnc_screen_settings_n(s, 7, 0, 0), VNC_ERROR_CLOSED);
    IS(memcmp(room, &mapped, size), 0);
    vnc_screen_free(s);
    return 0;
}

/* A program's own pixels: 32 bits, 16 bits, bytes by a table, what lies off the screen, and refusals. */
static int takes(void)
{
    static const uint8_t pixels[8] = {0x33, 0x22, 0x11, 0, 0, 0xf8, 0xff, 0};
    static const uint32_t table[257] = {0x010203, 0x040506};
    vnc_pixel_format format = {2, 0, 31, 63, 31, 11, 5, 0};
    vnc_screen *s = 0;
    IS(vnc_screen_new(2, 1, "x", 50, &s), 0);
    IS(vnc_screen_update_from(s, 0, 0, 2, 1, pixels, 8, 8, 0, 0, 0, 0), 2);
    IS(vnc_screen_colour(s, 0, 0) == 0x112233 && vnc_screen_colour(s, 1, 0) == 0xfff800, 1);
    IS(vnc_screen_update_from(s, 0, 0, 2, 1, pixels, 8, 8, 0, 0, 0, 0), 0);
    IS(vnc_screen_update_from(s, 1, 0, 2, 1, pixels, 8, 8, 0, 0, 0, 0), 1);
    IS(vnc_screen_update_from(s, 0, 0, 1, 1, pixels + 4, 2, 2, &format, 1, 0, 0), 1);
    IS(vnc_screen_colour(s, 0, 0), 0xff0000);
    IS(vnc_screen_update_from(s, 0, 0, 2, 1, pixels + 3, 2, 2, 0, 0, table, 2), 2);
    IS(vnc_screen_colour(s, 0, 0) == 0x010203 && vnc_screen_colour(s, 1, 0) == 0x010203, 1);
    IS(vnc_screen_update_from(s, 0, 0, 1, 1, pixels, 2, 2, &format, 1, table, 2), VNC_ERROR_BAD_FORMAT);
    IS(vnc_screen_update_from(s, 0, 0, 1, 1, pixels, 1, 1, 0, 0, table, 257), VNC_ERROR_BAD_FORMAT);
    IS(vnc_screen_update_from(s, 0, 0, 2, 1, pixels, 4, 3, &format, 1, 0, 0), VNC_ERROR_BAD_STRIDE);
    IS(vnc_screen_update_from(s, 0, 0, 2, 1, pixels, 3, 4, &format, 1, 0, 0), VNC_ERROR_TOO_FEW_BYTES);
    IS(vnc_screen_close(s), 0);
    IS(vnc_screen_update_from(s, 0, 0, 0, 0, pixels, 0, 0, 0, 0, 0, 0), VNC_ERROR_CLOSED);
    vnc_screen_free(s);
    return 0;
}

/* The screen and the update of what follows, and what goes into them and comes out of them. */
static vnc_screen *s;
static vnc_update *u;
static uint8_t room[9000], text[300000];
static uint32_t colours[64 * 48];
static vnc_input in[4];

/* What no screen is made of; a viewer, and its opening (7.1 to 7.3). */
static int opens(void)
{
    static char name[257];
    memset(name, 'x', 256);
    s = (vnc_screen *)name;
    IS(vnc_screen_new(0, 1, "x", 50, &s), VNC_ERROR_BAD_SIZE);
    IS(vnc_screen_new(8193, 1, "x", 50, &s), VNC_ERROR_BAD_SIZE);
    IS(vnc_screen_new(1, 1, name, 50, &s), VNC_ERROR_BAD_NAME);
    IS(vnc_screen_new(1, 1, "x", 0, &s), VNC_ERROR_BAD_RECT_LIMIT);
    IS(s != 0, 0);
    IS(vnc_screen_new(64, 48, "x", 50, &s), 0);
    IS(vnc_screen_width(s), 64);
    IS(vnc_screen_height(s), 48);
    IS(vnc_screen_connect(s, 7), 0);
    IS(vnc_screen_connect(s, 7), VNC_ERROR_NUMBER_IN_USE);
    IS(vnc_screen_output(s, 7, room, 5), 5);
    IS(vnc_screen_output(s, 7, room + 5, sizeof room - 5), 7);
    IS(memcmp(room, "RFB 003.008\n", 12), 0);
    IS(vnc_screen_output(s, 8, room, 1), VNC_ERROR_NO_VIEWER);
    IS(vnc_screen_hear(s, 8, opening, 14), VNC_ERROR_NO_VIEWER);
    IS(vnc_screen_hear(s, 7, opening, 0), 0);
    IS(vnc_screen_is_open(s, 7), 0);
    IS(vnc_screen_hear(s, 7, opening, 14), 0);
    IS(vnc_screen_is_open(s, 7), 1);
    IS(vnc_screen_output(s, 7, room, sizeof room), 31);
    return 0;
}

/* Drawing, and what is refused of it. */
static int draws(void)
{
    static const vnc_rect all = {0, 0, 64, 48}, far = {0, 0, 2000000, 1};
    int32_t i;
    IS(vnc_screen_paint(s, 0, 0, 2, 1, colours, 1), VNC_ERROR_BAD_PIXEL_COUNT);
    IS(vnc_screen_paint(s, -1, 0, 1, 1, colours, 1), VNC_ERROR_BAD_RECT);
    for (i = 0; i < 64 * 48; i++) colours[i] = (uint32_t)i;
    IS(vnc_screen_paint(s, 0, 0, 64, 48, colours, 64 * 48), 0);
    IS(vnc_screen_colour(s, 63, 47), 64 * 48 - 1);
    IS(vnc_screen_colour(s, 64, 0), VNC_ERROR_OFF_SCREEN);
    IS(vnc_screen_mark_rect(s, -2147483647 - 1, 99, 2147483647, -99), 0);
    IS(vnc_screen_mark_region(s, &all, 1), 0);
    IS(vnc_screen_mark_region(s, &far, 1), VNC_ERROR_OUT_OF_RANGE);
    IS(vnc_screen_schedule_copy_region(s, &far, 1, 1, 1), VNC_ERROR_OUT_OF_RANGE);
    IS(vnc_screen_do_copy_region(s, &all, 1, 0, 0), 0);
    IS(vnc_screen_bell(s), 0);
    IS(vnc_screen_cut_text(s, (const uint8_t *)"hi", 2), 0);
    IS(vnc_screen_cut_text(s, text, 65537), VNC_ERROR_TEXT_TOO_LONG);
    return 0;
}

/* What waits for a viewer: a bell and a text, and once it asks, the picture (7.5.3). */
static int cuts(void)
{
    long sum = 0;
    int32_t n;
    IS(vnc_screen_is_pending(s, 7), 1);
    IS(vnc_screen_cut(s, 7), 1);
    IS(vnc_screen_cut(s, 7), VNC_ERROR_OUTPUT_WAITS);
    while ((n = vnc_screen_output(s, 7, room, sizeof room)) > 0) sum += n;
    IS(n, 0);
    IS(sum, 11);
    IS(vnc_screen_cut(s, 7), 0);
    IS(vnc_screen_is_asking(s, 7), 0);
    IS(vnc_screen_is_asking(s, 8), VNC_ERROR_NO_VIEWER);
    IS(vnc_screen_hear(s, 7, (const uint8_t *)"\x03\x00\x00\x00\x00\x00\x00\x40\x00\x30", 10), 0);
    IS(vnc_screen_is_asking(s, 7), 1);
    IS(vnc_screen_cut(s, 7), 1);
    for (sum = 0; (n = vnc_screen_output(s, 7, room, sizeof room)) > 0;) sum += n;
    IS(sum, 4 + 12 + 4 * 64 * 48);
    return 0;
}

/* An update apart. */
static int cuts_apart(void)
{
    long sum = 0;
    int32_t n, i;
    IS(vnc_update_new(&u), 0);
    IS(vnc_update_output(u, room, sizeof room), 0);
    IS(vnc_screen_cut_into(s, 8, u), VNC_ERROR_NO_VIEWER);
    IS(vnc_screen_cut_into(s, 7, u), 0);
    IS(vnc_screen_bell(s), 0);
    IS(vnc_screen_cut(s, 7), 1);
    IS(vnc_screen_bell(s), 0);
    IS(vnc_screen_cut_into(s, 7, u), VNC_ERROR_OUTPUT_WAITS);
    IS(vnc_screen_output(s, 7, room, sizeof room), 1);
    IS(vnc_screen_cut_into(s, 7, u), 1);
    IS(vnc_screen_output(s, 7, room, sizeof room), 0);
    IS(vnc_screen_bell(s), 0);
    IS(vnc_screen_cut_into(s, 7, u), VNC_ERROR_OUTPUT_WAITS);
    IS(vnc_update_output(u, room, 0), 0);
    IS(vnc_update_output(u, room, sizeof room), 1);
    IS(room[0], 2); /* a bell */
    IS(vnc_update_output(u, room, sizeof room), 0);
    IS(vnc_screen_cut_into(s, 7, u), 1);
    IS(vnc_update_clear(u), 0);
    IS(vnc_update_clear(u), 0);
    IS(vnc_update_output(u, room, sizeof room), 0);
    IS(vnc_screen_hear(s, 7, (const uint8_t *)"\x03\x00\x00\x00\x00\x00\x00\x40\x00\x30", 10), 0);
    IS(vnc_screen_cut_into(s, 7, u), 1);
    IS(vnc_screen_paint(s, 0, 0, 1, 1, colours + 9, 1), 0);
    for (sum = i = 0; (n = vnc_update_output(u, room, 16)) > 0; i += n) {
        if (i == 16) IS(room[0] | room[1] | room[2], 0); /* black, as the first place was */
        sum += n;
    }
    IS(sum, 4 + 12 + 4 * 64 * 48);
    return 0;
}

/* What viewers told (7.5.4 to 7.5.6). */
static int tells(void)
{
    static const uint8_t head[8] = {6, 0, 0, 0, 0, 4, 0, 1}; /* a text of 262,145 bytes */
    IS(vnc_screen_hear(s, 7, (const uint8_t *)"\x04\x01\0\0\0\0\0\x61\x05\x05\0\x03\0\x04\x06\0\0\0\0\0\0\x03yes", 25), 0);
    IS(vnc_screen_connect(s, 9), 0);
    IS(vnc_screen_hear(s, 9, opening, 14), 0);
    IS(vnc_screen_hear(s, 9, (const uint8_t *)"\x04\x00\0\0\0\0\0\x62", 8), 0);
    IS(vnc_screen_next_inputs(s, in, 2), 2);
    IS(in[0].viewer == 7 && in[0].kind == VNC_INPUT_KEY && in[0].down == 1 && in[0].key == 0x61, 1);
    IS(in[1].kind == VNC_INPUT_POINTER && in[1].buttons == 5 && in[1].x == 3 && in[1].y == 4, 1);
    IS(vnc_screen_next_inputs(s, in, 4), 1);
    IS(in[0].kind == VNC_INPUT_TEXT && in[0].length == 3 && in[0].shortened == 0, 1);
    IS(vnc_screen_text(s, text, sizeof text), 3);
    IS(memcmp(text, "yes", 3), 0);
    IS(vnc_screen_next_inputs(s, in, 4), 1);
    IS(in[0].viewer == 9 && in[0].kind == VNC_INPUT_KEY && in[0].down == 0 && in[0].key == 0x62, 1);
    IS(vnc_screen_next_inputs(s, in, 4), 0);
    IS(vnc_screen_hear(s, 9, head, 8), 0);
    memset(text, 'y', sizeof text);
    IS(vnc_screen_hear(s, 9, text, 262145), 0);
    IS(vnc_screen_next_inputs(s, in, 4), 1);
    IS(in[0].kind == VNC_INPUT_TEXT && in[0].length == 262144 && in[0].shortened == 1, 1);
    IS(vnc_screen_text(s, text, 10), 10);
    return 0;
}

/* Who is there, who met a fault and goes, and another picture. */
static int goes(void)
{
    uint64_t numbers[3] = {0, 0, 0};
    IS(vnc_screen_viewer_count(s), 2);
    IS(vnc_screen_numbers(s, numbers, 3), 2);
    IS(numbers[0] == 7 && numbers[1] == 9 && numbers[2] == 0, 1);
    IS(vnc_screen_hear(s, 9, (const uint8_t *)"\xff", 1), VNC_FAULT_UNKNOWN_MESSAGE + 255);
    IS(vnc_screen_fault(s, 9), VNC_FAULT_UNKNOWN_MESSAGE + 255);
    IS(vnc_screen_fault(s, 7), 0);
    IS(vnc_screen_close_viewer(s, 9), 0);
    IS(vnc_screen_close_viewer(s, 9), VNC_ERROR_NO_VIEWER);
    IS(vnc_screen_is_live(s, 9), 0);
    IS(vnc_screen_new_framebuffer(s, 8192, 2049), VNC_ERROR_BAD_SIZE);
    IS(vnc_screen_new_framebuffer(s, 3, 2), 0);
    IS(vnc_screen_write_pixels(s, 0, 0, 3, 2, colours, 6), 0);
    IS(vnc_screen_schedule_copy_rect(s, 1, 0, 3, 2, 1, 0), 0);
    IS(vnc_screen_do_copy_rect(s, 1, 0, 3, 1, 1, 0), 0);
    IS(vnc_screen_colour(s, 2, 0), 1);
    return 0;
}

/* A screen that is closed, and opened again. */
static int ends(void)
{
    IS(vnc_screen_close(s), 0);
    IS(vnc_screen_bell(s), VNC_ERROR_CLOSED);
    IS(vnc_screen_connect(s, 1), VNC_ERROR_CLOSED);
    IS(vnc_screen_output(s, 7, room, 1), VNC_ERROR_CLOSED);
    IS(vnc_screen_cut_into(s, 7, u), VNC_ERROR_CLOSED);
    IS(vnc_update_output(u, room, 1), 0);
    IS(vnc_screen_next_inputs(s, in, 4), VNC_ERROR_CLOSED);
    IS(vnc_screen_width(s), VNC_ERROR_CLOSED);
    IS(vnc_screen_close(s), 0);
    IS(vnc_screen_open(s, 8192, 2048, "x", 1), 0);
    IS(vnc_screen_open(s, 8192, 2049, "x", 1), VNC_ERROR_BAD_SIZE);
    IS(vnc_screen_width(s), 8192);
    IS(vnc_screen_open(s, 2, 2, "x", 1), 0);
    IS(vnc_screen_viewer_count(s), 0);
    return 0;
}

int main(void)
{
    IS(vnc_screen_abi(), VNC_SCREEN_ABI);
    if (settings() || takes() || opens() || draws() || cuts() || cuts_apart() || tells() || goes() || ends()) return 1;
    vnc_screen_free(s);
    vnc_update_free(u);
    puts("edges ok");
    return 0;
}
