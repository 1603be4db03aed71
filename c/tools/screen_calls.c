/* screen_calls.c: the calls of vnc_screen.h, with what RFC 6143 has for them: "screen_calls ok" where each answer is the one that stands
 * here. */
#define _POSIX_C_SOURCE 200809L
#include "vnc_screen.h"
#include "checks.h"
#include <pthread.h>

/* A screen, of 2 by 1 and named "demo" once it is open, and an update apart. */
static vnc_screen *s;
static vnc_update *u;
static const vnc_rect all = {0, 0, 2, 1};
static const uint32_t some[3] = {1, 2, 3}, red = 0xff0000;

/* The opening of a viewer of version 3.8 that takes the security type None and shares (7.1.1, 7.1.2, 7.3.1); and a request of all (7.5.3). */
#define OPENING "RFB 003.008\n\x01\x01"
#define REQUEST "\x03\0\0\0\0\0\0\x02\0\x01"

/* What a viewer is sent that asked for all, where the first place is red (7.6.1). */
#define RED_AND_BLACK "\0\0\0\x01\0\0\0\0\0\x02\0\x01\0\0\0\0\0\0\xff\0\0\0\0\0"

static int opens(vnc_screen *screen) { return vnc_screen_open(screen, 2, 1, "demo", 50); }

static int hears(vnc_screen *screen, uint64_t viewer, const char *piece, size_t count) { return vnc_screen_hear(screen, viewer, (const uint8_t *)piece, count); }

/* The same with a viewer 7 whose opening is over, and who was sent what it was answered; and where it asked for all, the first place being
 * red. */
static int opens_with_viewer(vnc_screen *screen)
{
    uint8_t room[64];
    IS(opens(screen), 0);
    IS(vnc_screen_connect(screen, 7), 0);
    IS(vnc_screen_output(screen, 7, room, 64), 12);
    IS(hears(screen, 7, B(OPENING)), 0);
    IS(vnc_screen_output(screen, 7, room, 64), 34);
    return 0;
}

static int opens_with_asking(vnc_screen *screen)
{
    DO(opens_with_viewer(screen));
    IS(vnc_screen_paint(screen, 0, 0, 1, 1, &red, 1), 0);
    IS(hears(screen, 7, B(REQUEST)), 0);
    return 0;
}

/* Whether the next bytes, fetched one by one, are just RED_AND_BLACK: those that wait for it in a screen, or those that an update holds. */
static int gives(vnc_screen *screen, vnc_update *update)
{
    uint8_t bytes[26] = {0};
    int i, count = 0;
    for (i = 0; i < 25; i++) count += screen ? vnc_screen_output(screen, 7, bytes + i, 1) : vnc_update_output(update, bytes + i, 1);
    return count == 24 && memcmp(bytes, RED_AND_BLACK, 24) == 0;
}

/* The header's numbers, which callers in other languages have too. */
static const struct { int code, number; } codes[] = {
    {VNC_ERROR_BAD_SIZE, -1},        {VNC_ERROR_BAD_NAME, -2},       {VNC_ERROR_BAD_RECT_LIMIT, -3},  {VNC_ERROR_BAD_RECT, -4},      {VNC_ERROR_BAD_PIXEL_COUNT, -5},
    {VNC_ERROR_TEXT_TOO_LONG, -6},   {VNC_ERROR_NO_VIEWER, -7},      {VNC_ERROR_NUMBER_IN_USE, -8},   {VNC_ERROR_NO_MEMORY, -9}, {VNC_ERROR_OUT_OF_RANGE, -10},
    {VNC_ERROR_OUTPUT_WAITS, -11},   {VNC_ERROR_OFF_SCREEN, -12},    {VNC_ERROR_BAD_ADDRESS, -13},    {VNC_ERROR_CANNOT_LISTEN, -14}, {VNC_ERROR_NETWORK, -15},
    {VNC_ERROR_CLOCK, -16},   {VNC_ERROR_BAD_FORMAT, -17},    {VNC_ERROR_BAD_STRIDE, -18},     {VNC_ERROR_TOO_FEW_BYTES, -19}, {VNC_ERROR_CLOSED, -32},
    {VNC_FAULT_VERSION, 1},      {VNC_FAULT_SECURITY_TYPE, 2}, {VNC_FAULT_BITS_PER_PIXEL, 3}, {VNC_FAULT_COLOUR_MAP, 4}, {VNC_FAULT_UNKNOWN_MESSAGE, 256},
    {VNC_INPUT_KEY, 1},              {VNC_INPUT_POINTER, 2},         {VNC_INPUT_TEXT, 3},
};

/* A screen is opened or refused. */
static int opens_or_not(void)
{
    static const uint8_t name[256] = {'a'};
    size_t k;
    EACH(k, codes) IS(codes[k].code, codes[k].number);
    IS(vnc_screen_open(s, 8192, 2049, "", 1), VNC_ERROR_BAD_SIZE);
    IS(vnc_screen_open_n(s, 2, 1, name, 256, 1), VNC_ERROR_BAD_NAME);
    IS(vnc_screen_open(s, 2, 1, "", 1001), VNC_ERROR_BAD_RECT_LIMIT);
    IS(vnc_screen_bell(s), VNC_ERROR_CLOSED);
    IS(vnc_screen_open(s, 2, 1, "", 1), 0);
    IS(vnc_screen_bell(s), 0);
    IS(vnc_screen_close(s), 0);
    IS(vnc_screen_width(s), VNC_ERROR_CLOSED);
    return 0;
}

/* A viewer is answered: the version (7.1.1), the security types (7.1.2), the result (7.1.3) and the ServerInit (7.3.2). */
static int answers(void)
{
    static const char init[] = "\x01\x01\0\0\0\0\0\x02\0\x01\x20\x18\0\x01\0\xff\0\xff\0\xff\x10\x08\0\0\0\0\0\0\0\x04" "demo";
    uint8_t room[34];
    IS(opens(s), 0);
    IS(vnc_screen_connect(s, 7), 0);
    IS(vnc_screen_output(s, 7, room, 12), 12);
    HOLDS(memcmp(room, "RFB 003.008\n", 12) == 0);
    IS(hears(s, 7, B(OPENING)), 0);
    IS(vnc_screen_output(s, 7, room, 34), 34);
    HOLDS(memcmp(room, init, 34) == 0);
    IS(vnc_screen_is_open(s, 7), 1);
    return vnc_screen_close(s);
}

/* ---- Updates */

/* An update is pending once it is asked for, and is fetched in pieces of any size. Nothing of a viewer's waits once it is closed. */
static int pieces(void)
{
    uint8_t room[24];
    DO(opens_with_viewer(s));
    IS(vnc_screen_paint(s, 0, 0, 1, 1, &red, 1), 0);
    IS(vnc_screen_is_pending(s, 7), 0);
    IS(vnc_screen_is_asking(s, 7), 0);
    IS(hears(s, 7, B(REQUEST)), 0);
    IS(vnc_screen_is_pending(s, 7), 1);
    IS(vnc_screen_is_asking(s, 7), 1);
    IS(vnc_screen_cut(s, 7), 1);
    IS(vnc_screen_cut(s, 7), VNC_ERROR_OUTPUT_WAITS);
    IS(vnc_screen_output(s, 7, room, 4), 4);
    IS(vnc_screen_output(s, 7, room + 4, 12), 12);
    IS(vnc_screen_output(s, 7, room + 16, 8), 8);
    HOLDS(memcmp(room, RED_AND_BLACK, 24) == 0);
    IS(vnc_screen_cut(s, 7), 0);
    IS(hears(s, 7, B(REQUEST)), 0);
    IS(vnc_screen_cut(s, 7), 1);
    IS(vnc_screen_close_viewer(s, 7), 0);
    IS(vnc_screen_close_viewer(s, 7), VNC_ERROR_NO_VIEWER);
    IS(vnc_screen_connect(s, 7), 0);
    IS(vnc_screen_output(s, 7, room, 24), 12);
    IS(vnc_screen_output(s, 7, room, 24), 0);
    return vnc_screen_close(s);
}

/* Where output waits for two viewers, each fetches its own, whichever came first. */
static int each_its_own(void)
{
    uint8_t room[16];
    DO(opens_with_asking(s));
    IS(vnc_screen_cut(s, 7), 1);
    IS(vnc_screen_connect(s, 8), 0);
    IS(vnc_screen_output(s, 8, room, 16), 12);
    HOLDS(memcmp(room, "RFB 003.008\n", 12) == 0);
    IS(vnc_screen_output(s, 8, room, 16), 0);
    HOLDS(gives(s, 0));
    return 0;
}

/* How many bytes wait for viewer 7, at most so many, which go to the room. */
static int32_t fetches(uint8_t *room, int32_t most)
{
    int32_t sum = 0, count;
    while ((count = vnc_screen_output(s, 7, room + sum, (size_t)(most - sum))) > 0) sum += count;
    return sum;
}

/* The log that viewers share holds 256 entries; those before a further one are joined to one of marks, but where a copy is among them: a
 * viewer that takes CopyRect (7.7.2) is sent the copy (7.6.1), and what was marked in Raw. */
static int joins(void)
{
    static const char sent[] = "\0\0\0\x02\0\x01\0\0\0\x01\0\x01\0\0\0\x01\0\0\0\0\0\x03\0\0\0\x01\0\x01\0\0\0\0\x04\0\0\0";
    static const uint32_t four[4] = {1, 2, 3, 4};
    uint8_t room[64];
    int i;
    IS(vnc_screen_open(s, 4, 1, "demo", 50), 0);
    IS(vnc_screen_paint(s, 0, 0, 4, 1, four, 4), 0);
    IS(vnc_screen_connect(s, 7), 0);
    IS(fetches(room, 64), 12);
    IS(hears(s, 7, B(OPENING "\x02\0\0\x02\0\0\0\x01\0\0\0\0\x03\0\0\0\0\0\0\x04\0\x01")), 0);
    IS(fetches(room, 64), 34);
    IS(vnc_screen_cut(s, 7), 1);
    IS(fetches(room, 64), 4 + 12 + 4 * 4);
    IS(vnc_screen_do_copy_rect(s, 1, 0, 2, 1, 1, 0), 0);
    for (i = 0; i < 300; i++) IS(vnc_screen_mark_rect(s, 3, 0, 4, 1), 0);
    IS(hears(s, 7, B("\x03\x01\0\0\0\0\0\x04\0\x01")), 0);
    IS(vnc_screen_cut(s, 7), 1);
    IS(fetches(room, 64), 36);
    HOLDS(memcmp(room, sent, 36) == 0);
    return vnc_screen_close(s);
}

/* An update apart has the bytes that the screen gives, and stays as it was cut. */
static int apart(void)
{
    vnc_screen *other = 0;
    uint8_t room[4];
    IS(vnc_screen_new(1, 1, "", 1, &other), 0);
    DO(opens_with_asking(s));
    DO(opens_with_asking(other));
    IS(vnc_screen_cut_into(s, 7, u), 1);
    IS(vnc_screen_cut(other, 7), 1);
    HOLDS(gives(0, u));
    HOLDS(gives(other, 0));
    vnc_screen_free(other);
    DO(opens_with_asking(s));
    IS(vnc_screen_cut_into(s, 7, u), 1);
    IS(vnc_screen_output(s, 7, room, 4), 0);
    IS(vnc_screen_paint(s, 0, 0, 2, 1, some, 2), 0);
    IS(vnc_screen_close_viewer(s, 7), 0);
    IS(vnc_screen_close(s), 0);
    HOLDS(gives(0, u));
    return 0;
}

/* It is fetched whole before the next, or cleared, and none goes before what waits in the screen. */
static int in_order(void)
{
    uint8_t room[4];
    DO(opens_with_asking(s));
    IS(vnc_screen_cut_into(s, 8, u), VNC_ERROR_NO_VIEWER);
    IS(vnc_screen_cut_into(s, 7, u), 1);
    IS(vnc_update_output(u, room, 4), 4);
    HOLDS(memcmp(room, RED_AND_BLACK, 4) == 0);
    IS(vnc_screen_cut_into(s, 7, u), VNC_ERROR_OUTPUT_WAITS);
    IS(vnc_update_clear(u), 0);
    IS(vnc_update_output(u, room, 4), 0);
    IS(vnc_screen_cut_into(s, 7, u), 0);
    IS(hears(s, 7, B(REQUEST)), 0);
    IS(vnc_screen_cut_into(s, 7, u), 1);
    HOLDS(gives(0, u));
    IS(vnc_screen_cut_into(s, 7, u), 0);
    IS(hears(s, 7, B(REQUEST)), 0);
    IS(vnc_screen_cut(s, 7), 1);
    IS(vnc_screen_cut_into(s, 7, u), VNC_ERROR_OUTPUT_WAITS);
    IS(vnc_update_output(u, room, 4), 0);
    HOLDS(gives(s, 0));
    IS(vnc_screen_cut_into(s, 7, u), 0);
    IS(vnc_screen_close(s), 0);
    IS(vnc_screen_cut_into(s, 7, u), VNC_ERROR_CLOSED);
    return 0;
}

/* It is fetched by one thread while another one paints all of the screen, over and over. */
static int32_t painted;

static void *paints_on(void *unused)
{
    uint32_t colour;
    (void)unused;
    for (colour = 0; colour < 100; colour++) {
        const uint32_t colours[2] = {colour, colour};
        painted = vnc_screen_paint(s, 0, 0, 2, 1, colours, 2);
    }
    return 0;
}

static int meanwhile(void)
{
    pthread_t other;
    int is_held;
    DO(opens_with_asking(s));
    IS(vnc_screen_cut_into(s, 7, u), 1);
    painted = 1;
    IS(pthread_create(&other, 0, paints_on, 0), 0);
    is_held = gives(0, u);
    IS(pthread_join(other, 0), 0);
    HOLDS(is_held);
    IS(painted, 0);
    IS(vnc_screen_colour(s, 0, 0), 99);
    return vnc_screen_close(s);
}

/* ---- Viewers */

/* A key goes down (7.5.4), the buttons 1 and 3 at (3, 4), off the screen (7.5.5), a text (7.5.6), and the pointer once more: inputs are
 * fetched up to a text, with what belongs to their kinds and 0 for the rest. */
static const vnc_input told[] = {
    {7, VNC_INPUT_KEY, 1, 0x61, 0, 0, 0, 0, 0},
    {7, VNC_INPUT_POINTER, 0, 0, 5, 3, 4, 0, 0},
    {7, VNC_INPUT_TEXT, 0, 0, 0, 0, 0, 3, 0},
    {7, VNC_INPUT_POINTER, 0, 0, 0, 0, 0, 0, 0},
};

static int tells(void)
{
    vnc_input in[4];
    uint8_t text[8] = {0};
    size_t k;
    DO(opens_with_viewer(s));
    IS(hears(s, 7, B("\x04\x01\0\0\0\0\0\x61\x05\x05\0\x03\0\x04")), 0);
    IS(hears(s, 7, B("\x06\0\0\0\0\0\0\x03yes\x05\0\0\0\0\0")), 0);
    IS(vnc_screen_next_inputs(s, in, 4), 3);
    IS(vnc_screen_text(s, text, 8), 3);
    HOLDS(memcmp(text, "yes\0\0\0\0\0", 8) == 0);
    IS(vnc_screen_next_inputs(s, in + 3, 1), 1);
    EACH(k, told) ROW(k, !is_input(in + k, &told[k]));
    return vnc_screen_close(s);
}

/* A fault has the message's type (7.5), and viewers have numbers, in order of connecting. */
static int numbers(void)
{
    uint64_t room[4] = {0, 0, 0, 0};
    DO(opens_with_viewer(s));
    IS(vnc_screen_fault(s, 7), 0);
    IS(hears(s, 7, B("\xff")), VNC_FAULT_UNKNOWN_MESSAGE + 255);
    IS(vnc_screen_fault(s, 7), VNC_FAULT_UNKNOWN_MESSAGE + 255);
    IS(vnc_screen_is_open(s, 7), 0);
    IS(vnc_screen_fault(s, 8), VNC_ERROR_NO_VIEWER);
    IS(opens(s), 0);
    IS(vnc_screen_connect(s, 9), 0);
    IS(vnc_screen_connect(s, 9), VNC_ERROR_NUMBER_IN_USE);
    IS(vnc_screen_connect(s, 4), 0);
    IS(vnc_screen_viewer_count(s), 2);
    IS(vnc_screen_is_live(s, 4), 1);
    IS(vnc_screen_is_live(s, 5), 0);
    IS(vnc_screen_numbers(s, room, 4), 2);
    HOLDS(room[0] == 9 && room[1] == 4 && room[2] == 0 && room[3] == 0);
    return vnc_screen_close(s);
}

/* What nobody has set; a viewer that shares, in the server's format (7.3.2, 7.4) and in Raw (7.7.1); and one that doesn't (7.3.1). */
static const vnc_settings unset = {1, 99, 0, 0, 32, 77, 0, 1, 255, 255, 255, 16, 8, 0, 0}, shared = {1, 0, 0, 0, 32, 24, 0, 1, 255, 255, 255, 16, 8, 0, 0};
static const vnc_settings unshared = {0, 0, 0, 0, 32, 24, 0, 1, 255, 255, 255, 16, 8, 0, 0};

/* Whether a call answers this of a viewer, and shows this in the first of two places. */
static int shows(uint64_t viewer, int32_t code, const vnc_settings *want)
{
    vnc_settings room[2];
    room[0] = room[1] = unset;
    return vnc_screen_settings(s, viewer, room) == code && is_set(room, want) && is_set(room + 1, &unset);
}

/* A viewer shares once it says so (7.3.1), another one doesn't; and what is shown of nobody leaves the room as it was. */
static int share(void)
{
    vnc_settings one = unset;
    IS(opens(s), 0);
    IS(vnc_screen_connect(s, 7), 0);
    IS(hears(s, 7, B("RFB 003.008\n\x01")), 0);
    HOLDS(shows(7, 0, &unshared));
    IS(hears(s, 7, B("\x01")), 0);
    HOLDS(shows(7, 0, &shared));
    IS(vnc_screen_connect(s, 8), 0);
    IS(hears(s, 8, B("RFB 003.008\n\x01\0")), 0);
    HOLDS(shows(8, 0, &unshared));
    HOLDS(shows(7, 0, &shared));
    IS(vnc_screen_settings_n(s, 7, 0, 0), 0);
    IS(vnc_screen_settings(s, 7, &one), 0);
    HOLDS(is_set(&one, &shared));
    HOLDS(shows(9, VNC_ERROR_NO_VIEWER, &unset));
    IS(vnc_screen_settings_n(s, 9, 0, 0), VNC_ERROR_NO_VIEWER);
    IS(vnc_screen_close_viewer(s, 7), 0);
    HOLDS(shows(7, VNC_ERROR_NO_VIEWER, &unset));
    IS(vnc_screen_close(s), 0);
    HOLDS(shows(7, VNC_ERROR_CLOSED, &unset));
    return 0;
}

/* What a viewer says, and what it has set then: formats (7.5.1) of 16 bits, the highest byte first, and of 8 with a colour map, of whose
 * components nothing is looked at; after its opening anew, encodings (7.5.2): CopyRect (7.7.2), Hextile (7.7.4), RRE (7.7.3) and DesktopSize
 * (7.8.2), the number -223; RRE alone, and none; and requests of all, of changes, and of all (7.5.3). */
static const struct { int anew; const char *said; size_t count; vnc_settings set; } settings[] = {
    {1, B("\0\0\0\0\x10\x0f\x01\x01\0\x1f\0\x3f\0\x1e\x0b\x05\x01\0\0\0"), {1, 0, 0, 0, 16, 15, 1, 1, 31, 63, 30, 11, 5, 1, 0}},
    {0, B("\0\0\0\0\x08\x06\0\0\0\x1f\0\x3f\0\x1f\x0b\x05\x01\0\0\0"), {1, 0, 0, 0, 8, 6, 0, 0, 0, 0, 0, 0, 0, 0, 0}},
    {1, B("\x02\0\0\x04\0\0\0\x01\0\0\0\x05\0\0\0\x02\xff\xff\xff\x21"), {1, 5, 1, 1, 32, 24, 0, 1, 255, 255, 255, 16, 8, 0, 0}},
    {0, B("\x02\0\0\x01\0\0\0\x02"), {1, 2, 0, 0, 32, 24, 0, 1, 255, 255, 255, 16, 8, 0, 0}},
    {0, B("\x02\0\0\0"), {1, 0, 0, 0, 32, 24, 0, 1, 255, 255, 255, 16, 8, 0, 0}},
    {0, B(REQUEST), {1, 0, 0, 0, 32, 24, 0, 1, 255, 255, 255, 16, 8, 0, 1}},
    {0, B("\x03\x01\0\0\0\0\0\x02\0\x01"), {1, 0, 0, 0, 32, 24, 0, 1, 255, 255, 255, 16, 8, 0, 1}},
    {0, B(REQUEST), {1, 0, 0, 0, 32, 24, 0, 1, 255, 255, 255, 16, 8, 0, 2}},
};

static int sets(size_t k)
{
    if (settings[k].anew) DO(opens_with_viewer(s));
    IS(hears(s, 7, settings[k].said, settings[k].count), 0);
    HOLDS(shows(7, 0, &settings[k].set));
    return 0;
}

/* ---- Drawing */

static int draws(void)
{
    static const vnc_rect far[2] = {{0, 0, 2, 1}, {0, 0, 1 << 21, 1}};
    IS(opens(s), 0);
    IS(vnc_screen_write_pixels(s, 0, 0, 2, 1, some, 2), 0);
    IS(vnc_screen_colour(s, 1, 0), 2);
    IS(vnc_screen_paint(s, 0, 0, 3, 1, some, 3), VNC_ERROR_BAD_RECT);
    IS(vnc_screen_paint(s, 0, 0, 2, 1, some, 1), VNC_ERROR_BAD_PIXEL_COUNT);
    IS(vnc_screen_do_copy_rect(s, 1, 0, 2, 1, 1, 0), 0);
    IS(vnc_screen_colour(s, 1, 0), 1);
    IS(vnc_screen_colour(s, 2, 0), VNC_ERROR_OFF_SCREEN);
    IS(vnc_screen_mark_region(s, &all, 1), 0);
    IS(vnc_screen_mark_region(s, far, 2), VNC_ERROR_OUT_OF_RANGE);
    IS(vnc_screen_schedule_copy_region(s, &all, 1, 1, 0), 0);
    IS(vnc_screen_do_copy_region(s, &all, 1, 0, 1), 0);
    IS(vnc_screen_mark_rect(s, 2, 1, 0, 0), 0);
    IS(vnc_screen_schedule_copy_rect(s, 1, 0, 2, 1, 1, 0), 0);
    IS(vnc_screen_cut_text(s, (const uint8_t *)"hi", 2), 0);
    IS(vnc_screen_new_framebuffer(s, 3, 0), VNC_ERROR_BAD_SIZE);
    IS(vnc_screen_new_framebuffer(s, 3, 2), 0);
    IS(vnc_screen_width(s), 3);
    IS(vnc_screen_height(s), 2);
    return vnc_screen_close(s);
}

/* A program's own pixels, one of which may lie off the screen: so many places change, and have these colours then. In 32 bits, whose top byte
 * isn't looked at; 5, 6 and 5 bits, red highest: red, and then the greatest value of each; and by a table. */
static const vnc_pixel_format sixteen = {2, 0, 31, 63, 31, 11, 5, 0}, no_green = {2, 0, 31, 0, 31, 11, 5, 0};
static const struct { uint32_t left; const char *bytes; size_t count, formats, table; int64_t places, colours[2]; } taken[] = {
    {0, B("\x03\x02\x01\xff\0\0\xff\0"), 0, 0, 2, {0x010203, 0xff0000}},
    {0, B("\x03\x02\x01\xff\0\0\xff\0"), 0, 0, 0, {0x010203, 0xff0000}},
    {0, B("\0\xf8\xff\xff"), 1, 0, 2, {0xff0000, 0xffffff}},
    {0, B("\0\x01"), 0, 2, 1, {0xff0000, 0x0000ff}},
    {1, B("\0\0"), 0, 2, 1, {0xff0000, 0xff0000}},
};

static int takes(size_t k)
{
    static const uint32_t table[2] = {0xff0000, 0x0000ff};
    IS(vnc_screen_update_from(s, taken[k].left, 0, 2, 1, (const uint8_t *)taken[k].bytes, taken[k].count, taken[k].count, &sixteen, taken[k].formats, table, taken[k].table),
       taken[k].places);
    IS(vnc_screen_colour(s, 0, 0), taken[k].colours[0]);
    IS(vnc_screen_colour(s, 1, 0), taken[k].colours[1]);
    return 0;
}

static int refuses_pixels(void)
{
    static const uint8_t bytes[4] = {7, 7, 7, 7};
    IS(opens(s), 0);
    IS(vnc_screen_update_from(s, 0, 0, 1, 1, bytes, 4, 4, &no_green, 1, 0, 0), VNC_ERROR_BAD_FORMAT);
    IS(vnc_screen_update_from(s, 0, 0, 1, 1, bytes, 4, 4, &sixteen, 1, some, 1), VNC_ERROR_BAD_FORMAT);
    IS(vnc_screen_update_from(s, 0, 0, 2, 1, bytes, 4, 3, &sixteen, 1, 0, 0), VNC_ERROR_BAD_STRIDE);
    IS(vnc_screen_update_from(s, 0, 0, 2, 1, bytes, 3, 4, &sixteen, 1, 0, 0), VNC_ERROR_TOO_FEW_BYTES);
    IS(vnc_screen_colour(s, 0, 0), 0);
    IS(vnc_screen_close(s), 0);
    IS(vnc_screen_update_from(s, 0, 0, 1, 1, bytes, 4, 4, 0, 0, 0, 0), VNC_ERROR_CLOSED);
    return 0;
}

int main(void)
{
    size_t k;
    s = (vnc_screen *)malloc(vnc_screen_size());
    HOLDS(s != 0);
    vnc_screen_init(s);
    IS(vnc_update_new(&u), 0);
    DO(opens_or_not());
    DO(answers());
    DO(pieces());
    DO(each_its_own());
    DO(joins());
    DO(apart());
    DO(in_order());
    DO(meanwhile());
    DO(tells());
    DO(numbers());
    DO(share());
    EACH(k, settings) ROW(k, sets(k));
    DO(draws());
    IS(opens(s), 0);
    EACH(k, taken) ROW(k, takes(k));
    DO(refuses_pixels());
    vnc_screen_free(s);
    vnc_update_free(u);
    puts("screen_calls ok");
    return 0;
}
