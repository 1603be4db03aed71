/* server_calls.c: each call of vnc_server.h of a server that is shut, of one that listens and of one that was closed, what can't be
 * listened on, and calls that are refused, which change nothing: "server_calls ok" where each answer is the one that stands here. */
#define _POSIX_C_SOURCE 200809L
#include "vnc_server.h"
#include "viewers.h"

static const uint32_t some[257] = {0xff8000, 5, 7};
static const vnc_rect place = {0, 0, 1, 1};

/* A call gives this, and the port is as it was. */
#define KEEPS(call, want) do { IS(call, want); IS(vnc_server_port(s), port); } while (0)

/* The calls that draw, on a picture of 2 by 1: each answers the same. */
static int draws(int want)
{
    int32_t port = vnc_server_port(s);
    KEEPS(vnc_server_paint(s, 0, 0, 1, 1, some, 1), want);
    KEEPS(vnc_server_write_pixels(s, 1, 0, 2, 1, some + 1, 1), want);
    KEEPS(vnc_server_mark_rect(s, 0, 0, 2, 1), want);
    KEEPS(vnc_server_mark_region(s, &place, 1), want);
    KEEPS(vnc_server_schedule_copy_rect(s, 1, 0, 2, 1, 1, 0), want);
    KEEPS(vnc_server_schedule_copy_region(s, &place, 1, 1, 0), want);
    KEEPS(vnc_server_do_copy_rect(s, 1, 0, 2, 1, 1, 0), want);
    KEEPS(vnc_server_do_copy_region(s, &place, 1, 0, 1), want);
    KEEPS(vnc_server_bell(s), want);
    KEEPS(vnc_server_cut_text(s, (const uint8_t *)"hi", 2), want);
    KEEPS(vnc_server_new_framebuffer(s, 2, 1), want);
    return 0;
}

/* Those that fetch or count: each answers 0 before anybody came and anything was drawn. */
static int counts(int want)
{
    vnc_input in[4];
    vnc_event events[2];
    uint8_t room[2];
    int32_t port = vnc_server_port(s);
    KEEPS(vnc_server_next_inputs(s, in, 4), want);
    KEEPS(vnc_server_next_events(s, events, 2), want);
    KEEPS(vnc_server_text(s, room, 2), want);
    KEEPS(vnc_server_lost_count(s), want);
    KEEPS(vnc_server_full_request_count(s), want);
    KEEPS(vnc_server_viewer_count(s), want);
    KEEPS(vnc_server_colour(s, 1, 0), want);
    return 0;
}

/* A server that is shut refuses these, and those above; its waker is shut too; and it may be closed once more. */
static int refuses_all(void)
{
    static const uint8_t pixel[4] = {0};
    vnc_settings set[1];
    uint64_t numbers[2];
    vnc_waker *w = 0;
    uint8_t room[2];
    DO(draws(VNC_ERROR_CLOSED));
    DO(counts(VNC_ERROR_CLOSED));
    IS(vnc_server_width(s), VNC_ERROR_CLOSED);
    IS(vnc_server_height(s), VNC_ERROR_CLOSED);
    IS(vnc_server_process_events(s, 0), VNC_ERROR_CLOSED);
    IS(vnc_server_adopt(s, -1), VNC_ERROR_CLOSED);
    IS(vnc_server_close_viewer(s, 1), VNC_ERROR_CLOSED);
    IS(vnc_server_viewer_address_n(s, 1, room, 2), VNC_ERROR_CLOSED);
    IS(vnc_server_settings(s, 1, set), VNC_ERROR_CLOSED);
    IS(vnc_server_is_open(s, 1), VNC_ERROR_CLOSED);
    IS(vnc_server_numbers(s, numbers, 2), VNC_ERROR_CLOSED);
    IS(vnc_server_fd(s), VNC_ERROR_CLOSED);
    IS(vnc_server_timeout(s), VNC_ERROR_CLOSED);
    IS(vnc_server_update_from(s, 0, 0, 1, 1, pixel, 4, 4, 0, 0, 0, 0), VNC_ERROR_CLOSED);
    IS(vnc_server_port(s), VNC_ERROR_CLOSED);
    IS(vnc_waker_new(s, &w), 0);
    IS(vnc_waker_wake(w), VNC_ERROR_CLOSED);
    vnc_waker_free(w);
    IS(vnc_server_close(s), 0);
    return 0;
}

/* It has what it was told to have, nobody was there, and nothing was drawn. */
static int begins(void)
{
    DO(counts(0));
    IS(vnc_server_width(s), 2);
    IS(vnc_server_height(s), 1);
    return 0;
}

static int each_call(void)
{
    vnc_settings set[1];
    vnc_waker *w = 0;
    DO(refuses_all());
    IS(listens(2, 1), 0);
    DO(begins());
    DO(draws(0));
    IS(vnc_server_process_events(s, 0), 0);
    IS(vnc_server_close_viewer(s, 1), VNC_ERROR_NO_VIEWER);
    IS(vnc_server_settings(s, 1, set), VNC_ERROR_NO_VIEWER);
    IS(vnc_server_fd(s) >= 0 && vnc_server_timeout(s) >= 0, 1);
    IS(vnc_waker_new(s, &w), 0);
    IS(vnc_waker_wake(w), 0);
    vnc_waker_free(w);
    return is_over();
}

/* What can't be listened on: sizes and names that no picture has, what is no IP address in digits, and an address of documents, which no
 * machine has. */
static const struct { const char *address; size_t address_count; uint32_t width, height; size_t name_count; int32_t code; } refused[] = {
    {B("127.0.0.1"), 0, 1, 4, VNC_ERROR_BAD_SIZE},
    {B("127.0.0.1"), 2, 0, 4, VNC_ERROR_BAD_SIZE},
    {B("127.0.0.1"), 8193, 1, 4, VNC_ERROR_BAD_SIZE},
    {B("127.0.0.1"), 2, 8193, 4, VNC_ERROR_BAD_SIZE},
    {B("127.0.0.1"), 8192, 2049, 4, VNC_ERROR_BAD_SIZE},
    {B("127.0.0.1"), 2, 1, 256, VNC_ERROR_BAD_NAME},
    {B("localhost"), 2, 1, 4, VNC_ERROR_BAD_ADDRESS},
    {B(""), 2, 1, 4, VNC_ERROR_BAD_ADDRESS},
    {B("127.0.0.1:80"), 2, 1, 4, VNC_ERROR_BAD_ADDRESS},
    {B("\xff"), 2, 1, 4, VNC_ERROR_BAD_ADDRESS},
    {B("192.0.2.1"), 2, 1, 4, VNC_ERROR_CANNOT_LISTEN},
};

static uint8_t letters[65537];

/* The first of these that is answered otherwise, or after which the port isn't what it was: its number; else 0. */
static size_t wrong_refusal(void)
{
    int32_t port = vnc_server_port(s);
    size_t k;
    for (k = 0; k < sizeof refused / sizeof *refused; k++) {
        int32_t code = vnc_server_listen_n(s, (const uint8_t *)refused[k].address, refused[k].address_count, 0, refused[k].width, refused[k].height, letters,
                                         refused[k].name_count, 8);
        if (code != refused[k].code || vnc_server_port(s) != port) return k + 1;
    }
    return 0;
}

/* A shut server stays shut where it can't listen, and one that listens goes on as it was, also on a port that is taken, as its own is. */
static int cannot_listen(void)
{
    int32_t port;
    IS(vnc_server_port(s), VNC_ERROR_CLOSED);
    IS(wrong_refusal(), 0);
    IS(listens(3, 2), 0);
    HOLDS(opens(&first));
    port = vnc_server_port(s);
    HOLDS(port > 0 && port <= 0xffff);
    IS(vnc_server_paint(s, 2, 1, 3, 2, some + 2, 1), 0);
    IS(wrong_refusal(), 0);
    IS(listens_on(s, port, 2, 1, 8), VNC_ERROR_CANNOT_LISTEN);
    IS(vnc_server_port(s), port);
    IS(vnc_server_width(s), 3);
    IS(vnc_server_height(s), 2);
    IS(vnc_server_colour(s, 2, 1), 7);
    IS(vnc_server_viewer_count(s), 1);
    return is_over();
}

/* Where the system refuses, errno says why, also once vnc_server_new has freed what it made; and nothing is handed out. */
static int says_why(void)
{
    vnc_server *other = s;
    IS(listens(2, 1), 0);
    errno = 0;
    IS(vnc_server_new("127.0.0.1", (uint16_t)vnc_server_port(s), 2, 1, "x", 1, &other), VNC_ERROR_CANNOT_LISTEN);
    IS(errno, EADDRINUSE);
    HOLDS(other == 0);
    IS(vnc_server_new("192.0.2.1", 0, 2, 1, "x", 1, &other), VNC_ERROR_CANNOT_LISTEN);
    IS(errno, EADDRNOTAVAIL);
    IS(vnc_server_new_recorded("127.0.0.1", 0, 2, 1, "x", 1, "/", &other), VNC_ERROR_CANNOT_RECORD);
    IS(errno, EEXIST);
    other = s;
    IS(vnc_server_new("127.0.0.1", 0, 0, 1, "x", 1, &other), VNC_ERROR_BAD_SIZE);
    HOLDS(other == 0);
    return is_over();
}

/* Each code has a text of its own, and so have no code and what is none. */
static int has_texts(void)
{
    int32_t code, other;
    for (code = VNC_ERROR_TOO_MANY_PORTS; code <= 0; code++) {
        HOLDS(strcmp(vnc_code_text(code), vnc_code_text(VNC_ERROR_CLOSED)) != 0);
        for (other = VNC_ERROR_TOO_MANY_PORTS - 1; other < code; other++) HOLDS(strcmp(vnc_code_text(code), vnc_code_text(other)) != 0);
    }
    IS(strcmp(vnc_code_text(7), vnc_code_text(0)), 0);
    IS(strcmp(vnc_code_text(INT32_MIN), vnc_code_text(VNC_ERROR_TOO_MANY_PORTS - 1)), 0);
    return 0;
}

/* The system chooses a port, on which viewers connect, and which another server can't have: that stays shut. */
static int chooses_port(void)
{
    vnc_server *other = (vnc_server *)malloc(vnc_server_size());
    HOLDS(other != 0);
    vnc_server_init(other);
    IS(listens(2, 1), 0);
    HOLDS(vnc_server_port(s) > 0 && vnc_server_port(s) <= 0xffff);
    HOLDS(connects(&first));
    IS(listens_on(other, vnc_server_port(s), 2, 1, 8), VNC_ERROR_CANNOT_LISTEN);
    IS(vnc_server_port(other), VNC_ERROR_CLOSED);
    vnc_server_free(other);
    return is_over();
}

/* A server on one address isn't reached at another of the machine's, though both are loopback's; one on all of them is reached at each. */
static int one_address(void)
{
    IS(listens(2, 1), 0);
    HOLDS(!connects_to(&first, "127.0.0.2", 0));
    IS(errno, ECONNREFUSED);
    HOLDS(connects_to(&first, "127.0.0.1", 0));
    IS(vnc_server_listen(s, "127.0.0.2", 0, 2, 1, "demo", 8), 0);
    HOLDS(!connects_to(&first, "127.0.0.1", 0));
    IS(errno, ECONNREFUSED);
    HOLDS(connects_to(&first, "127.0.0.2", 0));
    IS(vnc_server_listen(s, "0.0.0.0", 0, 2, 1, "demo", 8), 0);
    HOLDS(connects_to(&first, "127.0.0.1", 0));
    HOLDS(connects_to(&first, "127.0.0.2", 0));
    return is_over();
}

/* The smallest picture and the widest, no name and the longest are within bounds. The address for all of the machine's is one, on which
 * the server's own port is taken, and so is one of version 6, though the system may have none. */
static int bounds(void)
{
    int32_t code;
    IS(vnc_server_listen(s, "127.0.0.1", 0, 1, 1, "", 1), 0);
    IS(vnc_server_listen_n(s, (const uint8_t *)"127.0.0.1", 9, 0, 8192, 1, letters, 255, 1), 0);
    IS(vnc_server_width(s), 8192);
    IS(vnc_server_height(s), 1);
    IS(vnc_server_listen(s, "0.0.0.0", (uint16_t)vnc_server_port(s), 8192, 1, "", 1), VNC_ERROR_CANNOT_LISTEN);
    code = vnc_server_listen(s, "::1", 0, 2, 1, "aaaa", 1);
    HOLDS(code == 0 || code == VNC_ERROR_CANNOT_LISTEN);
    return is_over();
}

/* A server that listens anew closes the first viewer's connection, and begins anew; and once it is closed it is shut, its viewer's
 * connection is closed, and its port is free. */
static int listens_anew(void)
{
    int32_t port;
    IS(listens(3, 2), 0);
    HOLDS(opens(&first));
    IS(vnc_server_paint(s, 0, 0, 2, 1, some + 1, 2), 0);
    port = vnc_server_port(s);
    IS(listens(2, 1), 0);
    HOLDS(vnc_server_port(s) != port);
    DO(begins());
    HOLDS(ends(first));
    HOLDS(opens(&first));
    IS(vnc_server_viewer_count(s), 1);
    port = vnc_server_port(s);
    IS(vnc_server_close(s), 0);
    DO(refuses_all());
    HOLDS(ends(first));
    IS(listens_on(s, port, 2, 1, 8), 0);
    IS(vnc_server_port(s), port);
    DO(begins());
    return is_over();
}

/* Rectangles that are not on a picture of 2 by 1 or have their corners in the wrong order, and too few or too many colours. */
static const struct { int writes; vnc_rect at; size_t count; int32_t code; } undrawn[] = {
    {0, {0, 0, 3, 1}, 3, VNC_ERROR_BAD_RECT},         {0, {-1, 0, 1, 1}, 2, VNC_ERROR_BAD_RECT},
    {0, {0, 0, 1, 2}, 2, VNC_ERROR_BAD_RECT},         {0, {0, -1, 1, 1}, 2, VNC_ERROR_BAD_RECT},
    {0, {2, 0, 1, 1}, 1, VNC_ERROR_BAD_RECT},         {1, {2, 0, 3, 1}, 1, VNC_ERROR_BAD_RECT},
    {1, {0, 0, INT32_MAX, INT32_MAX}, 1, VNC_ERROR_BAD_RECT},
    {0, {0, 0, 2, 1}, 1, VNC_ERROR_BAD_PIXEL_COUNT},  {0, {0, 0, 2, 1}, 3, VNC_ERROR_BAD_PIXEL_COUNT},
    {1, {0, 0, 2, 1}, 0, VNC_ERROR_BAD_PIXEL_COUNT},
};

/* Sizes that no picture has, and viewers that there are not where 1 is the only one. */
static const uint32_t sizes[][2] = {{0, 1}, {1, 0}, {8193, 1}, {8192, 2049}};
static const uint64_t nobody[] = {0, 2, UINT64_MAX};

/* A component with no value above 0, one that doesn't fit, and pixels of no byte and of five; a format beside a table, and a table of 257
 * colours; rows that overlap, and fewer bytes than the rows take. */
static const struct { vnc_pixel_format format; size_t formats, table; uint32_t width; size_t count; uint64_t stride; int32_t code; } untaken[] = {
    {{2, 0, 31, 0, 31, 11, 5, 0}, 1, 0, 1, 8, 8, VNC_ERROR_BAD_FORMAT},   {{2, 0, 31, 63, 31, 12, 5, 0}, 1, 0, 1, 8, 8, VNC_ERROR_BAD_FORMAT},
    {{0, 0, 31, 63, 31, 11, 5, 0}, 1, 0, 1, 8, 8, VNC_ERROR_BAD_FORMAT},  {{5, 0, 31, 63, 31, 11, 5, 0}, 1, 0, 1, 8, 8, VNC_ERROR_BAD_FORMAT},
    {{2, 0, 31, 63, 31, 11, 5, 0}, 1, 1, 1, 8, 8, VNC_ERROR_BAD_FORMAT},  {{0, 0, 0, 0, 0, 0, 0, 0}, 0, 257, 1, 8, 8, VNC_ERROR_BAD_FORMAT},
    {{0, 0, 0, 0, 0, 0, 0, 0}, 0, 0, 2, 8, 7, VNC_ERROR_BAD_STRIDE},      {{0, 0, 0, 0, 0, 0, 0, 0}, 0, 0, 2, 7, 8, VNC_ERROR_TOO_FEW_BYTES},
};

static int refused_drawing(void)
{
    static const vnc_rect left[] = {{0, 0, 1, 1}, {-0x100001, 0, 1, 1}}, below[] = {{0, 0, 1, 0x100001}, {0, 0, 1, 1}};
    static const uint8_t bytes[8] = {0};
    size_t k;
    EACH(k, undrawn) {
        const vnc_rect *r = &undrawn[k].at;
        int32_t code = (undrawn[k].writes ? vnc_server_write_pixels : vnc_server_paint)(s, r->x1, r->y1, r->x2, r->y2, some, undrawn[k].count);
        if (code != undrawn[k].code) printf("row %u\n", (unsigned)k);
        IS(code, undrawn[k].code);
    }
    EACH(k, untaken) {
        int64_t code = vnc_server_update_from(s, 0, 0, untaken[k].width, 1, bytes, untaken[k].count, untaken[k].stride, &untaken[k].format, untaken[k].formats, some,
                                       untaken[k].table);
        if (code != untaken[k].code) printf("row %u\n", (unsigned)k);
        IS(code, untaken[k].code);
    }
    EACH(k, sizes) IS(vnc_server_new_framebuffer(s, sizes[k][0], sizes[k][1]), VNC_ERROR_BAD_SIZE);
    IS(vnc_server_mark_region(s, left, 2), VNC_ERROR_OUT_OF_RANGE);
    IS(vnc_server_mark_region(s, below, 2), VNC_ERROR_OUT_OF_RANGE);
    IS(vnc_server_schedule_copy_region(s, left + 1, 1, 1, 0), VNC_ERROR_OUT_OF_RANGE);
    IS(vnc_server_do_copy_region(s, below, 2, 1, 0), VNC_ERROR_OUT_OF_RANGE);
    IS(vnc_server_cut_text(s, letters, 65537), VNC_ERROR_TEXT_TOO_LONG);
    return 0;
}

static int refused_viewers(void)
{
    vnc_settings set[1];
    uint8_t room[2];
    size_t k;
    EACH(k, nobody) {
        IS(vnc_server_close_viewer(s, nobody[k]), VNC_ERROR_NO_VIEWER);
        IS(vnc_server_viewer_address_n(s, nobody[k], room, 2), VNC_ERROR_NO_VIEWER);
        IS(vnc_server_settings(s, nobody[k], set), VNC_ERROR_NO_VIEWER);
        IS(vnc_server_is_open(s, nobody[k]), VNC_ERROR_NO_VIEWER);
    }
    return 0;
}

/* What is refused changes nothing: a viewer that asks for what changed is sent nothing, the picture is as it was for one that asks for all
 * of it, the viewer is still there, and nobody came or went. */
static int changes_nothing(void)
{
    static const uint32_t colours[2] = {0x010203, 0x040506};
    vnc_input in[4];
    vnc_event events[2];
    IS(listens(2, 1), 0);
    IS(vnc_server_paint(s, 0, 0, 2, 1, colours, 2), 0);
    HOLDS(opens(&first));
    HOLDS(sees_all(first));
    IS(vnc_server_next_events(s, events, 2), 1);
    HOLDS(says(first, B(CHANGES)));
    DO(refused_drawing());
    DO(refused_viewers());
    HOLDS(is_heard(first));
    HOLDS(is_sent_no_more(first));
    HOLDS(says(first, B(ALL)));
    HOLDS(reads(first, B("\0\0\0\x01\0\0\0\0\0\x02\0\x01\0\0\0\0\x03\x02\x01\0\x06\x05\x04\0")));
    HOLDS(is_sent_no_more(first));
    IS(vnc_server_width(s), 2);
    IS(vnc_server_height(s), 1);
    IS(vnc_server_viewer_count(s), 1);
    IS(vnc_server_next_events(s, events, 2), 0);
    IS(vnc_server_next_inputs(s, in, 4), 0);
    IS(vnc_server_lost_count(s), 0);
    return is_over();
}

static int all(void)
{
    memset(letters, 'a', sizeof letters);
    DO(each_call());
    DO(cannot_listen());
    DO(says_why());
    DO(has_texts());
    DO(chooses_port());
    DO(one_address());
    DO(bounds());
    DO(listens_anew());
    DO(changes_nothing());
    return 0;
}

int main(int argc, char **argv)
{
    (void)argv;
    return runs("server_calls", all, argc > 1);
}
