/* screen_drawing.c: what viewers are sent of each call that draws, with the bytes that RFC 6143 has for it: "screen_drawing ok" where each
 * answer is the one that stands here. A call that is refused memory is made once more, so they stand whichever allocation is refused. */
#include "vnc_screen.h"
#include "checks.h"

/* What a call gives, at the second time where it is refused memory at the first. */
static int64_t given;
#define AGAIN(call) ((given = (call)) == VNC_ERROR_NO_MEMORY ? (given = (call)) : given)

static vnc_screen *s;
static vnc_update *u;
static uint8_t room[3000];

/* The opening of a viewer of version 3.8 (7.1), and SetEncodings with CopyRect and Raw (7.5.2). */
#define OPENING "RFB 003.008\n\x01\x01"
#define WITH_COPYRECT "\x02\0\0\x02\0\0\0\x01\0\0\0\0"

static int64_t hears(uint64_t viewer, const char *piece, size_t count) { return AGAIN(vnc_screen_hear(s, viewer, (const uint8_t *)piece, count)); }

/* A FramebufferUpdateRequest (7.5.3). */
static int64_t asks(uint64_t viewer, int incremental, int x, int y, int w, int h)
{
    const char piece[10] = {3, (char)incremental, (char)(x >> 8), (char)x, (char)(y >> 8), (char)y, (char)(w >> 8), (char)w, (char)(h >> 8), (char)h};
    return hears(viewer, piece, 10);
}

/* How many bytes wait for a viewer, or in the update apart, which go to the room. */
static int64_t fetches(uint64_t viewer)
{
    size_t sum = 0;
    while (AGAIN(viewer ? vnc_screen_output(s, viewer, room + sum, sizeof room - sum) : vnc_update_output(u, room + sum, sizeof room - sum)) > 0) sum += (size_t)given;
    return given ? given : (int64_t)sum;
}

/* Whether viewer 1 is sent these bytes now, or nothing if there are none, and it was known before which. */
static int is_sent(const char *bytes, size_t count)
{
    if (AGAIN(vnc_screen_is_pending(s, 1)) != (count > 0) || AGAIN(vnc_screen_cut(s, 1)) != (count > 0)) return 0;
    return fetches(1) == (int64_t)count && memcmp(room, bytes, count) == 0;
}

static int opens(uint64_t viewer)
{
    IS(AGAIN(vnc_screen_connect(s, viewer)), 0);
    IS(fetches(viewer), 12);
    HOLDS(memcmp(room, "RFB 003.008\n", 12) == 0);
    IS(hears(viewer, B(OPENING)), 0);
    IS(fetches(viewer), 34);
    return 0;
}

/* A new screen with these colours, of which viewer 1, which takes CopyRect, is sent all. */
static int shows(uint32_t w, uint32_t h, const uint32_t *colours)
{
    IS(AGAIN(vnc_screen_open(s, w, h, "demo", 50)), 0);
    IS(AGAIN(vnc_screen_paint(s, 0, 0, (int32_t)w, (int32_t)h, colours, w * h)), 0);
    DO(opens(1));
    IS(hears(1, B(WITH_COPYRECT)), 0);
    IS(asks(1, 0, 0, 0, (int)w, (int)h), 0);
    IS(AGAIN(vnc_screen_cut(s, 1)), 1);
    IS(fetches(1), 16 + 4 * w * h);
    return 0;
}

/* ---- Copies, each by its call, on a screen of one column */

enum copying { DO_RECT, DO_REGION, SCHEDULE_RECT, SCHEDULE_REGION };
static const uint32_t four[4] = {1, 2, 3, 4};
static const vnc_rect lower = {0, 1, 1, 4}, far = {INT32_MAX, INT32_MAX, INT32_MIN, INT32_MIN};

static int64_t copies(enum copying how, const vnc_rect *to, int32_t dx, int32_t dy)
{
    switch (how) {
    case DO_RECT: return AGAIN(vnc_screen_do_copy_rect(s, to->x1, to->y1, to->x2, to->y2, dx, dy));
    case DO_REGION: return AGAIN(vnc_screen_do_copy_region(s, to, 1, dx, dy));
    case SCHEDULE_RECT: return AGAIN(vnc_screen_schedule_copy_rect(s, to->x1, to->y1, to->x2, to->y2, dx, dy));
    default: return AGAIN(vnc_screen_schedule_copy_region(s, to, 1, dx, dy));
    }
}

/* Viewer 1 is sent this of a copy (7.6.1), and then, as it asks for all, these colours in Raw. */
static int is_copied(enum copying how, const vnc_rect *to, int32_t dx, int32_t dy, const char *sent, size_t count, const char *colours)
{
    char column[32] = "\0\0\0\x01\0\0\0\0\0\x01\0\x04";
    int k;
    for (k = 0; k < 4; k++) column[16 + 4 * k] = colours[k];
    DO(shows(1, 4, four));
    IS(copies(how, to, dx, dy), 0);
    IS(asks(1, 1, 0, 0, 1, 4), 0);
    HOLDS(is_sent(sent, count));
    IS(asks(1, 0, 0, 0, 1, 4), 0);
    HOLDS(is_sent(column, 32));
    return 0;
}

/* A copy down over itself: the lower three places are copied from the upper three (7.7.2). The picture stays where the copy is only told. */
static const struct { enum copying how; const vnc_rect *to; const char *colours; } down[] = {
    {DO_RECT, &far, "\x01\x01\x02\x03"}, {DO_REGION, &lower, "\x01\x01\x02\x03"}, {SCHEDULE_RECT, &far, "\x01\x02\x03\x04"}, {SCHEDULE_REGION, &lower, "\x01\x02\x03\x04"},
};

static int copies_down(size_t k) { return is_copied(down[k].how, down[k].to, 0, 1, B("\0\0\0\x01\0\0\0\x01\0\x01\0\x03\0\0\0\x01\0\0\0\0"), down[k].colours); }

/* By nothing, and to places whose sources are off the screen: nothing moves. */
static const struct { int32_t dx, dy; } nowhere[] = {{0, 0}, {0, 9}, {0, INT32_MIN}, {INT32_MAX, 1}};

static int copies_nowhere(size_t k)
{
    int how;
    for (how = DO_RECT; how <= SCHEDULE_REGION; how++) DO(is_copied((enum copying)how, &lower, nowhere[k].dx, nowhere[k].dy, "", 0, "\x01\x02\x03\x04"));
    return 0;
}

/* ---- Marks */

#define SECOND "\0\0\0\x01\0\x01\0\0\0\x01\0\x01\0\0\0\0\x02\0\0\0"

/* What is marked beyond the screen isn't sent, but what is marked on it is, in whatever order its corners stand; and what was written, once it
 * is marked, without its top byte (7.4). */
static int marks(void)
{
    static const vnc_rect left = {-9, -9, 0, 9}, right = {1, -9, 9, 1};
    static const uint32_t blue = 0x770000ff;
    DO(shows(2, 2, four));
    IS(asks(1, 1, 0, 0, 2, 2), 0);
    IS(AGAIN(vnc_screen_mark_rect(s, 2, 0, INT32_MAX, INT32_MAX)), 0);
    IS(AGAIN(vnc_screen_mark_rect(s, 0, INT32_MIN, 2, 0)), 0);
    IS(AGAIN(vnc_screen_mark_region(s, &left, 1)), 0);
    HOLDS(is_sent("", 0));
    IS(AGAIN(vnc_screen_mark_rect(s, INT32_MAX, 1, 1, INT32_MIN)), 0);
    HOLDS(is_sent(B(SECOND)));
    IS(AGAIN(vnc_screen_write_pixels(s, 1, 0, 2, 1, &blue, 1)), 0);
    IS(asks(1, 1, 0, 0, 2, 2), 0);
    HOLDS(is_sent("", 0));
    IS(AGAIN(vnc_screen_mark_region(s, &right, 1)), 0);
    HOLDS(is_sent(B("\0\0\0\x01\0\x01\0\0\0\x01\0\x01\0\0\0\0\xff\0\0\0")));
    return 0;
}

/* ---- Updates keep the colours of their cut, whatever is drawn since */

static int kept_of_a_place(void)
{
    static const uint32_t seven[4] = {7, 7, 7, 7};
    DO(shows(2, 2, four));
    IS(asks(1, 0, 1, 0, 1, 1), 0);
    IS(AGAIN(vnc_screen_cut_into(s, 1, u)), 1);
    IS(AGAIN(vnc_screen_paint(s, 0, 0, 2, 2, seven, 4)), 0);
    IS(AGAIN(vnc_screen_new_framebuffer(s, 3, 1)), 0);
    IS(vnc_screen_close_viewer(s, 1), 0);
    IS(vnc_screen_close(s), 0);
    IS(fetches(0), 20);
    HOLDS(memcmp(room, SECOND, 20) == 0);
    return 0;
}

/* Of narrow rows, and of such as are kept whole. */
static const int widths[] = {4, 300};

static int kept_of_rows(size_t k)
{
    static uint32_t ones[600], twos[600];
    const int w = widths[k];
    int at;
    for (at = 0; at < 600; at++) ones[at] = 1, twos[at] = 2;
    DO(shows((uint32_t)w, 2, ones));
    IS(asks(1, 0, 0, 0, w, 2), 0);
    IS(AGAIN(vnc_screen_cut_into(s, 1, u)), 1);
    IS(AGAIN(vnc_screen_paint(s, 0, 0, w, 2, twos, (size_t)w * 2)), 0);
    IS(fetches(0), 16 + 8 * w);
    HOLDS(memcmp(room, "\0\0\0\x01\0\0\0\0", 8) == 0 && room[8] == w >> 8 && room[9] == (w & 255) && memcmp(room + 10, "\0\x02\0\0\0\0", 6) == 0);
    for (at = 0; at < 2 * w; at++) HOLDS(memcmp(room + 16 + 4 * at, "\x01\0\0\0", 4) == 0);
    return 0;
}

/* ---- Each call once, while a second viewer connects */

static int each_once(void)
{
    static const uint32_t six[6] = {1, 2, 3, 4, 5, 6}, ten = 10;
    static const vnc_rect first = {0, 0, 1, 1};
    DO(shows(6, 1, six));
    DO(opens(2));
    IS(AGAIN(vnc_screen_write_pixels(s, 0, 0, 1, 1, &ten, 1)), 0);
    IS(AGAIN(vnc_screen_mark_region(s, &first, 1)), 0);
    IS(AGAIN(vnc_screen_cut_text(s, (const uint8_t *)"hi", 2)), 0);
    IS(AGAIN(vnc_screen_do_copy_rect(s, 2, 0, 4, 1, 1, 0)), 0);
    IS(AGAIN(vnc_screen_schedule_copy_rect(s, 5, 0, 6, 1, 1, 0)), 0);
    IS(AGAIN(vnc_screen_do_copy_region(s, &first, 1, 1, 0)), 0);
    IS(AGAIN(vnc_screen_schedule_copy_region(s, &first, 1, 0, 1)), 0);
    IS(asks(1, 1, 0, 0, 6, 1), 0);
    HOLDS(is_sent(B("\x03\0\0\0\0\0\0\x02hi\0\0\0\x03\0\x05\0\0\0\x01\0\x01\0\0\0\x01\0\x04\0\0\0\x02\0\0\0\x02\0\x01\0\0\0\x01\0\x01\0\0"
                    "\0\0\0\0\0\x01\0\x01\0\0\0\0\x0a\0\0\0")));
    HOLDS(is_sent("", 0));
    IS(AGAIN(vnc_screen_new_framebuffer(s, 2, 1)), 0);
    IS(asks(1, 1, 0, 0, 6, 1), 0);
    HOLDS(is_sent(B("\0\0\0\x01\0\0\0\0\0\x02\0\x01\0\0\0\0\0\0\0\0\0\0\0\0")));
    return 0;
}

/* Each call by a region, with more viewers there than any table is likely to have. */
static int for_many(void)
{
    static const vnc_rect top = {0, 0, 4, 1};
    uint64_t viewer;
    IS(AGAIN(vnc_screen_open(s, 4, 3, "demo", 50)), 0);
    for (viewer = 1; viewer <= 200; viewer++) DO(opens(viewer));
    IS(AGAIN(vnc_screen_mark_region(s, &top, 1)), 0);
    IS(AGAIN(vnc_screen_schedule_copy_region(s, &top, 1, 1, 0)), 0);
    IS(AGAIN(vnc_screen_do_copy_region(s, &top, 1, 1, 0)), 0);
    IS(asks(200, 0, 0, 0, 4, 3), 0);
    IS(vnc_screen_viewer_count(s), 200);
    IS(AGAIN(vnc_screen_is_pending(s, 200)), 1);
    return 0;
}

int main(void)
{
    size_t k;
    IS(AGAIN(vnc_screen_new(1, 4, "demo", 50, &s)), 0);
    IS(AGAIN(vnc_update_new(&u)), 0);
    EACH(k, down) ROW(k, copies_down(k));
    EACH(k, nowhere) ROW(k, copies_nowhere(k));
    DO(marks());
    DO(kept_of_a_place());
    EACH(k, widths) ROW(k, kept_of_rows(k));
    DO(each_once());
    DO(for_many());
    vnc_screen_free(s);
    vnc_update_free(u);
    puts("screen_drawing ok");
    return 0;
}
