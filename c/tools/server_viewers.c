/* server_viewers.c: what viewers of a vnc_server are sent, what of theirs is fetched, and what they have set, by RFC 6143:
 * "server_viewers ok" where each answer is the one that stands here. */
#define _POSIX_C_SOURCE 200809L
#include "vnc_server.h"
#include "viewers.h"

/* ---- What a viewer is sent */

/* It is greeted: the version (7.1.1), the security type None (7.1.2), the result (7.1.3), and for its ClientInit (7.3.1) the size, the
 * format (7.4) and the name (7.3.2). That it came is told before it said anything. */
static int greets(void)
{
    IS(listens(4, 2), 0);
    HOLDS(connects(&first));
    HOLDS(reads(first, B("RFB 003.008\n")));
    HOLDS(comes(1));
    IS(vnc_server_viewer_count(s), 1);
    HOLDS(says(first, B("RFB 003.008\n")));
    HOLDS(reads(first, B("\x01\x01")));
    HOLDS(says(first, "\x01", 1));
    HOLDS(reads(first, B("\0\0\0\0")));
    HOLDS(says(first, "\x01", 1));
    HOLDS(reads(first, B("\0\x04\0\x02\x20\x18\0\x01\0\xff\0\xff\0\xff\x10\x08\0\0\0\0\0\0\0\x04" "demo")));
    HOLDS(is_sent_no_more(first));
    return is_over();
}

/* Raw (7.6.1, 7.7.1): all of the picture where it is asked for, row by row, the blue of each place first; then what was painted since. A
 * colour's top byte is cleared. */
static int paints(void)
{
    static const uint32_t colours[4] = {0x010203, 0x040506, 0xff070809, 0x0a0b0c}, orange = 0xff8000;
    IS(listens(4, 2), 0);
    HOLDS(opens(&first));
    IS(vnc_server_paint(s, 1, 0, 3, 2, colours, 4), 0);
    IS(vnc_server_colour(s, 1, 1), 0x070809);
    HOLDS(says(first, B("\x03\0\0\0\0\0\0\x04\0\x02")));
    HOLDS(reads(first, B("\0\0\0\x01\0\0\0\0\0\x04\0\x02\0\0\0\0")));
    HOLDS(reads(first, B("\0\0\0\0\x03\x02\x01\0\x06\x05\x04\0\0\0\0\0")));
    HOLDS(reads(first, B("\0\0\0\0\x09\x08\x07\0\x0c\x0b\x0a\0\0\0\0\0")));
    IS(vnc_server_paint(s, 3, 1, 4, 2, &orange, 1), 0);
    HOLDS(says(first, B("\x03\x01\0\0\0\0\0\x04\0\x02")));
    HOLDS(reads(first, B("\0\0\0\x01\0\x03\0\x01\0\x01\0\x01\0\0\0\0\0\x80\xff\0")));
    HOLDS(is_sent_no_more(first));
    return is_over();
}

/* Of the pixels that are taken in, what differs is sent; and what is drawn between turns is sent to each viewer that asked for it. */
static int draws(void)
{
    static const uint8_t pixels[8] = {0, 0, 0, 0, 0x33, 0x22, 0x11, 0};
    static const uint32_t nine = 9;
    IS(listens(2, 1), 0);
    HOLDS(opens(&first));
    HOLDS(sees_all(first));
    IS(vnc_server_update_from(s, 0, 0, 2, 1, pixels, 8, 8, 0, 0, 0, 0), 1);
    HOLDS(says(first, B(CHANGES)));
    HOLDS(reads(first, B("\0\0\0\x01\0\x01\0\0\0\x01\0\x01\0\0\0\0\x33\x22\x11\0")));
    HOLDS(is_sent_no_more(first));
    HOLDS(opens(&second));
    IS(vnc_server_viewer_count(s), 2);
    HOLDS(says(first, B(CHANGES)));
    HOLDS(is_heard(first));
    IS(vnc_server_paint(s, 1, 0, 2, 1, &nine, 1), 0);
    HOLDS(reads(first, B("\0\0\0\x01\0\x01\0\0\0\x01\0\x01\0\0\0\0\x09\0\0\0")));
    HOLDS(says(second, B(ALL)));
    HOLDS(reads(second, B("\0\0\0\x01\0\0\0\0\0\x02\0\x01\0\0\0\0\0\0\0\0\x09\0\0\0")));
    HOLDS(is_sent_no_more(first));
    HOLDS(reads(second, "\x02", 1));
    return is_over();
}

/* ---- What viewers told */

/* A key goes down (7.5.4), the first button and the eighth are down at (3, 4), off the screen (7.5.5), a text (7.5.6), and the key goes up. */
#define INPUTS "\x04\x01\0\0\0\0\xff\x0d\x05\x81\0\x03\0\x04\x06\0\0\0\0\0\0\x03yes\x04\0\0\0\0\0\xff\x0d"

static const vnc_input told[] = {
    {1, VNC_INPUT_KEY, 1, 0xff0d, 0, 0, 0, 0, 0},
    {1, VNC_INPUT_POINTER, 0, 0, 0x81, 3, 4, 0, 0},
    {1, VNC_INPUT_TEXT, 0, 0, 0, 0, 0, 3, 0},
    {1, VNC_INPUT_KEY, 0, 0xff0d, 0, 0, 0, 0, 0},
};

static int tells(void)
{
    vnc_input in[4];
    size_t k;
    IS(listens(2, 1), 0);
    HOLDS(opens(&first));
    HOLDS(says(first, B(INPUTS)));
    EACH(k, told) ROW(k, !next_input(in) || !is_input(in, &told[k]));
    IS(vnc_server_next_inputs(s, in, 4), 0);
    IS(vnc_server_lost_count(s), 0);
    return is_over();
}

/* A text's first bytes are had, as many as there is room for, until another text is fetched; the rest of the room stays. */
static int texts(void)
{
    uint8_t room[5] = {0};
    vnc_input in[4];
    size_t k;
    IS(listens(2, 1), 0);
    HOLDS(opens(&first));
    HOLDS(says(first, B(INPUTS)));
    HOLDS(sees_all(first));
    IS(vnc_server_text(s, room, 5), 0);
    HOLDS(memcmp(room, "\0\0\0\0\0", 5) == 0);
    IS(vnc_server_next_inputs(s, in, 4), 3);
    for (k = 0; k < 3; k++) ROW(k, !is_input(in + k, &told[k]));
    IS(vnc_server_text(s, room, 2), 2);
    HOLDS(memcmp(room, "ye\0\0\0", 5) == 0);
    IS(vnc_server_text(s, room, 5), 3);
    HOLDS(memcmp(room, "yes\0\0", 5) == 0);
    IS(vnc_server_text(s, room, 0), 0);
    HOLDS(memcmp(room, "yes\0\0", 5) == 0);
    IS(vnc_server_next_inputs(s, in, 4), 1);
    HOLDS(is_input(in, &told[3]));
    IS(vnc_server_text(s, room + 3, 2), 2);
    HOLDS(memcmp(room, "yesye", 5) == 0);
    HOLDS(says(first, B("\x06\0\0\0\0\0\0\x02no")));
    HOLDS(sees_all(first));
    IS(vnc_server_text(s, room, 5), 3);
    HOLDS(memcmp(room, "yesye", 5) == 0);
    IS(vnc_server_next_inputs(s, in, 4), 1);
    IS(vnc_server_text(s, room, 5), 2);
    HOLDS(memcmp(room, "nosye", 5) == 0);
    return is_over();
}

/* Of a text of 262,144 letters a and one b the first 262,144 bytes are kept; what the viewer says next is heard. */
static int shortens(void)
{
    static uint8_t letters[262144], room[262144];
    static const vnc_input shortened = {1, VNC_INPUT_TEXT, 0, 0, 0, 0, 0, 262144, 1};
    vnc_input in;
    memset(letters, 'a', sizeof letters);
    IS(listens(2, 1), 0);
    HOLDS(opens(&first));
    HOLDS(says(first, B("\x06\0\0\0\0\x04\0\x01")));
    HOLDS(says(first, letters, sizeof letters));
    HOLDS(says(first, "b", 1));
    HOLDS(next_input(&in));
    HOLDS(is_input(&in, &shortened));
    IS(vnc_server_text(s, room, sizeof room), sizeof room);
    HOLDS(memcmp(room, letters, sizeof room) == 0);
    HOLDS(is_heard(first));
    return is_over();
}

/* ---- What viewers have set */

/* What nobody has set. */
static const vnc_settings unset = {99, 99, 99, 99, 99, 99, 99, 99, 99, 99, 99, 99, 99, 99, 99};

/* Before its ClientInit, and where that doesn't say that it shares (7.3.1), in the server's format (7.3.2, 7.4) and in Raw (7.7.1); and where
 * it shares, after one request of all (7.5.3) or two. */
static const vnc_settings unshared = {0, 0, 0, 0, 32, 24, 0, 1, 255, 255, 255, 16, 8, 0, 0}, shared = {1, 0, 0, 0, 32, 24, 0, 1, 255, 255, 255, 16, 8, 0, 0};
static const vnc_settings asked_once = {1, 0, 0, 0, 32, 24, 0, 1, 255, 255, 255, 16, 8, 0, 1}, asked_twice = {1, 0, 0, 0, 32, 24, 0, 1, 255, 255, 255, 16, 8, 0, 2};

/* Whether a call answers this of a viewer, and shows this in the first of two places. */
static int shows(uint64_t viewer, int32_t code, const vnc_settings *want)
{
    vnc_settings room[2];
    room[0] = room[1] = unset;
    return vnc_server_settings(s, viewer, room) == code && is_set(room, want) && is_set(room + 1, &unset);
}

/* The ServerInit (7.3.2) that answers the ClientInit has 28 bytes. */
static int share(void)
{
    IS(listens(2, 1), 0);
    HOLDS(connects(&first));
    HOLDS(comes(1));
    HOLDS(shows(1, 0, &unshared));
    HOLDS(says(first, B("RFB 003.008\n\x01")));
    HOLDS(reads(first, B("RFB 003.008\n\x01\x01\0\0\0\0")));
    HOLDS(shows(1, 0, &unshared));
    HOLDS(says(first, "\x01", 1));
    HOLDS(skips(first, 28));
    HOLDS(shows(1, 0, &shared));
    HOLDS(connects(&second));
    HOLDS(says(second, B("RFB 003.008\n\x01\0")));
    HOLDS(skips(second, GREETED));
    HOLDS(shows(2, 0, &unshared));
    HOLDS(shows(1, 0, &shared));
    return is_over();
}

/* What one of two viewers says, and what it has set then: formats (7.5.1) of 16 bits, the highest byte first, and of 8 with a colour map, of
 * whose components nothing is looked at; and encodings (7.5.2): CopyRect (7.7.2), Hextile (7.7.4), RRE (7.7.3) and DesktopSize (7.8.2), the
 * number -223; and RRE alone. */
static const struct { uint64_t viewer; const char *said; size_t count; vnc_settings set; } settings[] = {
    {1, B("\0\0\0\0\x10\x0f\x01\x01\0\x1f\0\x3f\0\x1e\x0b\x05\x01\0\0\0"), {1, 0, 0, 0, 16, 15, 1, 1, 31, 63, 30, 11, 5, 1, 0}},
    {2, B("\x02\0\0\x04\0\0\0\x01\0\0\0\x05\0\0\0\x02\xff\xff\xff\x21"), {1, 5, 1, 1, 32, 24, 0, 1, 255, 255, 255, 16, 8, 0, 0}},
    {1, B("\0\0\0\0\x08\x06\0\0\0\x1f\0\x3f\0\x1f\x0b\x05\x01\0\0\0"), {1, 0, 0, 0, 8, 6, 0, 0, 0, 0, 0, 0, 0, 0, 0}},
    {2, B("\x02\0\0\x01\0\0\0\x02"), {1, 2, 0, 0, 32, 24, 0, 1, 255, 255, 255, 16, 8, 0, 0}},
};

static int sets(size_t k)
{
    int fd = settings[k].viewer == 1 ? first : second;
    HOLDS(says(fd, settings[k].said, settings[k].count));
    HOLDS(is_heard(fd));
    HOLDS(shows(settings[k].viewer, 0, &settings[k].set));
    return 0;
}

/* What is shown of nobody leaves the room as it was, and so does a room with no place. */
static int settings_of_nobody(void)
{
    vnc_settings one;
    HOLDS(shows(1, VNC_ERROR_CLOSED, &unset));
    IS(listens(2, 1), 0);
    HOLDS(shows(1, VNC_ERROR_NO_VIEWER, &unset));
    IS(vnc_server_settings_n(s, 1, 0, 0), VNC_ERROR_NO_VIEWER);
    HOLDS(opens(&first));
    IS(vnc_server_settings_n(s, 1, 0, 0), 0);
    IS(vnc_server_settings(s, 1, &one), 0);
    HOLDS(is_set(&one, &shared));
    HOLDS(shows(2, VNC_ERROR_NO_VIEWER, &unset));
    IS(vnc_server_close_viewer(s, 1), 0);
    HOLDS(ends(first));
    HOLDS(comes(1));
    HOLDS(goes(1, VNC_REASON_CLOSED, 0));
    HOLDS(shows(1, VNC_ERROR_NO_VIEWER, &unset));
    return is_over();
}

/* Requests that are not incremental (7.5.3) are counted, those of a viewer and those of all, and others are not. */
static int full_requests(void)
{
    IS(vnc_server_full_request_count(s), VNC_ERROR_CLOSED);
    IS(listens(2, 1), 0);
    IS(vnc_server_full_request_count(s), 0);
    HOLDS(opens(&first));
    HOLDS(opens(&second));
    IS(vnc_server_full_request_count(s), 0);
    HOLDS(sees_all(first));
    IS(vnc_server_full_request_count(s), 1);
    HOLDS(says(first, B(CHANGES)));
    HOLDS(is_heard(first));
    IS(vnc_server_full_request_count(s), 1);
    HOLDS(sees_all(second));
    HOLDS(sees_all(first));
    IS(vnc_server_full_request_count(s), 3);
    HOLDS(shows(1, 0, &asked_twice));
    HOLDS(shows(2, 0, &asked_once));
    return is_over();
}

/* What moved of a viewer: the bytes, an update, and for how long it said nothing. Of another one the program's struct stays. */
static int moves(void)
{
    vnc_traffic traffic = {1, 2, 3, 4};
    uint64_t numbers[5] = {9, 9, 9, 9, 9};
    double end;
    IS(vnc_server_traffic(s, 1, &traffic), VNC_ERROR_CLOSED);
    IS(listens(2, 1), 0);
    HOLDS(opens(&first));
    HOLDS(opens(&second));
    IS(vnc_server_traffic(s, 3, &traffic), VNC_ERROR_NO_VIEWER);
    HOLDS(traffic.received == 1 && traffic.sent == 2 && traffic.updates == 3 && traffic.silent == 4);
    HOLDS(sees_all(first));
    IS(vnc_server_traffic(s, 1, &traffic), 0);
    HOLDS(traffic.received == sizeof OPENING - 1 + sizeof ALL - 1 && traffic.sent == GREETED + PICTURE && traffic.updates == 1);
    IS(vnc_server_traffic(s, 2, &traffic), 0);
    HOLDS(traffic.received == sizeof OPENING - 1 && traffic.sent == GREETED && traffic.updates == 0);
    for (end = seconds() + 0.06; seconds() < end;) HOLDS(turns());
    HOLDS(sees_all(first));
    IS(vnc_server_traffic_n(s, 2, numbers, 5), 4);
    HOLDS(numbers[0] == sizeof OPENING - 1 && numbers[3] >= 50 && numbers[4] == 9);
    IS(vnc_server_traffic(s, 1, &traffic), 0);
    HOLDS(traffic.updates == 2 && traffic.silent < numbers[3]);
    numbers[1] = 9;
    IS(vnc_server_traffic_n(s, 2, numbers, 1), 1);
    HOLDS(numbers[1] == 9);
    return is_over();
}

static int all_settings(void)
{
    size_t k;
    DO(share());
    IS(listens(2, 1), 0);
    HOLDS(opens(&first));
    HOLDS(opens(&second));
    EACH(k, settings) ROW(k, sets(k));
    is_over();
    DO(settings_of_nobody());
    DO(full_requests());
    DO(moves());
    return 0;
}

static int all(void)
{
    DO(greets());
    DO(paints());
    DO(draws());
    DO(tells());
    DO(texts());
    DO(all_settings());
    DO(shortens());
    return 0;
}

int main(int argc, char **argv)
{
    (void)argv;
    return runs("server_viewers", all, argc > 1);
}
