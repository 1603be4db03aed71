/* server_events.c: who came to a vnc_server and who went, and why: "server_events ok" where each answer is the one that stands here. */
#define _POSIX_C_SOURCE 200809L
#include "vnc_server.h"
#include "viewers.h"

/* An address is told while its viewer is connected, as much of it as there is room for; not once the connection is gone, nor once that was
 * told. A viewer that closes its connection left, and the next one has another number. */
static int leave(void)
{
    static const struct linger at_once = {1, 0};
    uint8_t room[12];
    vnc_event events[2];
    memset(room, '.', sizeof room);
    IS(listens(2, 1), 0);
    HOLDS(opens(&first));
    HOLDS(sees_all(first));
    HOLDS(comes(1));
    IS(vnc_server_next_events(s, events, 2), 0);
    IS(vnc_server_viewer_address_n(s, 1, room, 2), 2);
    HOLDS(memcmp(room, "12..........", 12) == 0);
    IS(vnc_server_viewer_address_n(s, 1, room, 12), 9);
    HOLDS(memcmp(room, "127.0.0.1...", 12) == 0);
    leaves(&first);
    HOLDS(goes(1, VNC_REASON_LEFT, 0));
    IS(vnc_server_viewer_count(s), 0);
    memset(room, '.', sizeof room);
    IS(vnc_server_viewer_address_n(s, 1, room, 12), VNC_ERROR_NO_VIEWER);
    HOLDS(opens(&second));
    HOLDS(comes(2));
    IS(vnc_server_close_viewer(s, 1), VNC_ERROR_NO_VIEWER);
    HOLDS(is_sent_no_more(second));
    IS(setsockopt(second, SOL_SOCKET, SO_LINGER, &at_once, sizeof at_once), 0);
    leaves(&second);
    IS(vnc_server_viewer_address_n(s, 2, room, 12), VNC_ERROR_NETWORK);
    HOLDS(memcmp(room, "............", 12) == 0);
    HOLDS(goes(2, VNC_REASON_READ_FAILED, 0));
    IS(vnc_server_lost_count(s), 0);
    return is_over();
}

/* The address is the one that the viewer comes from: all of 127.0.0.0/8 are the machine's own. */
static int come_from(void)
{
    char address[VNC_ADDRESS_SIZE];
    IS(listens(2, 1), 0);
    HOLDS(connects_to(&first, "127.0.0.1", "127.0.0.2"));
    HOLDS(comes(1));
    HOLDS(connects_to(&second, "127.0.0.1", "127.31.4.159"));
    HOLDS(comes(2));
    IS(vnc_server_viewer_address(s, 1, address, sizeof address), 0);
    HOLDS(strcmp(address, "127.0.0.2") == 0);
    IS(vnc_server_viewer_address(s, 2, address, sizeof address), 0);
    HOLDS(strcmp(address, "127.31.4.159") == 0);
    return is_over();
}

/* The numbers of those who are connected, as many as there is room for. An opening is over with the ClientInit (7.3.1). */
static int lists(void)
{
    uint64_t numbers[3] = {9, 9, 9};
    IS(listens(2, 1), 0);
    IS(vnc_server_numbers(s, numbers, 3), 0);
    HOLDS(connects(&first));
    HOLDS(comes(1));
    IS(vnc_server_is_open(s, 1), 0);
    HOLDS(says(first, B("RFB 003.008\n\x01")));
    HOLDS(skips(first, 18));
    IS(vnc_server_is_open(s, 1), 0);
    HOLDS(says(first, B("\0")));
    HOLDS(skips(first, GREETED - 18));
    IS(vnc_server_is_open(s, 1), 1);
    HOLDS(opens(&second));
    IS(vnc_server_numbers(s, numbers, 1), 1);
    HOLDS(numbers[0] == 1 && numbers[1] == 9);
    IS(vnc_server_numbers(s, numbers, 3), 2);
    HOLDS(numbers[0] == 1 && numbers[1] == 2 && numbers[2] == 9);
    leaves(&first);
    HOLDS(comes(2));
    HOLDS(goes(1, VNC_REASON_LEFT, 0));
    IS(vnc_server_numbers(s, numbers, 3), 1);
    HOLDS(numbers[0] == 2);
    IS(vnc_server_is_open(s, 1), VNC_ERROR_NO_VIEWER);
    return is_over();
}

/* What a viewer says that no message says, and its fault: no version (7.1.1), another security type than None (7.1.2), formats of 24 bits,
 * and of 16 with a colour map (7.4), and messages of types that there are not (7.5). */
static const struct { const char *said; size_t count; int32_t fault; } faults[] = {
    {B("GET / HTTP/1.0\r\n\r\n"), VNC_FAULT_VERSION},
    {B("RFB 003.008\n\x02"), VNC_FAULT_SECURITY_TYPE},
    {B(OPENING "\0\0\0\0\x18\x18\0\x01\0\xff\0\xff\0\xff\x10\x08\0\0\0\0"), VNC_FAULT_BITS_PER_PIXEL},
    {B(OPENING "\0\0\0\0\x10\x10\0\0\0\x1f\0\x3f\0\x1f\x0b\x05\0\0\0\0"), VNC_FAULT_COLOUR_MAP},
    {B(OPENING "\x01"), VNC_FAULT_UNKNOWN_MESSAGE + 1},
    {B(OPENING "\x09"), VNC_FAULT_UNKNOWN_MESSAGE + 9},
    {B(OPENING "\xff"), VNC_FAULT_UNKNOWN_MESSAGE + 255},
};

static int is_at_fault(size_t k)
{
    IS(listens(2, 1), 0);
    HOLDS(connects(&first));
    HOLDS(says(first, faults[k].said, faults[k].count));
    HOLDS(comes(1));
    HOLDS(goes(1, VNC_REASON_FAULT, faults[k].fault));
    IS(vnc_server_viewer_count(s), 0);
    return is_over();
}

/* A viewer that goes away with a byte unread resets its connection: a read fails. One that is let go after the turn in which it came,
 * before the next one, is sent nothing. */
static int resets(void)
{
    IS(listens(2, 1), 0);
    HOLDS(connects(&first));
    HOLDS(reads(first, B("RFB 003.008")));
    HOLDS(comes(1));
    leaves(&first);
    HOLDS(goes(1, VNC_REASON_READ_FAILED, 0));
    HOLDS(connects(&second));
    HOLDS(comes(2));
    IS(vnc_server_close_viewer(s, 2), 0);
    HOLDS(ends(second));
    HOLDS(goes(2, VNC_REASON_CLOSED, 0));
    IS(vnc_server_viewer_count(s), 0);
    return is_over();
}

/* A viewer that is let go is heard no more and sent nothing more; the other one is served on. */
static int lets_go(void)
{
    static const vnc_input b_down = {2, VNC_INPUT_KEY, 1, 0x62, 0, 0, 0, 0, 0};
    vnc_input in;
    IS(listens(2, 1), 0);
    HOLDS(opens(&first));
    HOLDS(opens(&second));
    HOLDS(comes(1));
    HOLDS(comes(2));
    IS(vnc_server_close_viewer(s, 3), VNC_ERROR_NO_VIEWER);
    IS(vnc_server_close_viewer(s, 0), VNC_ERROR_NO_VIEWER);
    IS(vnc_server_bell(s), 0);
    HOLDS(says(first, B("\x04\x01\0\0\0\0\0\x61")));
    IS(vnc_server_close_viewer(s, 1), 0);
    HOLDS(ends(first));
    HOLDS(goes(1, VNC_REASON_CLOSED, 0));
    IS(vnc_server_close_viewer(s, 1), VNC_ERROR_NO_VIEWER);
    IS(vnc_server_viewer_count(s), 1);
    HOLDS(reads(second, "\x02", 1));
    HOLDS(says(second, B("\x04\x01\0\0\0\0\0\x62")));
    HOLDS(next_input(&in));
    HOLDS(is_input(&in, &b_down));
    return is_over();
}

/* The next input is a key of the first viewer that goes down or up. */
static int is_told(int down, uint32_t key)
{
    vnc_input in, told = {1, VNC_INPUT_KEY, 0, 0, 0, 0, 0, 0, 0};
    told.down = down;
    told.key = key;
    return next_input(&in) && is_input(&in, &told);
}

/* Nothing stays down: of 512 keys that are down the earliest is let go before a further input, and the others where their viewer leaves. */
static int lets_keys_go(void)
{
    enum { KEYS = 512, KEY = 0x1000 };
    uint32_t k;
    IS(listens(2, 1), 0);
    HOLDS(opens(&first));
    HOLDS(comes(1));
    for (k = 0; k <= KEYS; k++) {
        char press[] = {4, 1, 0, 0, 0, 0, 0, 0};
        press[6] = (char)((KEY + k) / 256);
        press[7] = (char)((KEY + k) % 256);
        HOLDS(says(first, press, sizeof press));
        if (k == KEYS) HOLDS(is_told(0, KEY));
        HOLDS(is_told(1, KEY + k));
    }
    leaves(&first);
    for (k = 1; k <= KEYS; k++) HOLDS(is_told(0, KEY + k));
    HOLDS(goes(1, VNC_REASON_LEFT, 0));
    IS(vnc_server_lost_count(s), 0);
    return is_over();
}

/* Where as many viewers are connected as may be, a further one waits until one has gone. */
static int is_full(void)
{
    vnc_event events[2];
    IS(listens_on(s, 0, 2, 1, 1), 0);
    HOLDS(opens(&first));
    HOLDS(comes(1));
    HOLDS(connects(&second));
    HOLDS(says(second, B(OPENING)));
    HOLDS(is_heard(first));
    HOLDS(is_sent_no_more(first));
    IS(vnc_server_viewer_count(s), 1);
    IS(vnc_server_next_events(s, events, 2), 0);
    leaves(&first);
    HOLDS(skips(second, GREETED));
    HOLDS(goes(1, VNC_REASON_LEFT, 0));
    HOLDS(comes(2));
    return is_over();
}

static int all(void)
{
    size_t k;
    DO(leave());
    DO(come_from());
    DO(lists());
    EACH(k, faults) ROW(k, is_at_fault(k));
    DO(resets());
    DO(lets_go());
    DO(lets_keys_go());
    DO(is_full());
    return 0;
}

int main(int argc, char **argv)
{
    (void)argv;
    return runs("server_events", all, argc > 1);
}
