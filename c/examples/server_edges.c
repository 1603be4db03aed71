/* Codes, a viewer of its own, inputs, events, a waker in another thread, and calls after closing: "server_edges ok" where
 * each answer is the one that stands here. */
#define _POSIX_C_SOURCE 200809L
#include "vnc_server.h"
#include <arpa/inet.h>
#include <pthread.h>
#include <stdio.h>
#include <sys/socket.h>
#include <time.h>
#include <unistd.h>

#define IS(call, want) do { long got = (long)(call); if (got != (long)(want)) { printf("line %d: %s gives %ld\n", __LINE__, #call, got); return 1; } } while (0)

static const uint8_t name[256] = "x";

static int32_t listens(vnc_server *s, const char *address, uint32_t width, size_t name_count)
{
    return vnc_server_listen_n(s, (const uint8_t *)address, strlen(address), 0, width, 1, name, name_count, 2);
}

/* A viewer's socket. */
static int connects(int port)
{
    struct sockaddr_in to;
    int fd = socket(AF_INET, SOCK_STREAM, 0);
    memset(&to, 0, sizeof to);
    to.sin_family = AF_INET;
    to.sin_addr.s_addr = htonl(INADDR_LOOPBACK);
    to.sin_port = htons((uint16_t)port);
    return connect(fd, (struct sockaddr *)&to, sizeof to) ? -1 : fd;
}

/* The viewer says bytes, the server takes turns, and the viewer reads so many. */
static int says(vnc_server *s, int fd, const void *said, size_t count, uint8_t *room, size_t wanted)
{
    size_t at = 0;
    int k;
    if (write(fd, said, count) != (ssize_t)count) return -1;
    for (k = 0; k < 4; k++)
        if (vnc_server_process_events(s, 50) < 0) return -2;
    while (at < wanted) {
        ssize_t n = read(fd, room + at, wanted - at);
        if (n <= 0) return -3;
        at += (size_t)n;
    }
    return 0;
}

/* A program's own pixels: 32 bits, 16 bits, bytes by a table, what lies off the screen, and refusals. The picture is as before then. */
static int takes(vnc_server *s)
{
    static const uint8_t pixels[8] = {0x33, 0x22, 0x11, 0, 0, 0xf8, 0xff, 0}, red[8] = {0, 0, 0xff};
    static const uint32_t table[257] = {0x010203, 0x040506};
    vnc_pixel_format format = {2, 0, 31, 63, 31, 11, 5, 0};
    IS(vnc_server_update_from(s, 0, 0, 2, 1, pixels, 8, 8, 0, 0, 0, 0), 2);
    IS(vnc_server_colour(s, 0, 0) == 0x112233 && vnc_server_colour(s, 1, 0) == 0xfff800, 1);
    IS(vnc_server_update_from(s, 0, 0, 2, 1, pixels, 8, 8, 0, 0, 0, 0), 0);
    IS(vnc_server_update_from(s, 1, 0, 2, 1, pixels, 8, 8, 0, 0, 0, 0), 1);
    IS(vnc_server_colour(s, 1, 0), 0x112233);
    IS(vnc_server_update_from(s, 7, 7, 2, 1, pixels, 8, 8, 0, 0, 0, 0), 0);
    IS(vnc_server_update_from(s, 0, 0, 1, 1, pixels + 4, 2, 2, &format, 1, 0, 0), 1);
    IS(vnc_server_colour(s, 0, 0), 0xff0000);
    IS(vnc_server_update_from(s, 0, 0, 2, 1, pixels + 3, 2, 2, 0, 0, table, 2), 2);
    IS(vnc_server_colour(s, 0, 0) == 0x010203 && vnc_server_colour(s, 1, 0) == 0x010203, 1);
    IS(vnc_server_update_from(s, 0, 0, 1, 1, pixels, 2, 2, &format, 1, table, 2), VNC_ERROR_BAD_FORMAT);
    IS(vnc_server_update_from(s, 0, 0, 1, 1, pixels, 1, 1, 0, 0, table, 257), VNC_ERROR_BAD_FORMAT);
    IS(vnc_server_update_from(s, 0, 0, 2, 1, pixels, 4, 3, &format, 1, 0, 0), VNC_ERROR_BAD_STRIDE);
    IS(vnc_server_update_from(s, 0, 0, 2, 1, pixels, 3, 4, &format, 1, 0, 0), VNC_ERROR_TOO_FEW_BYTES);
    format.green_max = 0;
    IS(vnc_server_update_from(s, 0, 0, 1, 1, pixels, 2, 2, &format, 1, 0, 0), VNC_ERROR_BAD_FORMAT);
    format.green_max = 63, format.bytes_per_pixel = 5;
    IS(vnc_server_update_from(s, 0, 0, 1, 1, pixels, 8, 8, &format, 1, 0, 0), VNC_ERROR_BAD_FORMAT);
    return vnc_server_update_from(s, 0, 0, 2, 1, red, 8, 8, 0, 0, 0, 0) != 2;
}

static void *wakes(void *waker)
{
    struct timespec pause = {0, 100000000};
    nanosleep(&pause, 0);
    vnc_waker_wake((vnc_waker *)waker);
    return 0;
}

int main(void)
{
    static const uint8_t update[24] = {0, 0, 0, 1, 0, 0, 0, 0, 0, 2, 0, 1, 0, 0, 0, 0, 0, 0, 0xff, 0};
    static const vnc_settings opened = {1, 0, 0, 0, 32, 24, 0, 1, 255, 255, 255, 16, 8, 0, 1}, hextile = {1, 5, 1, 1, 32, 24, 0, 1, 255, 255, 255, 16, 8, 0, 1};
    static uint32_t colours[4] = {0xff0000};
    vnc_server *s = (vnc_server *)malloc(vnc_server_size());
    vnc_waker *w = 0;
    vnc_input in[4];
    vnc_event events[4];
    vnc_settings set[2], before;
    uint8_t room[64];
    char address[VNC_ADDRESS_SIZE];
    uint64_t numbers[2];
    const vnc_rect far = {0, 0, 2000000, 1}, all = {0, 0, 2, 1};
    pthread_t other;
    int fd;

    IS(vnc_server_abi(), VNC_SERVER_ABI);
    if (!s) return 1;
    vnc_server_init(s);
    IS(vnc_server_process_events(s, 0), VNC_ERROR_CLOSED);
    IS(vnc_server_bell(s), VNC_ERROR_CLOSED);
    IS(vnc_server_port(s), VNC_ERROR_CLOSED);
    IS(vnc_server_viewer_address_n(s, 1, room, 64), VNC_ERROR_CLOSED);
    IS(vnc_server_settings_n(s, 1, 0, 0), VNC_ERROR_CLOSED);
    IS(vnc_server_full_request_count(s), VNC_ERROR_CLOSED);
    IS(vnc_server_close(s), 0);
    IS(listens(s, "127.0.0.1", 0, 1), VNC_ERROR_BAD_SIZE);
    IS(listens(s, "127.0.0.1", 8193, 1), VNC_ERROR_BAD_SIZE);
    IS(listens(s, "127.0.0.1", 2, 256), VNC_ERROR_BAD_NAME);
    IS(listens(s, "localhost", 2, 1), VNC_ERROR_BAD_ADDRESS);
    IS(listens(s, "", 2, 1), VNC_ERROR_BAD_ADDRESS);
    IS(listens(s, "192.0.2.1", 2, 1), VNC_ERROR_CANNOT_LISTEN);
    IS(vnc_server_width(s), VNC_ERROR_CLOSED);
    IS(listens(s, "127.0.0.1", 2, 1), 0);
    IS(vnc_server_width(s), 2);
    IS(vnc_server_height(s), 1);

    /* drawing, and its refusals */
    IS(vnc_server_paint(s, 0, 0, 3, 1, colours, 3), VNC_ERROR_BAD_RECT);
    IS(vnc_server_paint(s, 0, 0, 1, 1, colours, 2), VNC_ERROR_BAD_PIXEL_COUNT);
    IS(vnc_server_paint(s, 0, 0, 1, 1, colours, 1), 0);
    IS(vnc_server_colour(s, 0, 0), 0xff0000);
    IS(vnc_server_colour(s, 2, 0), VNC_ERROR_OFF_SCREEN);
    IS(vnc_server_write_pixels(s, 1, 0, 2, 1, colours + 1, 1), 0);
    IS(vnc_server_mark_rect(s, -5, -5, 5, 5), 0);
    IS(vnc_server_mark_region(s, &far, 1), VNC_ERROR_OUT_OF_RANGE);
    IS(vnc_server_mark_region(s, &all, 1), 0);
    IS(vnc_server_schedule_copy_region(s, &far, 1, 0, 0), VNC_ERROR_OUT_OF_RANGE);
    IS(vnc_server_do_copy_region(s, &far, 1, 0, 0), VNC_ERROR_OUT_OF_RANGE);
    if (takes(s)) return 1;
    IS(vnc_server_bell(s), 0);
    IS(vnc_server_cut_text(s, room, 0), 0);

    /* a viewer: its opening (7.1 to 7.3), all of the picture (7.5.3, 7.6.1), a key and the pointer (7.5.4, 7.5.5) */
    fd = connects(vnc_server_port(s));
    IS(fd < 0, 0);
    IS(says(s, fd, "RFB 003.008\n\x01\x01", 14, room, 43), 0);
    IS(memcmp(room, "RFB 003.008\n\x01\x01\0\0\0\0\0\x02\0\x01\x20\x18\0\x01\0\xff\0\xff\0\xff\x10\x08\0\0\0\0\0\0\0\x01x", 43), 0);
    IS(vnc_server_full_request_count(s), 0);
    IS(says(s, fd, "\x03\0\0\0\0\0\0\x02\0\x01", 10, room, 24), 0);
    IS(memcmp(room, update, 24), 0);
    IS(vnc_server_full_request_count(s), 1);
    IS(says(s, fd, "\x04\x01\0\0\0\0\0\x61\x05\x04\0\x01\0\x00", 14, room, 0), 0);
    IS(vnc_server_next_inputs(s, in, 1), 1);
    IS(in[0].viewer == 1 && in[0].kind == VNC_INPUT_KEY && in[0].down == 1 && in[0].key == 0x61, 1);
    IS(vnc_server_next_inputs(s, in, 4), 1);
    IS(in[0].kind == VNC_INPUT_POINTER && in[0].buttons == 4 && in[0].x == 1 && in[0].y == 0, 1);
    IS(says(s, fd, "\x06\0\0\0\0\0\0\x02hi\x04\0\0\0\0\0\0\x61", 18, room, 0), 0);
    IS(vnc_server_next_inputs(s, in, 4), 1);
    IS(in[0].kind == VNC_INPUT_TEXT && in[0].length == 2 && in[0].shortened == 0, 1);
    IS(vnc_server_text(s, room, 64), 2);
    IS(memcmp(room, "hi", 2), 0);
    IS(vnc_server_next_inputs(s, in, 4), 1);
    IS(vnc_server_next_inputs(s, in, 4), 0);
    IS(vnc_server_viewer_count(s), 1);
    IS(vnc_server_viewer_address_n(s, 1, room, 64), 9);
    IS(memcmp(room, "127.0.0.1", 9), 0);
    IS(vnc_server_viewer_address_n(s, 1, room, 3), 3);
    IS(vnc_server_viewer_address_n(s, 2, room, 64), VNC_ERROR_NO_VIEWER);
    IS(vnc_server_viewer_address(s, 1, address, sizeof address), 0);
    IS(strcmp(address, "127.0.0.1"), 0);
    IS(vnc_server_viewer_address(s, 1, address, 4), 0);
    IS(strcmp(address, "127"), 0);
    IS(vnc_server_viewer_address(s, 2, address, 4), VNC_ERROR_NO_VIEWER);
    IS(strcmp(address, ""), 0);

    /* its number, and no more of the buffer */
    numbers[0] = numbers[1] = 9;
    IS(vnc_server_numbers(s, numbers, 0), 0);
    IS(vnc_server_numbers(s, numbers, 2), 1);
    IS(numbers[0] == 1 && numbers[1] == 9, 1);

    /* what it set, and that it asked for all once: the shared flag (7.3.1), and then CopyRect, Hextile and DesktopSize (7.5.2) */
    memset(set, 0x55, sizeof set);
    before = set[0];
    IS(vnc_server_settings(s, 2, set), VNC_ERROR_NO_VIEWER);
    IS(memcmp(set, &before, sizeof before), 0);
    IS(vnc_server_settings_n(s, 1, 0, 0), 0);
    IS(vnc_server_settings(s, 1, set), 0);
    IS(memcmp(set, &opened, sizeof before), 0);
    IS(memcmp(set + 1, &before, sizeof before), 0);
    IS(says(s, fd, "\x02\0\0\x03\0\0\0\x01\0\0\0\x05\xff\xff\xff\x21", 16, room, 0), 0);
    IS(vnc_server_settings(s, 1, set), 0);
    IS(memcmp(set, &hextile, sizeof before), 0);

    /* one that says what no message says */
    IS(says(s, fd, "\x09", 1, room, 0), 0);
    IS(close(fd), 0);
    IS(vnc_server_process_events(s, 50), 0);
    IS(vnc_server_next_events(s, events, 4), 2);
    IS(events[0].viewer == 1 && events[0].kind == VNC_EVENT_CONNECTED, 1);
    IS(events[1].viewer == 1 && events[1].kind == VNC_EVENT_DISCONNECTED && events[1].reason == VNC_REASON_FAULT && events[1].fault == VNC_FAULT_UNKNOWN_MESSAGE + 9, 1);
    IS(vnc_server_next_events(s, events, 4), 0);
    IS(vnc_server_lost_count(s), 0);

    /* another thread ends a wait that has no end */
    IS(vnc_waker_new(s, &w), 0);
    IS(pthread_create(&other, 0, wakes, w), 0);
    IS(vnc_server_process_events(s, -1), 0);
    IS(pthread_join(other, 0), 0);
    IS(vnc_server_new_framebuffer(s, 3, 3), 0);
    IS(vnc_server_width(s), 3);

    /* after closing; and a waker of a server that is shut is shut */
    IS(vnc_server_close(s), 0);
    IS(vnc_waker_wake(w), 0);
    vnc_waker_free(w);
    IS(vnc_waker_new(s, &w), 0);
    IS(vnc_waker_wake(w), VNC_ERROR_CLOSED);
    vnc_waker_free(w);
    IS(vnc_server_next_inputs(s, in, 4), VNC_ERROR_CLOSED);
    IS(vnc_server_numbers(s, numbers, 2), VNC_ERROR_CLOSED);
    IS(vnc_server_settings(s, 1, set), VNC_ERROR_CLOSED);
    IS(vnc_server_update_from(s, 0, 0, 0, 0, room, 0, 0, 0, 0, 0, 0), VNC_ERROR_CLOSED);
    IS(vnc_server_listen(s, "127.0.0.1", 0, 4, 1, "x", 1), 0);
    IS(vnc_server_viewer_count(s), 0);
    vnc_server_free(s);
    puts("server_edges ok");
    return 0;
}
