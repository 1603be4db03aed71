/* server_web.c: a vnc_server on several ports, and browsers: their requests, what these are answered, and frames both ways, as RFC 6455 has them:
 * "server_web ok" where each answer is the one that stands here. */
#define _DEFAULT_SOURCE
#include "vnc_server.h"
#include "viewers.h"

/* A request for a WebSocket with the key of RFC 6455, 1.3, by a host and an origin; and what accepts it, by the answer that stands there. */
#define ASKS "GET / HTTP/1.1\r\nUpgrade: websocket\r\nConnection: Upgrade\r\nSec-WebSocket-Version: 13\r\nSec-WebSocket-Key: dGhlIHNhbXBsZSBub25jZQ==\r\n"
#define BY(host, origin) ASKS "Host: " host "\r\n" origin "\r\n"
#define ORIGIN(origin) "Origin: " origin "\r\n"
#define LOCAL BY("127.0.0.1:6080", "")
#define FOREIGN BY("127.0.0.1:6080", ORIGIN("http://foreign.example"))
#define ACCEPTED                                                                                                                      \
    "HTTP/1.1 101 Switching Protocols\r\nUpgrade: websocket\r\nConnection: Upgrade\r\nSec-WebSocket-Accept: s3pPLMBiTxaQ9kYGzzhZRbK+xOo=" \
    "\r\n\r\n"
#define VERSION "RFB 003.008\n"

/* The port for browsers, and that of another listener. */
static int web, also;

/* Whether a browser connects, and says this. */
static int says_to(int *fd, int port, const void *bytes, size_t count) { return connects_at(fd, "127.0.0.1", port, 0) && says(*fd, bytes, count); }

/* Whether a browser says bytes in a binary frame, under the mask of RFC 6455, 5.7. */
static int says_framed(int fd, const char *bytes, size_t count)
{
    static const uint8_t mask[4] = {0x37, 0xfa, 0x21, 0x3d};
    uint8_t frame[6 + 125] = {0x82};
    size_t at;
    if (count > 125) return 0;
    frame[1] = (uint8_t)(0x80 | count);
    memcpy(frame + 2, mask, sizeof mask);
    for (at = 0; at < count; at++) frame[6 + at] = (uint8_t)bytes[at] ^ mask[at % 4];
    return says(fd, frame, 6 + count);
}

/* How many bytes the frame has that is next, of at most 125; -1 where it is none of those, masked or not the whole of a binary message. */
static int frame_size(int fd)
{
    uint8_t head[2] = {0, 0};
    size_t at;
    for (at = 0; at < sizeof head; at++)
        if (receives(fd, head + at, 1) != 1) return -1;
    return head[0] == 0x82 && head[1] < 126 ? head[1] : -1;
}

/* Whether a browser is sent so many bytes next, in frames. */
static int receives_framed(int fd, uint8_t *room, size_t count)
{
    size_t at = 0;
    while (at < count) {
        int left = frame_size(fd);
        if (left < 0 || at + (size_t)left > count) return 0;
        for (; left > 0; left--, at++)
            if (receives(fd, room + at, 1) != 1) return 0;
    }
    return 1;
}

/* A server of a picture of 2 by 1 listens for viewers and for browsers. */
static int serves_both(const char *hosts, const char *origins)
{
    IS(listens(2, 1), 0);
    web = vnc_server_listen_web(s, "127.0.0.1", 0, hosts, origins);
    HOLDS(web > 0 && web != vnc_server_port(s));
    return 0;
}

/* A request is accepted, and the version is the first frame. */
static int is_let_in(int *fd, const void *request, size_t count)
{
    HOLDS(says_to(fd, web, request, count));
    HOLDS(reads(*fd, B(ACCEPTED)));
    HOLDS(reads(*fd, B("\x82\x0c" VERSION)));
    return 0;
}

/* A request is refused with this status, and its connection closed. */
static int is_refused(int *fd, const void *request, size_t count, const char *status)
{
    uint8_t byte;
    HOLDS(says_to(fd, web, request, count));
    HOLDS(reads(*fd, status, strlen(status)));
    while (receives(*fd, &byte, 1) == 1) continue;
    HOLDS(ends(*fd));
    return 0;
}

/* A browser is sent the very bytes in frames that a viewer is sent over TCP. */
static int same_bytes(void)
{
    static const uint32_t colours[2] = {0x010203, 0x040506};
    uint8_t over_tcp[GREETED + PICTURE], framed[GREETED + PICTURE];
    size_t at;
    DO(serves_both("", ""));
    IS(vnc_server_paint(s, 0, 0, 2, 1, colours, 2), 0);
    HOLDS(connects(&first) && comes(1));
    HOLDS(says(first, B(OPENING ALL)));
    for (at = 0; at < sizeof over_tcp; at++) IS(receives(first, over_tcp + at, 1), 1);
    DO(is_let_in(&second, B(LOCAL)));
    HOLDS(comes(2));
    memcpy(framed, VERSION, 12);
    HOLDS(says_framed(second, B(OPENING)));
    HOLDS(receives_framed(second, framed + 12, GREETED - 12));
    HOLDS(says_framed(second, B(ALL)));
    HOLDS(receives_framed(second, framed + GREETED, PICTURE));
    HOLDS(memcmp(over_tcp, framed, sizeof framed) == 0);
    IS(vnc_server_viewer_count(s), 2);
    leaves(&second);
    HOLDS(goes(2, VNC_REASON_LEFT, 0));
    return is_over();
}

/* Who is let in: this machine by its names, and who is named; no page of another origin, and no request that is none. */
static int is_guarded(void)
{
    vnc_event event;
    DO(serves_both("", ""));
    DO(is_refused(&first, B(FOREIGN), "HTTP/1.1 403 "));
    DO(is_refused(&first, B(BY("desk.example", "")), "HTTP/1.1 403 "));
    DO(is_refused(&first, B("GET / HTTP/1.1\r\nHost: localhost\r\n\r\n"), "HTTP/1.1 426 "));
    DO(is_refused(&first, B(OPENING "\r\n\r\n"), "HTTP/1.1 400 "));
    IS(vnc_server_viewer_count(s), 0);
    IS(vnc_server_next_events(s, &event, 1), 0);
    DO(is_let_in(&first, B(BY("localhost", ORIGIN("http://localhost")))));
    IS(is_over(), 0);
    DO(serves_both("desk.example:6080,desk.example", "https://page.example,https://other.example"));
    DO(is_let_in(&first, B(BY("desk.example", ORIGIN("https://other.example")))));
    DO(is_let_in(&second, B(BY("desk.example:6080", ORIGIN("http://desk.example:6080")))));
    DO(is_refused(&first, B(BY("desk.example", ORIGIN("https://page.example:1"))), "HTTP/1.1 403 "));
    DO(is_refused(&first, B(FOREIGN), "HTTP/1.1 403 "));
    return is_over();
}

/* Who is refused has its answer, however much it says behind its request. */
static int is_answered(void)
{
    static char more[200000];
    static const char refusal[] = "HTTP/1.1 403 ";
    DO(serves_both("", ""));
    HOLDS(says_to(&first, web, B(FOREIGN)));
    HOLDS(says(first, more, sizeof more));
    HOLDS(reads(first, refusal, sizeof refusal - 1));
    HOLDS(says(first, more, sizeof more));
    leaves(&first);
    HOLDS(turns());
    return is_over();
}

/* A request that its browser ends in the middle is closed at once, and not after its ten seconds. */
static int ends_at_once(void)
{
    double began = seconds();
    DO(serves_both("", ""));
    HOLDS(says_to(&first, web, B("GET / HTTP/1.1\r\n")));
    IS(shutdown(first, SHUT_WR), 0);
    HOLDS(ends(first));
    HOLDS(seconds() - began < 5);
    return is_over();
}

/* One that waits takes no viewer's place, and holds nobody up. */
static int waits(void)
{
    IS(listens_on(s, 0, 2, 1, 1), 0);
    web = vnc_server_listen_web(s, "127.0.0.1", 0, "", "");
    HOLDS(web > 0);
    HOLDS(says_to(&first, web, B("GET / HTTP/1.1\r\n")));
    HOLDS(turns());
    HOLDS(opens(&second) && comes(1));
    return is_over();
}

/* A further call for browsers takes the place of the first. */
static int listens_again(void)
{
    int before;
    DO(serves_both("", ""));
    before = web;
    web = vnc_server_listen_web(s, "127.0.0.1", 0, "", "");
    HOLDS(web > 0 && web != before);
    DO(is_let_in(&first, B(LOCAL)));
    HOLDS(!connects_at(&second, "127.0.0.1", before, 0) && errno == ECONNREFUSED);
    return is_over();
}

/* Viewers come by each port, as many as the server has, and one by one; it listens on eight, and on the port that is asked for. */
static int on_many_ports(void)
{
    int ports[8], k;
    vnc_event event;
    IS(listens(2, 1), 0);
    ports[0] = vnc_server_port(s);
    for (k = 1; k < 8; k++) {
        ports[k] = vnc_server_listen_also(s, "127.0.0.1", 0);
        HOLDS(ports[k] > 0);
    }
    IS(vnc_server_listen_also(s, "127.0.0.1", 0), VNC_ERROR_TOO_MANY_PORTS);
    IS(vnc_server_port(s), ports[0]);
    for (k = 0; k < 8; k++) {
        HOLDS(connects_at(&first, "127.0.0.1", ports[k], 0));
        HOLDS(comes(2 * k + 1));
        HOLDS(connects_at(&second, "127.0.0.1", ports[7 - k], 0));
        HOLDS(comes(2 * k + 2));
        HOLDS(says(first, B(OPENING)) && says(second, B(OPENING)) && skips(first, GREETED) && skips(second, GREETED));
        HOLDS(sees_all(second) && sees_all(first));
        leaves(&first);
        leaves(&second);
        HOLDS(next_event(&event) && event.kind == VNC_EVENT_DISCONNECTED && next_event(&event) && event.kind == VNC_EVENT_DISCONNECTED);
    }
    IS(is_over(), 0);
    IS(listens(2, 1), 0);
    IS(vnc_server_listen_also(s, "127.0.0.1", (uint16_t)ports[3]), ports[3]);
    HOLDS(connects_at(&first, "127.0.0.1", ports[3], 0) && comes(1));
    return is_over();
}

/* A server that listened nowhere listens. */
static int listens_later(void)
{
    IS(vnc_server_serve(s, 2, 1, "demo", 8), 0);
    also = vnc_server_listen_also(s, "127.0.0.1", 0);
    HOLDS(also > 0);
    IS(vnc_server_port(s), 0);
    HOLDS(connects_at(&first, "127.0.0.1", also, 0) && comes(1));
    HOLDS(says(first, B(OPENING)) && skips(first, GREETED) && sees_all(first));
    return is_over();
}

/* What is refused changes nothing: who is there stays. */
static int codes(void)
{
    int port;
    IS(vnc_server_listen_also(s, "127.0.0.1", 0), VNC_ERROR_CLOSED);
    IS(vnc_server_listen_web(s, "127.0.0.1", 0, "", ""), VNC_ERROR_CLOSED);
    DO(serves_both("", ""));
    HOLDS(opens(&first));
    port = vnc_server_port(s);
    IS(vnc_server_listen_also(s, "localhost", 0), VNC_ERROR_BAD_ADDRESS);
    IS(vnc_server_listen_web(s, "", 0, "", ""), VNC_ERROR_BAD_ADDRESS);
    IS(vnc_server_listen_also(s, "127.0.0.1", (uint16_t)port), VNC_ERROR_CANNOT_LISTEN);
    IS(errno, EADDRINUSE);
    IS(vnc_server_listen_web(s, "127.0.0.1", (uint16_t)port, "", ""), VNC_ERROR_CANNOT_LISTEN);
    IS(errno, EADDRINUSE);
    IS(vnc_server_port(s), port);
    HOLDS(sees_all(first));
    DO(is_let_in(&second, B(LOCAL)));
    return is_over();
}

static int all(void)
{
    DO(codes());
    DO(same_bytes());
    DO(is_guarded());
    DO(is_answered());
    DO(ends_at_once());
    DO(waits());
    DO(listens_again());
    DO(on_many_ports());
    DO(listens_later());
    return 0;
}

int main(int argc, char **argv)
{
    (void)argv;
    return runs("server_web", all, argc > 1);
}
