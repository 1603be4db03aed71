/* inetd.c: one viewer, whose connection is standard input, as inetd hands it over: each key or button gives the screen another colour, and
 * the program ends once the viewer has gone.
 * cc -o inetd inetd.c $(pkg-config --cflags --libs vnc_server) && systemd-socket-activate -l 5900 --inetd -a $PWD/inetd */
#define _POSIX_C_SOURCE 200809L
#include "vnc_server.h"
#include <fcntl.h>
#include <unistd.h>

enum { WIDTH = 320, HEIGHT = 200 };

static int32_t fill(vnc_server *server, uint32_t colour)
{
    static uint32_t colours[WIDTH * HEIGHT];
    int k;
    for (k = 0; k < WIDTH * HEIGHT; k++) colours[k] = colour;
    return vnc_server_paint(server, 0, 0, WIDTH, HEIGHT, colours, WIDTH * HEIGHT);
}

int main(void)
{
    static const uint32_t colours[2] = {0x204060, 0xff8000};
    unsigned inputs = 0;
    vnc_server *server;
    vnc_event event;
    vnc_input input;
    int32_t code;
    int k, fd = dup(0), null = open("/dev/null", O_RDWR);
    /* the viewer reads its end once nobody else has its socket */
    for (k = 0; k < 3; k++)
        if (fd < 0 || null < 0 || dup2(null, k) < 0) return 1;
    if (vnc_server_new_unbound(WIDTH, HEIGHT, "inetd", 1, &server) < 0) return 1;
    code = fill(server, colours[0]) < 0 || vnc_server_adopt(server, fd) < 0 ? -1 : 0;
    while (code == 0 && vnc_server_viewer_count(server) > 0) {
        code = vnc_server_process_events(server, -1);
        while (vnc_server_next_events(server, &event, 1) > 0) continue;
        while (code == 0 && vnc_server_next_inputs(server, &input, 1) > 0)
            if (input.down || input.buttons) code = fill(server, colours[++inputs % 2]);
    }
    vnc_server_free(server);
    return code < 0;
}
