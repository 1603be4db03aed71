/* own_loop.c [PORT]: a program that waits by poll for what it has itself, and for the server. Each line of its input, of six hexadecimal
 * digits, becomes the screen's colour; a key of a viewer's rings a bell. It ends with its input. Of port 0 the system chooses one.
 * cc own_loop.c $(pkg-config --cflags --libs vnc_server) */
#define _POSIX_C_SOURCE 200809L
#include "vnc_server.h"
#include <poll.h>
#include <stdio.h>
#include <unistd.h>

enum { WIDTH = 320, HEIGHT = 200 };

static int32_t fill(vnc_server *server, uint32_t colour)
{
    static uint32_t colours[WIDTH * HEIGHT];
    int k;
    for (k = 0; k < WIDTH * HEIGHT; k++) colours[k] = colour;
    return vnc_server_paint(server, 0, 0, WIDTH, HEIGHT, colours, WIDTH * HEIGHT);
}

/* A piece of the input is used: whether there may be more. */
static int read_on(vnc_server *server, int32_t *code)
{
    static char line[16];
    static size_t count;
    char piece[64];
    ssize_t n = read(0, piece, sizeof piece), k;
    for (k = 0; k < n && *code == 0; k++) {
        if (piece[k] != '\n') {
            if (count < sizeof line - 1) line[count++] = piece[k];
            continue;
        }
        line[count] = 0;
        count = 0;
        *code = fill(server, (uint32_t)strtoul(line, 0, 16));
    }
    return n > 0;
}

static int32_t use_inputs(vnc_server *server)
{
    vnc_input in[16];
    int64_t n, k;
    int32_t code = 0;
    while (code == 0 && (n = vnc_server_next_inputs(server, in, 16)) > 0)
        for (k = 0; k < n && code == 0; k++)
            if (in[k].kind == VNC_INPUT_KEY && in[k].down) code = vnc_server_bell(server);
    return code;
}

int main(int argc, char **argv)
{
    vnc_server *server;
    struct pollfd fds[2] = {{0, POLLIN, 0}, {-1, POLLIN, 0}};
    int goes_on = 1;
    int32_t code = vnc_server_new("127.0.0.1", (uint16_t)(argc > 1 ? atoi(argv[1]) : 5900), WIDTH, HEIGHT, "own loop", 64, &server);
    if (code < 0) { fprintf(stderr, "own_loop: %s\n", vnc_code_text(code)); return 1; }
    printf("port %d\n", (int)vnc_server_port(server));
    fflush(stdout);
    fds[1].fd = vnc_server_fd(server);
    while (code == 0 && goes_on) {
        int32_t wait = vnc_server_timeout(server);
        int ready = wait < 0 ? -1 : poll(fds, 2, wait);
        if (ready > 0 && fds[0].revents) goes_on = read_on(server, &code);
        if (code == 0) code = vnc_server_process_events(server, 0);
        if (code == 0) code = use_inputs(server);
        if (wait < 0) code = wait;
    }
    vnc_server_free(server);
    if (code < 0) fprintf(stderr, "own_loop: %s\n", vnc_code_text(code));
    return code < 0;
}
