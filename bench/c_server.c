/* c_server.c - a server by vnc_server.h that does what `vncdemo serve --one-thread` does: a black screen; a pointer event with bit 0 of its
 * mask paints that one place white; a key that goes down rings the bell; a client cut text comes back.
 *
 *   c_server [serve] --port P --width W --height H [--viewers N]
 *
 * It ends after 600 s, or by SIGTERM. --one-thread is read and has no effect, so that it can stand in for `vncdemo`:
 *   ./measure.sh build/c_server OUT beside --only '^a dot to (1|8) viewers?$' */
#define _GNU_SOURCE
#include <signal.h>
#include <stdio.h>
#include <stdlib.h>
#include <string.h>
#include <time.h>
#include <vnc_server.h>

static volatile sig_atomic_t ended;
static void on_signal(int s) { (void)s; ended = 1; }

static void answer(vnc_server *server, const vnc_input *in)
{
    static uint8_t text[262144];
    const uint32_t white = 0xffffff;
    const int32_t x = (int32_t)in->x, y = (int32_t)in->y;
    if (in->kind == VNC_INPUT_POINTER && in->buttons & 1) vnc_server_paint(server, x, y, x + 1, y + 1, &white, 1);
    if (in->kind == VNC_INPUT_KEY && in->down) vnc_server_bell(server);
    if (in->kind == VNC_INPUT_TEXT) {
        int32_t count = vnc_server_text(server, text, sizeof text);
        vnc_server_cut_text(server, text, (size_t)(count > 65536 ? 65536 : count));
    }
}

int main(int argc, char **argv)
{
    static vnc_input inputs[256];
    static vnc_event events[64];
    uint32_t width = 640, height = 480, viewers = 1024;
    uint16_t port = 5900;
    vnc_server *server;
    int64_t n;
    for (int i = 1; i < argc; i++) {
        const char *a = argv[i], *v = i + 1 < argc ? argv[i + 1] : "";
        if (!strcmp(a, "serve") || !strcmp(a, "--one-thread")) continue;
        i++;
        if (!strcmp(a, "--port")) port = (uint16_t)atoi(v);
        else if (!strcmp(a, "--width")) width = (uint32_t)atoi(v);
        else if (!strcmp(a, "--height")) height = (uint32_t)atoi(v);
        else if (!strcmp(a, "--viewers")) viewers = (uint32_t)atoi(v);
        else { fprintf(stderr, "bad option %s\n", a); return 2; }
    }
    if (vnc_server_new("127.0.0.1", port, width, height, "demo", viewers, &server) < 0) { fprintf(stderr, "network fault\n"); return 5; }
    struct sigaction sa = { .sa_handler = on_signal };
    sigaction(SIGTERM, &sa, NULL);
    sigaction(SIGINT, &sa, NULL);
    time_t end = time(NULL) + 600;
    while (!ended && time(NULL) < end && vnc_server_process_events(server, 100) >= 0) {
        while ((n = vnc_server_next_inputs(server, inputs, 256)) > 0)
            for (int64_t k = 0; k < n; k++) answer(server, &inputs[k]);
        vnc_server_next_events(server, events, 64);
    }
    vnc_server_free(server);
    return 0;
}
