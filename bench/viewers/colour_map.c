// A viewer by gtk-vnc's library that asks for pixels of 8 bits with a colour map, and writes what it shows as a PPM file:
//   colour_map PORT FILE [ENCODING]
// ENCODING is RFC 6143's number, 5 where none is given. It ends at the second update, or with status 1 after ten seconds.
#include <stdio.h>
#include <stdlib.h>
#include <gvnc.h>

static GMainLoop *loop;
static const char *file;
static int encoding = 5, updates, status = 1;
static guint8 *shown;
static int width, height;

static VncPixelFormat *format(int bits, int true_colour) {
    VncPixelFormat *it = vnc_pixel_format_new();
    it->bits_per_pixel = bits;
    it->depth = bits == 8 ? 8 : 24;
    it->byte_order = G_LITTLE_ENDIAN;
    it->true_color_flag = true_colour;
    it->red_max = it->green_max = it->blue_max = true_colour ? 255 : 0;
    it->red_shift = true_colour ? 16 : 0;
    it->green_shift = true_colour ? 8 : 0;
    it->blue_shift = 0;
    return it;
}

static void initialized(VncConnection *conn, gpointer data) {
    gint32 listed[] = {encoding, 1, 0};
    VncPixelFormat *local = format(32, 1), *remote = format(8, 0);
    (void)data;
    width = vnc_connection_get_width(conn);
    height = vnc_connection_get_height(conn);
    shown = calloc((size_t)width * height, 4);
    if (!vnc_connection_set_pixel_format(conn, remote) || !vnc_connection_set_encodings(conn, 3, listed)) {
        fprintf(stderr, "the format or the encodings could not be sent\n");
        g_main_loop_quit(loop);
        return;
    }
    vnc_connection_set_framebuffer(conn, VNC_FRAMEBUFFER(vnc_base_framebuffer_new(shown, width, height, width * 4, local, remote)));
    vnc_connection_framebuffer_update_request(conn, FALSE, 0, 0, width, height);
}

static gboolean finish(gpointer conn) {
    FILE *out = fopen(file, "wb");
    (void)conn;
    if (out) {
        fprintf(out, "P6\n%d %d\n255\n", width, height);
        for (int k = 0; k < width * height; k++) {
            fputc(shown[4 * k + 2], out);
            fputc(shown[4 * k + 1], out);
            fputc(shown[4 * k], out);
        }
        status = fclose(out) != 0;
    }
    g_main_loop_quit(loop);
    return FALSE;
}

static void updated(VncConnection *conn, int x, int y, int w, int h, gpointer data) {
    (void)x, (void)y, (void)w, (void)h, (void)data;
    if (updates++ == 0) g_timeout_add(500, finish, conn);
}

static void chosen(VncConnection *conn, GValueArray *types, gpointer data) {
    (void)types, (void)data;
    vnc_connection_set_auth_type(conn, 1);
}

static gboolean too_late(gpointer data) {
    (void)data;
    fprintf(stderr, "no update came\n");
    g_main_loop_quit(loop);
    return FALSE;
}

int main(int argc, char **argv) {
    if (argc < 3) return 2;
    file = argv[2];
    if (argc > 3) encoding = atoi(argv[3]);
    VncConnection *conn = vnc_connection_new();
    vnc_connection_set_shared(conn, TRUE);
    g_signal_connect(conn, "vnc-initialized", G_CALLBACK(initialized), NULL);
    g_signal_connect(conn, "vnc-auth-choose-type", G_CALLBACK(chosen), NULL);
    g_signal_connect(conn, "vnc-framebuffer-update", G_CALLBACK(updated), NULL);
    loop = g_main_loop_new(NULL, FALSE);
    g_timeout_add(10000, too_late, NULL);
    vnc_connection_open_host(conn, "127.0.0.1", argv[1]);
    g_main_loop_run(loop);
    return status;
}
