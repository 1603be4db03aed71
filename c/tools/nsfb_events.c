/* nsfb_events.c: a program over libnsfb's surface for VNC, as NetSurf is one. It draws with libnsfb's plotters, and again where b goes down;
 * it sets a cursor, and counts the inputs that reach it: a line of stdout for each. It ends once q goes up. */
#include <stdbool.h>
#include <stdio.h>

#include "libnsfb.h"
#include "libnsfb_plot.h" /* before the next, which needs it */
#include "libnsfb_cursor.h"
#include "libnsfb_event.h"

static void draw(nsfb_t *fb, nsfb_bbox_t box, nsfb_colour_t colour)
{
    nsfb_plot_pen_t pen = {NFSB_PLOT_OPTYPE_SOLID, 1, 0xff00ff80, 0, NFSB_PLOT_OPTYPE_NONE, 0};
    nsfb_claim(fb, &box);
    nsfb_plot_rectangle_fill(fb, &box, colour);
    nsfb_plot_ellipse_fill(fb, &box, 0xff2080c0);
    nsfb_plot_line(fb, &box, &pen);
    nsfb_update(fb, &box);
}

int main(void)
{
    static const nsfb_colour_t arrow[4 * 4] = {0xff000000, 0xffffffff};
    const nsfb_bbox_t all = {0, 0, 320, 200}, some = {40, 30, 100, 90};
    nsfb_t *fb = nsfb_new(nsfb_type_from_name("vnc"));
    nsfb_event_t event;
    int told = 0, is_over = 0;
    setvbuf(stdout, NULL, _IOLBF, BUFSIZ);
    if (!fb || nsfb_set_geometry(fb, all.x1, all.y1, NSFB_FMT_ANY) || nsfb_init(fb)) return 1;
    draw(fb, all, 0xff604020);
    if (!nsfb_cursor_init(fb) || !nsfb_cursor_set(fb, arrow, 4, 4, 4, 0, 0)) return 1;
    while (!is_over) {
        if (!nsfb_event(fb, &event, 100) || event.type == NSFB_EVENT_CONTROL) continue;
        if (event.type == NSFB_EVENT_MOVE_ABSOLUTE) printf("%d: to %d, %d\n", ++told, event.value.vector.x, event.value.vector.y);
        else printf("%d: %d %s\n", ++told, event.value.keycode, event.type == NSFB_EVENT_KEY_DOWN ? "down" : "up");
        if (event.type == NSFB_EVENT_KEY_DOWN && event.value.keycode == NSFB_KEY_b) draw(fb, some, 0xff10d0f0);
        is_over = event.type == NSFB_EVENT_KEY_UP && event.value.keycode == NSFB_KEY_q;
    }
    nsfb_free(fb);
    return 0;
}
