/* x_draws.c: draws in a window that covers an X display, as its standard input says, a line each.
 *   square X Y SIZE COLOUR
 * It writes a line once the display has drawn it.
 * cc -O2 -o x_draws x_draws.c -lX11 */
#include <X11/Xlib.h>
#include <stdio.h>

int main(void)
{
    Display *display = XOpenDisplay(NULL);
    XSetWindowAttributes set;
    Window root, window;
    XEvent event;
    GC pen;
    char line[100];
    if (!display) return 1;
    root = DefaultRootWindow(display);
    set.override_redirect = True;
    set.event_mask = ExposureMask;
    window = XCreateWindow(display, root, 0, 0, DisplayWidth(display, 0), DisplayHeight(display, 0), 0, CopyFromParent, InputOutput, CopyFromParent, CWOverrideRedirect | CWEventMask, &set);
    XMapRaised(display, window);
    XWindowEvent(display, window, ExposureMask, &event);
    pen = XCreateGC(display, window, 0, NULL);
    puts("drawn");
    fflush(stdout);
    while (fgets(line, sizeof line, stdin)) {
        unsigned x, y, size;
        unsigned long colour;
        if (sscanf(line, "square %u %u %u %lu", &x, &y, &size, &colour) == 4) {
            XSetForeground(display, pen, colour);
            XFillRectangle(display, window, pen, x, y, size, size);
        }
        XSync(display, False);
        puts("drawn");
        fflush(stdout);
    }
    return 0;
}
