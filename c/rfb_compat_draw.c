/* rfb_compat_draw.c: frameBuffer, what is drawn and moved in it, fonts, a box
 * to select from, cursors, regions and passwords of rfb_compat.h. */
#include "rfb_compat_parts.h"
#include <limits.h>
#include <stddef.h>
#include <sys/random.h>

rfbBool rfbSetFormat(rfbScreenInfoPtr s, int width, int height, int bits,
                     int samples, int bytes)
{
    const uint16_t max = (uint16_t)((1 << (bits & 15)) - 1);
    const rfbPixelFormat sampled = {
        (uint8_t)(8 * bytes), (uint8_t)(8 * bytes), 0, 1, max, max, max, 0,
        (uint8_t)bits,        (uint8_t)(2 * bits)};
    const rfbPixelFormat of_a_byte = {8, 8, 0, 1, 7, 7, 3, 0, 3, 6};
    (void)samples; /* as in LibVNCServer, which only tells it */
    if (width < 1 || width > RFB_MOST_COLUMNS) return FALSE;
    if (height < 1 || height > RFB_MOST_ROWS) return FALSE;
    if (bits < 1 || bits > 10 || bytes < 1 || bytes > 4) return FALSE;
    s->width = width;
    s->height = height;
    s->depth = s->bitsPerPixel = 8 * bytes; /* as in LibVNCServer */
    s->paddedWidthInBytes = width * bytes;
    s->sizeInBytes = width * bytes * height;
    s->serverFormat = bytes == 1 ? of_a_byte : sampled;
    return TRUE;
}

/* ---- copies ---- */

sraRect rfbCopied(rfbScreenInfoPtr s, sraRect r, int dx, int dy)
{
    const sraRect none = {0, 0, 0, 0};
    const sraRect on = rect_of(larger(r.x1, larger(dx, 0)),
                               larger(r.y1, larger(dy, 0)),
                               smaller(r.x2, s->width + smaller(dx, 0)),
                               smaller(r.y2, s->height + smaller(dy, 0)));
    return on.x1 < on.x2 && on.y1 < on.y2 ? on : none;
}

/* Moves what comes to a row of frameBuffer from the row `from`. */
static void copy_row(rfbScreenInfoPtr s, const sraRect *to, size_t count,
                     int dx, int dy, int y, const char *from)
{
    const ptrdiff_t bytes = s->serverFormat.bitsPerPixel / 8;
    char *row = s->frameBuffer + y * (ptrdiff_t)s->paddedWidthInBytes;
    for (size_t k = 0; k < count; k++) {
        const sraRect r = rfbCopied(s, to[k], dx, dy);
        if (y >= r.y1 && y < r.y2)
            memmove(row + r.x1 * bytes, from + (r.x1 - dx) * bytes,
                    (size_t)((r.x2 - r.x1) * bytes));
    }
}

/* Takes the rows in such an order that none is read that was written; of
 * several rectangles each row is kept aside first. Where there is no memory for
 * that, nothing is moved. */
void rfbCopyPixels(rfbScreenInfoPtr s, const sraRect *to, size_t count, int dx,
                   int dy)
{
    const ptrdiff_t bytes = s->serverFormat.bitsPerPixel / 8;
    const ptrdiff_t pitch = s->paddedWidthInBytes;
    const sraRect one =
        rfbCopied(s, count == 1 ? *to : rect_of(0, 0, 0, 0), dx, dy);
    char *aside = NULL;
    if (one.x2 - one.x1 == s->width && pitch == s->width * bytes) {
        /* whole rows */
        memmove(s->frameBuffer + one.y1 * pitch,
                s->frameBuffer + (one.y1 - dy) * pitch,
                (size_t)((one.y2 - one.y1) * pitch));
        return;
    }
    if (count > 1) {
        aside = (char *)malloc((size_t)(s->width * bytes));
        if (!aside) {
            rfbErr("rfbDoCopyRegion: out of memory\n");
            return;
        }
    }
    for (int i = larger(dy, 0); i < s->height + smaller(dy, 0); i++) {
        const int y = dy > 0 ? s->height - 1 - i + dy : i;
        const char *from = s->frameBuffer + (y - dy) * pitch;
        if (aside) {
            memcpy(aside, from, (size_t)(s->width * bytes));
            from = aside;
        }
        copy_row(s, to, count, dx, dy, y, from);
    }
    free(aside);
}

/* ---- drawing ---- */

static void put(rfbScreenInfoPtr s, int x, int y, rfbPixel colour)
{
    const size_t bytes = s->serverFormat.bitsPerPixel / 8u;
    if (!s->frameBuffer || x < 0 || y < 0 || x >= s->width || y >= s->height)
        return;
    memcpy(s->frameBuffer + (size_t)y * (size_t)s->paddedWidthInBytes +
               (size_t)x * bytes,
           &colour, bytes); /* the lowest bytes come first */
}

static int behind(int at)
{
    return at < INT_MAX ? at + 1 : INT_MAX;
}

void rfbFillRect(rfbScreenInfoPtr s, int x1, int y1, int x2, int y2,
                 rfbPixel colour)
{
    for (int y = y1 < 0 ? 0 : y1; y < y2 && y < s->height; y++)
        for (int x = x1 < 0 ? 0 : x1; x < x2 && x < s->width; x++)
            put(s, x, y, colour);
    rfbMarkRectAsModified(s, x1, y1, x2, y2);
}

void rfbDrawPixel(rfbScreenInfoPtr s, int x, int y, rfbPixel colour)
{
    rfbFillRect(s, x, y, behind(x), behind(y), colour);
}

/* Returns a coordinate that goes from one to another in so many steps, behind
 * some of them. */
static int behind_steps(int from, int to, unsigned long long step,
                        unsigned long long steps)
{
    const long long way = (long long)to - from;
    const unsigned long long far = (unsigned long long)(way < 0 ? -way : way);
    const unsigned long long gone = steps ? far * step / steps : 0;
    return (int)(way < 0 ? from - (long long)gone : from + (long long)gone);
}

/* Takes only those steps of a line at which the coordinate that moves by one at
 * each is on the screen. */
void rfbDrawLine(rfbScreenInfoPtr s, int x1, int y1, int x2, int y2,
                 rfbPixel colour)
{
    const long long wide = llabs((long long)x2 - x1);
    const long long high = llabs((long long)y2 - y1);
    const long long steps = wide > high ? wide : high;
    const long long from = wide > high ? x1 : y1;
    const int to = wide > high ? x2 : y2;
    const int size = wide > high ? s->width : s->height;
    const long long first = to < from ? from - (size - 1) : -from;
    const long long last = to < from ? from : size - 1 - from;
    const unsigned long long all = (unsigned long long)steps;
    for (long long i = first < 0 ? 0 : first; i <= last && i <= steps; i++) {
        const unsigned long long step = (unsigned long long)i;
        put(s, behind_steps(x1, x2, step, all), behind_steps(y1, y2, step, all),
            colour);
    }
    rfbMarkRectAsModified(s, x1 < x2 ? x1 : x2, y1 < y2 ? y1 : y2,
                          behind(x1 > x2 ? x1 : x2), behind(y1 > y2 ? y1 : y2));
}

/* ---- fonts ----
 * A character's rows are whole bytes, the leftmost place in a byte's highest
 * bit; it stands on the row y. */

void rfbFontBBox(rfbFontDataPtr font, unsigned char c, int *x1, int *y1,
                 int *x2, int *y2)
{
    /* where it begins, width, height, x, y */
    const int *m = font->metaData + 5 * c;
    *x1 += m[3];
    *y1 += 1 - m[2] - m[4];
    *x2 = *x1 + m[1] + 1;
    *y2 = *y1 + m[2] + 1;
}

int rfbDrawCharWithClip(rfbScreenInfoPtr s, rfbFontDataPtr font, int x, int y,
                        unsigned char c, int x1, int y1, int x2, int y2,
                        rfbPixel colour, rfbPixel back)
{
    const int *m = font->metaData + 5 * c;
    const long long left = (long long)x + m[3];
    const long long top = (long long)y + 1 - m[2] - m[4];
    s->isWritten = TRUE;
    for (int i = 0; i < m[1] * m[2]; i++) {
        const int column = i % m[1], row = i / m[1];
        const int byte = m[0] + row * ((m[1] + 7) / 8) + column / 8;
        const int isLit = font->data[byte] & 0x80 >> column % 8;
        const int isIn = left + column >= x1 && left + column < x2 &&
                         top + row >= y1 && top + row < y2;
        if (isIn && (isLit || colour != back))
            put(s, (int)(left + column), (int)(top + row),
                isLit ? colour : back);
    }
    return m[1];
}

void rfbDrawStringWithClip(rfbScreenInfoPtr s, rfbFontDataPtr font, int x,
                           int y, const char *text, int x1, int y1, int x2,
                           int y2, rfbPixel colour, rfbPixel back)
{
    for (long long at = x; *text && at <= INT_MAX; text++)
        at += rfbDrawCharWithClip(s, font, (int)at, y, (unsigned char)*text, x1,
                                  y1, x2, y2, colour, back);
}

void rfbDrawString(rfbScreenInfoPtr s, rfbFontDataPtr font, int x, int y,
                   const char *text, rfbPixel colour)
{
    rfbDrawStringWithClip(s, font, x, y, text, 0, 0, s->width, s->height,
                          colour, colour);
}

struct console {
    rfbFontData font;
    int metaData[256 * 5];
    unsigned char data[4096];
};

rfbFontDataPtr rfbLoadConsoleFont(char *filename)
{
    struct console *f = (struct console *)calloc(1, sizeof *f);
    FILE *file = fopen(filename, "rb");
    const int isRead =
        f && file && fread(f->data, 1, sizeof f->data, file) == sizeof f->data;
    if (file) fclose(file);
    if (!isRead) {
        free(f);
        return NULL;
    }
    for (int c = 0; c < 256; c++) {
        f->metaData[5 * c] = 16 * c;
        f->metaData[5 * c + 1] = 8;
        f->metaData[5 * c + 2] = 16;
    }
    f->font.data = f->data;
    f->font.metaData = f->metaData;
    return &f->font;
}

void rfbFreeFont(rfbFontDataPtr font)
{
    free(font);
}

/* ---- a box to select from ---- */

static struct {
    int x1, y1, x2, y2; /* within its border */
    int high;           /* the rows of a line */
    int lines;          /* how many are seen at once */
    int count;          /* how many there are */
    int first;          /* the first that is seen */
    int at;             /* the one that is chosen, or -1 */
    int isOver;
    rfbFontDataPtr font;
    char **list;
    rfbPixel fore, back;
    SelectionChangedHookPtr changed;
} box;

static void choose(rfbScreenInfoPtr s, int at)
{
    if (at < 0 || at >= box.count || at == box.at) return;
    box.at = at;
    if (at < box.first) box.first = at;
    if (at >= box.first + box.lines) box.first = at - box.lines + 1;
    rfbFillRect(s, box.x1, box.y1, box.x2, box.y2, box.back);
    for (int i = box.first, y = box.y1;
         i < box.first + box.lines && i < box.count; i++, y += box.high) {
        const rfbPixel fore = i == at ? box.back : box.fore;
        const rfbPixel back = i == at ? box.fore : box.back;
        rfbFillRect(s, box.x1, y, box.x2, y + box.high, back);
        rfbDrawStringWithClip(s, box.font, box.x1, y + box.high - 1,
                              box.list[i], box.x1, box.y1, box.x2, box.y2, fore,
                              back);
    }
    rfbMarkRectAsModified(s, box.x1, box.y1, box.x2, box.y2);
    if (box.changed) box.changed(at);
}

static void box_key(rfbBool down, rfbKeySym key, rfbClientPtr cl)
{
    if (down && key == 0xff52) choose(cl->screen, box.at - 1);
    if (down && key == 0xff54) choose(cl->screen, box.at + 1);
    if (down && key == 0xff1b) box.at = -1;
    if (down && (key == 0xff0d || key == 0xff1b)) box.isOver = 1;
}

static void box_pointer(int mask, int x, int y, rfbClientPtr cl)
{
    if (mask & 1 && x >= box.x1 && x < box.x2 && y >= box.y1 &&
        y < box.y1 + box.lines * box.high)
        choose(cl->screen, box.first + (y - box.y1) / box.high);
}

int rfbSelectBox(rfbScreenInfoPtr s, rfbFontDataPtr font, char **list, int x1,
                 int y1, int x2, int y2, rfbPixel fore, rfbPixel back,
                 int border, SelectionChangedHookPtr changed)
{
    const rfbKbdAddEventProcPtr key = s->kbdAddEvent;
    const rfbPtrAddEventProcPtr pointer = s->ptrAddEvent;
    int left = 0, top = 0, right, bottom;
    memset(&box, 0, sizeof box);
    box.font = font;
    box.list = list;
    box.fore = fore;
    box.back = back;
    box.changed = changed;
    box.at = -1;
    box.x1 = x1 + border;
    box.y1 = y1 + border;
    box.x2 = x2 - border;
    box.y2 = y2 - border;
    rfbFontBBox(font, 'M', &left, &top, &right, &bottom);
    box.high = bottom - top;
    box.lines = (box.y2 - box.y1) / box.high;
    while (box.lines > 0 && list[box.count]) box.count++;
    if (box.count == 0) return -1;
    rfbFillRect(s, x1, y1, x2, y2, fore);
    choose(s, 0);
    s->kbdAddEvent = box_key;
    s->ptrAddEvent = box_pointer;
    while (!box.isOver && rfbIsActive(s)) rfbProcessEvents(s, 20000);
    s->kbdAddEvent = key;
    s->ptrAddEvent = pointer;
    return box.isOver ? box.at : -1;
}

/* ---- cursors: no viewer is sent one. A row of a mask is whole bytes ---- */

static int mask_stride(int width)
{
    return (width + 7) / 8;
}

static int bit_of(const unsigned char *mask, int stride, int x, int y)
{
    return mask[y * stride + x / 8] & 0x80 >> x % 8;
}

/* The places of a string that are not blank, as a mask; a place behind its end
 * is. */
static unsigned char *mask_of(int width, int height, const char *drawn)
{
    const int stride = mask_stride(width);
    unsigned char *mask =
        (unsigned char *)calloc((size_t)stride, (size_t)height);
    for (int i = 0; mask && i < width * height && drawn[i]; i++)
        if (drawn[i] != ' ')
            mask[i / width * stride + i % width / 8] |=
                (unsigned char)(0x80 >> i % width % 8);
    return mask;
}

char *rfbMakeMaskForXCursor(int width, int height, char *source)
{
    const int stride = mask_stride(width);
    char *mask = (char *)calloc((size_t)stride, (size_t)height);
    for (int i = 0; mask && i < width * height; i++) {
        const int x = i % width, y = i / width;
        int isNear = 0;
        for (int dy = y > 0 ? -1 : 0; dy <= 1 && y + dy < height; dy++)
            for (int dx = x > 0 ? -1 : 0; dx <= 1 && x + dx < width; dx++)
                isNear |=
                    bit_of((unsigned char *)source, stride, x + dx, y + dy);
        if (isNear)
            mask[y * stride + x / 8] =
                (char)(mask[y * stride + x / 8] | 0x80 >> x % 8);
    }
    return mask;
}

/* Floyd and Steinberg's: what a bit is off by goes to the places right of it
 * and below it. */
char *rfbMakeMaskFromAlphaSource(int width, int height,
                                 unsigned char *alphaSource)
{
    const int stride = mask_stride(width);
    char *mask = (char *)calloc((size_t)stride, (size_t)height);
    /* of the places one to the left of each, in sixteenths */
    int *below = (int *)calloc((size_t)width + 2, sizeof *below);
    for (int y = 0; mask && below && y < height; y++) {
        int right = 0, corner = 0;
        for (int x = 0; x < width; x++) {
            const int alpha = alphaSource[y * width + x];
            const int value = 16 * alpha + right + below[x + 1];
            const int isSet = value >= 16 * 128;
            const int off = (isSet ? value - 16 * 255 : value) / 16;
            if (isSet)
                mask[y * stride + x / 8] =
                    (char)(mask[y * stride + x / 8] | 0x80 >> x % 8);
            below[x] += 3 * off;
            below[x + 1] = 5 * off + corner;
            corner = off;
            right = 7 * off;
        }
    }
    if (!below) {
        free(mask);
        mask = NULL;
    }
    free(below);
    return mask;
}

rfbCursorPtr rfbMakeXCursor(int width, int height, char *source, char *mask)
{
    rfbCursorPtr c = (rfbCursorPtr)calloc(1, sizeof *c);
    if (!c) return NULL;
    c->cleanup = c->cleanupSource = c->cleanupMask = TRUE;
    c->width = (unsigned short)width;
    c->height = (unsigned short)height;
    c->foreRed = c->foreGreen = c->foreBlue = 0xffff;
    c->source = mask_of(width, height, source);
    if (c->source)
        c->mask = mask ? mask_of(width, height, mask)
                       : (unsigned char *)rfbMakeMaskForXCursor(
                             width, height, (char *)c->source);
    if (c->mask) return c;
    rfbFreeCursor(c);
    return NULL;
}

void rfbFreeCursor(rfbCursorPtr c)
{
    if (!c) return;
    if (c->cleanupSource) free(c->source);
    if (c->cleanupMask) free(c->mask);
    if (c->cleanupRichSource) {
        free(c->richSource);
        free(c->alphaSource);
    }
    if (c->cleanup) {
        free(c);
        return;
    }
    c->cleanupSource = c->cleanupMask = c->cleanupRichSource = FALSE;
    c->source = c->mask = c->richSource = c->alphaSource = NULL;
}

rfbBool rfbCheckPasswordByList(rfbClientPtr cl, const char *response, int len)
{
    (void)cl;
    (void)response;
    (void)len;
    return FALSE;
}

void rfbEncryptBytes(unsigned char *bytes, char *passwd)
{
    (void)passwd;
    rfbErr("rfbEncryptBytes: there are no passwords here\n");
    if (getrandom(bytes, CHALLENGESIZE, 0) != CHALLENGESIZE) abort();
}

void rfbDefaultPtrAddEvent(int buttonMask, int x, int y, rfbClientPtr cl)
{
    (void)buttonMask;
    cl->screen->cursorX = x;
    cl->screen->cursorY = y;
}

/* ---- regions ---- */

sraRegion *sraRgnCreate(void)
{
    return (sraRegion *)calloc(1, sizeof(sraRegion));
}

void sraRgnDestroy(sraRegion *r)
{
    if (r) free(r->at);
    free(r);
}

void sraRgnOr(sraRegion *dst, const sraRegion *src)
{
    const size_t count = src->count;
    sraRect *more =
        (sraRect *)realloc(dst->at, (dst->count + count + 1) * sizeof *more);
    if (!more) {
        rfbErr("sraRgnOr: no memory\n");
        return;
    }
    dst->at = more;
    if (count) memcpy(more + dst->count, src->at, count * sizeof *more);
    dst->count += count;
}

sraRegion *sraRgnCreateRect(int x1, int y1, int x2, int y2)
{
    sraRect one = {x1, y1, x2, y2};
    const sraRegion src = {&one, 1};
    sraRegion *r = sraRgnCreate();
    if (r) sraRgnOr(r, &src);
    return r;
}
