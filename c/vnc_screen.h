/* vnc_screen.h: a screen of a VNC server (RFC 6143) for C. What each call of
 * the library does is proved; this header, and the C that includes it, are not.
 *
 * The program has the sockets, the loop and the threads. A screen has a picture
 * and any number of viewers, each by a number that the program chooses, such as
 * its socket's. The program gives the screen what it read of a viewer
 * (vnc_screen_hear), asks for updates (vnc_screen_cut), and sends each viewer
 * what waits for it (vnc_screen_output). A program with threads has updates cut
 * into a vnc_update of its own (vnc_screen_cut_into), and fetches them while
 * others call the screen. No call waits, locks or starts a thread.
 * LibVNCServer's names for a call stand in parentheses.
 *
 * Ownership  A vnc_screen lies in the program's memory, of vnc_screen_size()
 *            bytes at a multiple of VNC_ALIGNMENT, as malloc gives it:
 *            vnc_screen_new and vnc_screen_free see to that. From
 *            vnc_screen_init on only the library reads and writes there. A
 *            closed screen holds no other memory: the program may free its own,
 *            or open a screen there again. Memory that a call is given is used
 *            during that call alone, and the library hands out no pointers but
 *            constant texts. All of this is so of a vnc_update too, of
 *            vnc_update_size() bytes: fetched whole, or cleared, it holds no
 *            other memory.
 * Threads    One call at a time for each screen, and for each update, from any
 *            thread: where several threads use one, the program has a lock
 *            around each call. Two screens have nothing in common. A call for
 *            an update may run beside one for its screen, but for
 *            vnc_screen_cut_into, which is a call for both.
 * Results    0 or more: done. Below 0: a vnc_code, which vnc_code_text tells,
 *            and nothing has changed; vnc_screen_update_from says what has. A
 *            call of a closed screen answers VNC_ERROR_CLOSED, but for those
 *            that say otherwise. VNC_ERROR_NO_MEMORY may come from each call
 *            that opens, draws, hears, cuts or fetches output, or says so.
 * Held       What waits for a viewer is bounded: the server's words of the
 *            opening, some 300 bytes; one update, which holds 4 bytes for each
 *            pixel and is encoded as it is fetched, as a vnc_update is; and up
 *            to 64 bells and texts for the next update, each text once for all
 *            viewers. An update has those that waited as it was cut. Inputs
 *            wait until they are fetched.
 * Undefined  A pointer to a screen or an update that is null, freed, not
 *            initialised or moved; a buffer or data that is smaller than its
 *            count says; two calls for one of them at once; a call from a
 *            signal handler, or from the child of a fork of a program with
 *            threads. Anything else gets an answer.
 */
#ifndef VNC_SCREEN_H
#define VNC_SCREEN_H

#include "vnc_types.h"
#include <stdlib.h>
#include <string.h>

#ifdef __cplusplus
extern "C" {
#endif

/* The number of this interface. It grows with each change that a program which
 * was compiled before can see; vnc_screen_abi() is the library's number. */
#define VNC_SCREEN_ABI 5

/* A screen; what it consists of is the library's alone. */
typedef struct vnc_screen vnc_screen;

/* ---- Beginning and end ---- */

/* Returns the number of the library's interface. vnc_screen_new and
 * vnc_screen_open compare it with VNC_SCREEN_ABI. */
uint32_t vnc_screen_abi(void);

/* Returns how many bytes a screen takes. */
size_t vnc_screen_size(void);

/* Makes this memory a closed screen. Once: an open screen that lies there would
 * not be freed. */
void vnc_screen_init(vnc_screen *screen);

/* Does what vnc_screen_open does, for a name of so many bytes, with no zero at
 * its end. For callers in other languages, which compare vnc_screen_abi
 * themselves. */
int32_t vnc_screen_open_n(vnc_screen *screen, uint32_t width, uint32_t height,
                          const uint8_t *name, size_t name_count,
                          uint32_t rects);

/* Opens a black screen with no viewer (rfbGetScreen). An open one is closed
 * once this is done, and goes on where it is refused.
 *   width, height  columns and rows
 *   name     the desktop's name
 *   rects    how many copies, and how many rectangles of pixels, one update has
 *            at most: 1 to 1000, and 50 serves
 * Returns 0, or VNC_ERROR_VERSION, VNC_ERROR_BAD_SIZE, VNC_ERROR_BAD_NAME,
 * VNC_ERROR_BAD_RECT_LIMIT or VNC_ERROR_NO_MEMORY. A closed screen may be
 * opened. */
static inline int32_t vnc_screen_open(vnc_screen *screen,
                                      uint32_t width, uint32_t height,
                                      const char *name, uint32_t rects)
{
    if (vnc_screen_abi() != VNC_SCREEN_ABI) return VNC_ERROR_VERSION;
    return vnc_screen_open_n(screen, width, height, (const uint8_t *)name,
                             strlen(name), rects);
}

/* Frees all that the screen holds (rfbScreenCleanup). Returns 0, also for a
 * closed screen. */
int32_t vnc_screen_close(vnc_screen *screen);

/* Closes a screen, and frees it. NULL is nothing to free. */
static inline void vnc_screen_free(vnc_screen *screen)
{
    if (!screen) return;
    vnc_screen_close(screen);
    free(screen);
}

/* Makes a screen in memory of malloc's, which is open. The arguments and the
 * codes are those of vnc_screen_open. `*out` is NULL where it is refused, and
 * then nothing is made. */
static inline int32_t vnc_screen_new(uint32_t width, uint32_t height,
                                     const char *name, uint32_t rects,
                                     vnc_screen **out)
{
    int32_t code;
    vnc_screen *screen;
    *out = NULL;
    if (vnc_screen_abi() != VNC_SCREEN_ABI) return VNC_ERROR_VERSION;
    screen = (vnc_screen *)malloc(vnc_screen_size());
    if (!screen) return VNC_ERROR_NO_MEMORY;
    vnc_screen_init(screen);
    code = vnc_screen_open(screen, width, height, name, rects);
    if (code == 0) *out = screen;
    else vnc_screen_free(screen);
    return code;
}

/* ---- Viewers ---- */

/* Has a viewer from now on, by a number of the program's; its output begins
 * with the server's version. Returns 0, or VNC_ERROR_NUMBER_IN_USE or
 * VNC_ERROR_NO_MEMORY. */
int32_t vnc_screen_connect(vnc_screen *screen, uint64_t viewer);

/* Hears what was read of a viewer. Returns 0; or a vnc_fault, by which it is
 * heard no further: send it what waits, and then close it. Or
 * VNC_ERROR_NO_VIEWER, VNC_ERROR_NO_MEMORY. */
int32_t vnc_screen_hear(vnc_screen *screen, uint64_t viewer,
                        const uint8_t *bytes, size_t count);

/* Returns 1 where vnc_screen_cut would cut an update, else 0. Or
 * VNC_ERROR_NO_VIEWER, VNC_ERROR_NO_MEMORY. */
int32_t vnc_screen_is_pending(const vnc_screen *screen, uint64_t viewer);

/* Cuts an update for a viewer. Returns 1 where one waits for it now, and 0
 * where there is nothing to send. Or VNC_ERROR_NO_VIEWER,
 * VNC_ERROR_OUTPUT_WAITS, VNC_ERROR_NO_MEMORY. */
int32_t vnc_screen_cut(vnc_screen *screen, uint64_t viewer);

/* Fetches the next bytes that wait for a viewer into `buffer`. Returns how
 * many, 0 where none wait: call it until then. Or VNC_ERROR_NO_VIEWER,
 * VNC_ERROR_NO_MEMORY. */
int32_t vnc_screen_output(vnc_screen *screen, uint64_t viewer,
                          uint8_t *buffer, size_t count);

/* Has the viewer no more, nor what waits for it (rfbCloseClient). Returns 0, or
 * VNC_ERROR_NO_VIEWER. */
int32_t vnc_screen_close_viewer(vnc_screen *screen, uint64_t viewer);

/* Returns how many viewers there are. */
int32_t vnc_screen_viewer_count(const vnc_screen *screen);

/* Copies the viewers' numbers into `buffer`, in the order in which they
 * connected, as many as fit. Returns how many, or VNC_ERROR_NO_MEMORY. */
int32_t vnc_screen_numbers(const vnc_screen *screen,
                           uint64_t *buffer, size_t count);

/* Returns 1 where a viewer has this number, else 0. */
int32_t vnc_screen_is_live(const vnc_screen *screen, uint64_t viewer);

/* Returns 1 where a viewer's opening is over and it met no fault, else 0. Or
 * VNC_ERROR_NO_VIEWER. */
int32_t vnc_screen_is_open(const vnc_screen *screen, uint64_t viewer);

/* Returns 1 where a request of a viewer's is unanswered, else 0. Or
 * VNC_ERROR_NO_VIEWER. */
int32_t vnc_screen_is_asking(const vnc_screen *screen, uint64_t viewer);

/* Returns a viewer's vnc_fault, or 0. Or VNC_ERROR_NO_VIEWER. */
int32_t vnc_screen_fault(const vnc_screen *screen, uint64_t viewer);

/* Does what vnc_screen_settings does: copies the first of the 32-bit words of
 * which the library's vnc_settings consists into `words`, and returns how
 * many. */
int32_t vnc_screen_settings_n(const vnc_screen *screen, uint64_t viewer,
                              uint32_t *words, size_t count);

/* Tells what a viewer has set by what it was heard to say. (Of rfbClientRec its
 * format, preferredEncoding, useCopyRect and useNewFBSize, and the shared flag
 * of its ClientInit.) What an older library doesn't know is 0.
 * Returns 0, or VNC_ERROR_NO_VIEWER, and `*settings` stays. */
static inline int32_t vnc_screen_settings(const vnc_screen *screen,
                                          uint64_t viewer,
                                          vnc_settings *settings)
{
    uint32_t words[sizeof *settings / sizeof(uint32_t)] = {0};
    int32_t code = vnc_screen_settings_n(screen, viewer, words,
                                         sizeof words / sizeof *words);
    if (code >= 0) memcpy(settings, words, sizeof *settings);
    return code < 0 ? code : 0;
}

/* ---- Updates apart ---- */

/* An update apart, for programs with threads: vnc_screen_cut_into wants the
 * lock around the screen; vnc_update_output doesn't, and may be called while a
 * call for the screen runs. It lies in the program's memory, as a screen does,
 * and is cut for any viewer of any screen. What changes later isn't in it, and
 * it outlives its viewer and its screen. */
typedef struct vnc_update vnc_update;

/* Returns how many bytes an update takes. */
size_t vnc_update_size(void);

/* Makes this memory an update that holds nothing. Once: what an update there
 * holds would not be freed. */
void vnc_update_init(vnc_update *update);

/* Does what vnc_screen_cut does, but `update` holds the update. Returns 1; 0
 * where there is nothing to send. VNC_ERROR_OUTPUT_WAITS where output waits for
 * the viewer in the screen, or `update` isn't fetched whole. Or
 * VNC_ERROR_NO_VIEWER, VNC_ERROR_NO_MEMORY. */
int32_t vnc_screen_cut_into(vnc_screen *screen, uint64_t viewer,
                            vnc_update *update);

/* Fetches an update's next bytes into `buffer`, encoded now. Returns how many,
 * 0 where none are left: then it may be used again. Or VNC_ERROR_NO_MEMORY. */
int32_t vnc_update_output(vnc_update *update, uint8_t *buffer, size_t count);

/* Frees what an update holds. Returns 0. */
int32_t vnc_update_clear(vnc_update *update);

/* Makes an update in memory of malloc's: 0, or VNC_ERROR_NO_MEMORY, and `*out`
 * is NULL. */
static inline int32_t vnc_update_new(vnc_update **out)
{
    vnc_update *update = (vnc_update *)malloc(vnc_update_size());
    *out = update;
    if (!update) return VNC_ERROR_NO_MEMORY;
    vnc_update_init(update);
    return 0;
}

/* Clears an update, and frees it. NULL is nothing to free. */
static inline void vnc_update_free(vnc_update *update)
{
    if (!update) return;
    vnc_update_clear(update);
    free(update);
}

/* ---- What viewers told ---- */

/* Fetches the next inputs of all viewers, in their order, into `buffer`. A text
 * is the last of a call's: vnc_screen_text has its bytes. Returns how many, 0
 * where none wait. */
int64_t vnc_screen_next_inputs(vnc_screen *screen,
                               vnc_input *buffer, size_t count);

/* Copies the first bytes of the text that vnc_screen_next_inputs fetched last
 * into `buffer`. Returns how many. */
int32_t vnc_screen_text(const vnc_screen *screen,
                        uint8_t *buffer, size_t count);

/* ---- Drawing ----
 * What is drawn is in the updates that are cut next. Coordinates are columns
 * and rows from 0 on; x2 and y2 are one further than the last. Colours are
 * 0x00RRGGBB, row by row; a top byte other than 0 is cleared. Each call returns
 * 0, or what it says, or VNC_ERROR_NO_MEMORY. */

/* Gives a rectangle these colours. Or VNC_ERROR_BAD_RECT,
 * VNC_ERROR_BAD_PIXEL_COUNT. */
int32_t vnc_screen_paint(vnc_screen *screen,
                         int32_t x1, int32_t y1, int32_t x2, int32_t y2,
                         const uint32_t *colours, size_t count);

/* Does the same, but no viewer is sent it before it is marked. Or
 * VNC_ERROR_BAD_RECT, VNC_ERROR_BAD_PIXEL_COUNT. */
int32_t vnc_screen_write_pixels(vnc_screen *screen, int32_t x1, int32_t y1,
                                int32_t x2, int32_t y2,
                                const uint32_t *colours, size_t count);

/* Marks a rectangle as changed (rfbMarkRectAsModified), its corners in any
 * order; what lies off the screen is left out. */
int32_t vnc_screen_mark_rect(vnc_screen *screen, int32_t x1, int32_t y1,
                             int32_t x2, int32_t y2);

/* Marks the pixels of any of these rectangles (rfbMarkRegionAsModified). Or
 * VNC_ERROR_OUT_OF_RANGE. */
int32_t vnc_screen_mark_region(vnc_screen *screen,
                               const vnc_rect *rects, size_t count);

/* Moves pixels into a rectangle, from (dx, dy) to the left and above it, and
 * sends viewers that take CopyRect a copy (rfbDoCopyRect). What would come from
 * off the screen is left out. */
int32_t vnc_screen_do_copy_rect(vnc_screen *screen, int32_t x1, int32_t y1,
                                int32_t x2, int32_t y2,
                                int32_t dx, int32_t dy);

/* Does the same with the pixels of any of these rectangles (rfbDoCopyRegion).
 * Or VNC_ERROR_OUT_OF_RANGE. */
int32_t vnc_screen_do_copy_region(vnc_screen *screen,
                                  const vnc_rect *rects, size_t count,
                                  int32_t dx, int32_t dy);

/* Does the same for viewers alone: the picture stays, for the program to move
 * its pixels by vnc_screen_write_pixels (rfbScheduleCopyRect). */
int32_t vnc_screen_schedule_copy_rect(vnc_screen *screen,
                                      int32_t x1, int32_t y1,
                                      int32_t x2, int32_t y2,
                                      int32_t dx, int32_t dy);

/* Does the same with the pixels of any of these rectangles
 * (rfbScheduleCopyRegion). Or VNC_ERROR_OUT_OF_RANGE. */
int32_t vnc_screen_schedule_copy_region(vnc_screen *screen,
                                        const vnc_rect *rects, size_t count,
                                        int32_t dx, int32_t dy);

/* Rings the bell of each viewer that is open and for which fewer than 64 bells
 * and texts wait (rfbSendBell). */
int32_t vnc_screen_bell(vnc_screen *screen);

/* Sends a copied text to each viewer that is open and for which fewer than 64
 * bells and texts wait (rfbSendServerCutText). Or VNC_ERROR_TEXT_TOO_LONG. */
int32_t vnc_screen_cut_text(vnc_screen *screen,
                            const uint8_t *text, size_t count);

/* Has a black picture of this size in place of the old one
 * (rfbNewFramebuffer). Or VNC_ERROR_BAD_SIZE. */
int32_t vnc_screen_new_framebuffer(vnc_screen *screen,
                                   uint32_t width, uint32_t height);

/* Takes a program's own pixels in (rfbMarkRectAsModified): compares them with a
 * rectangle of the picture, and paints what differs, in few rectangles.
 *   left, top, width, height  the rectangle; what lies off the screen is left
 *            out
 *   bytes    the pixels, rows `stride` bytes apart
 *   format   one, and format_count is 1; or NULL and 0 for 32 bits, 0x00RRGGBB
 *            with the lowest byte first
 *   table    1 to 256 colours 0x00RRGGBB, for pixels of one byte and no format;
 *            else NULL and 0
 * Returns how many pixels changed, or VNC_ERROR_BAD_FORMAT,
 * VNC_ERROR_BAD_STRIDE, VNC_ERROR_TOO_FEW_BYTES. Behind VNC_ERROR_NO_MEMORY
 * each pixel has its old colour or its new one, and another call takes the
 * rest. */
int64_t vnc_screen_update_from(vnc_screen *screen, uint32_t left, uint32_t top,
                               uint32_t width, uint32_t height,
                               const uint8_t *bytes, size_t byte_count,
                               uint64_t stride,
                               const vnc_pixel_format *format,
                               size_t format_count,
                               const uint32_t *table, size_t table_count);

/* ---- What there is ---- */

/* Returns the picture's columns, and its rows. */
int64_t vnc_screen_width(const vnc_screen *screen);
int64_t vnc_screen_height(const vnc_screen *screen);

/* Returns a pixel's colour, or VNC_ERROR_OFF_SCREEN. */
int64_t vnc_screen_colour(const vnc_screen *screen, uint32_t x, uint32_t y);

#ifdef __cplusplus
}
#endif

#endif
