/* vnc_types.h: what vnc_server.h and vnc_screen.h have in common. */
#ifndef VNC_TYPES_H
#define VNC_TYPES_H

#include <stddef.h>
#include <stdint.h>

/* The version of these headers. The interfaces have numbers of their own:
 * VNC_SERVER_ABI and VNC_SCREEN_ABI. */
#define VNC_VERSION_MAJOR 0
#define VNC_VERSION_MINOR 2
#define VNC_VERSION_PATCH 0
#define VNC_VERSION "0.2.0"

/* A server, a screen, a waker and an update lie at a multiple of this. */
#define VNC_ALIGNMENT 16

/* Why a call was refused: its answer is below 0. */
enum vnc_code {
    VNC_ERROR_BAD_SIZE = -1,        /* not 1 to 8192 a side, 2^24 in all */
    VNC_ERROR_BAD_NAME = -2,        /* a name of more than 255 bytes */
    VNC_ERROR_BAD_RECT_LIMIT = -3,  /* not 1 to 1000 rectangles an update */
    VNC_ERROR_BAD_RECT = -4,        /* corners swapped, or off the screen */
    VNC_ERROR_BAD_PIXEL_COUNT = -5, /* not as many colours as pixels */
    VNC_ERROR_TEXT_TOO_LONG = -6,   /* more than 65536 bytes */
    VNC_ERROR_NO_VIEWER = -7,       /* no connected viewer has this number */
    VNC_ERROR_NUMBER_IN_USE = -8,   /* a connected viewer has this number */
    VNC_ERROR_NO_MEMORY = -9,       /* call again once there is memory */
    VNC_ERROR_OUT_OF_RANGE = -10,   /* a coordinate is not -2^20 to 2^20 */
    VNC_ERROR_OUTPUT_WAITS = -11,   /* fetch what waits for the viewer first */
    VNC_ERROR_OFF_SCREEN = -12,     /* no pixel is there */
    VNC_ERROR_BAD_ADDRESS = -13,    /* not an IP address in digits */
    VNC_ERROR_CANNOT_LISTEN = -14,  /* the system refused: see errno */
    VNC_ERROR_NETWORK = -15,        /* the system's network failed: see errno */
    VNC_ERROR_CLOCK = -16,          /* the system's clock failed: see errno */
    VNC_ERROR_BAD_FORMAT = -17,     /* a pixel format that is not one */
    VNC_ERROR_BAD_STRIDE = -18,     /* a row takes more bytes than the stride */
    VNC_ERROR_TOO_FEW_BYTES = -19,  /* the rows take more than there are */
    VNC_ERROR_CANNOT_RECORD = -20,  /* the file can't be made: see errno */
    VNC_ERROR_VERSION = -21,        /* header and library differ */
    VNC_ERROR_BAD_SOCKET = -22,     /* no such socket: see errno */
    VNC_ERROR_FULL = -23,           /* as many viewers as may be connected */
    VNC_ERROR_CANNOT_ADOPT = -24,   /* the system refused it: see errno */
    VNC_ERROR_TOO_MANY_PORTS = -25, /* it listens on eight already */
    VNC_ERROR_CLOSED = -32          /* the screen, or the server, is closed */
};

/* Returns what a code says, in English, for a message to people. */
static inline const char *vnc_code_text(int32_t code)
{
    switch (code) {
    case VNC_ERROR_BAD_SIZE: return "not a size that a screen may have";
    case VNC_ERROR_BAD_NAME: return "the name has more than 255 bytes";
    case VNC_ERROR_BAD_RECT_LIMIT: return "not 1 to 1000 rectangles an update";
    case VNC_ERROR_BAD_RECT: return "the rectangle is not on the screen";
    case VNC_ERROR_BAD_PIXEL_COUNT: return "not as many colours as pixels";
    case VNC_ERROR_TEXT_TOO_LONG: return "the text has more than 65536 bytes";
    case VNC_ERROR_NO_VIEWER: return "no viewer has this number";
    case VNC_ERROR_NUMBER_IN_USE: return "a viewer has this number already";
    case VNC_ERROR_NO_MEMORY: return "out of memory";
    case VNC_ERROR_OUT_OF_RANGE: return "a coordinate is out of range";
    case VNC_ERROR_OUTPUT_WAITS: return "output waits to be fetched";
    case VNC_ERROR_OFF_SCREEN: return "no pixel is there";
    case VNC_ERROR_BAD_ADDRESS: return "not an IP address in digits";
    case VNC_ERROR_CANNOT_LISTEN: return "the system refused to listen";
    case VNC_ERROR_NETWORK: return "the system's network failed";
    case VNC_ERROR_CLOCK: return "the system's clock failed";
    case VNC_ERROR_BAD_FORMAT: return "not a pixel format";
    case VNC_ERROR_BAD_STRIDE: return "a row takes more than the stride";
    case VNC_ERROR_TOO_FEW_BYTES: return "the rows take more bytes";
    case VNC_ERROR_CANNOT_RECORD: return "the record's file can't be made";
    case VNC_ERROR_VERSION: return "the library is of another version";
    case VNC_ERROR_BAD_SOCKET: return "not a socket for this call";
    case VNC_ERROR_FULL: return "too many viewers";
    case VNC_ERROR_CANNOT_ADOPT: return "the connection can't be taken in";
    case VNC_ERROR_TOO_MANY_PORTS: return "it listens on eight ports already";
    case VNC_ERROR_CLOSED: return "closed";
    default: return code < 0 ? "an unknown error" : "done";
    }
}

/* By which fault a viewer is heard no further (RFC 6143). */
enum vnc_fault {
    VNC_FAULT_VERSION = 1,        /* its first 12 bytes are none (7.1.1) */
    VNC_FAULT_SECURITY_TYPE = 2,  /* it chose another than None (7.1.2) */
    VNC_FAULT_BITS_PER_PIXEL = 3, /* not 8, 16 or 32 (7.4) */
    VNC_FAULT_COLOUR_MAP = 4,     /* a colour map for more than 8 bits */
    VNC_FAULT_UNKNOWN_MESSAGE = 256 /* plus the type of the message (7.5) */
};

/* The pixels (x, y) with x1 <= x < x2 and y1 <= y < y2. */
typedef struct vnc_rect {
    int32_t x1, y1, x2, y2;
} vnc_rect;

/* Which of a viewer's inputs it is. */
enum vnc_input_kind {
    VNC_INPUT_KEY = 1,
    VNC_INPUT_POINTER = 2,
    VNC_INPUT_TEXT = 3
};

/* An input of a viewer's (7.5.4 to 7.5.6). Fields of other kinds are 0. */
typedef struct vnc_input {
    uint64_t viewer;
    uint32_t kind;      /* a vnc_input_kind */
    uint32_t down;      /* of a key: 1 for pressed, 0 for released */
    uint32_t key;       /* of a key: its keysym */
    uint32_t buttons;   /* of the pointer: a bit for each pressed button */
    uint32_t x, y;      /* of the pointer: where it is, maybe off the screen */
    uint64_t length;    /* of a text: its bytes, at most 262144 */
    uint32_t shortened; /* of a text: 1 if it was longer, and is cut there */
} vnc_input;

/* What a viewer has set by its messages (7.3.1, 7.5.1 to 7.5.3). A later
 * version may add fields behind these: the calls are handed the size of this
 * struct. */
typedef struct vnc_settings {
    uint32_t shared;         /* 1 if its ClientInit asked others to stay */
    uint32_t encoding;       /* its first of 0 Raw, 2 RRE, 5 Hextile */
    uint32_t copy_rect;      /* 1 if it takes CopyRect (7.7.2) */
    uint32_t desktop_size;   /* 1 if it takes DesktopSize (7.8.2) */
    uint32_t bits_per_pixel; /* of its pixel format (7.4): 8, 16 or 32 */
    uint32_t depth;          /* how many of these bits are used, as it said */
    uint32_t big_endian;     /* 1 if a pixel's highest byte comes first */
    uint32_t true_colour;    /* 0 with a colour map, and the six below are 0 */
    uint32_t red_max;        /* the greatest value of its red */
    uint32_t green_max;
    uint32_t blue_max;
    uint32_t red_shift;      /* how many bits stand below its red */
    uint32_t green_shift;
    uint32_t blue_shift;
    uint64_t full_requests;  /* how many requests were not incremental */
} vnc_settings;

/* What a pixel's bytes say: each component is what the pixel's number has
 * above its shift, under the mask of its maximum. */
typedef struct vnc_pixel_format {
    uint32_t bytes_per_pixel; /* 1 to 4 */
    uint32_t big_endian;      /* 1 if a pixel's highest byte comes first */
    uint32_t red_max, green_max, blue_max;       /* the greatest values */
    uint32_t red_shift, green_shift, blue_shift; /* how many bits are below */
} vnc_pixel_format;

/* The library lays these structs out as this compiler does. */
#if defined(__cplusplus) && __cplusplus >= 201103L
#define VNC_LAYOUT(type, size, alignment) \
    static_assert(sizeof(type) == size && alignof(type) == alignment, #type)
#elif defined(__STDC_VERSION__) && __STDC_VERSION__ >= 201112L
#define VNC_LAYOUT(type, size, alignment) \
    _Static_assert(sizeof(type) == size && _Alignof(type) == alignment, #type)
_Static_assert(_Alignof(max_align_t) >= VNC_ALIGNMENT, "malloc");
#else
#define VNC_LAYOUT(type, size, alignment) \
    typedef char type##_layout[sizeof(type) == size ? 1 : -1]
#endif
VNC_LAYOUT(vnc_rect, 16, 4);
VNC_LAYOUT(vnc_input, 48, 8);
VNC_LAYOUT(vnc_settings, 64, 8);
VNC_LAYOUT(vnc_pixel_format, 32, 4);

#endif
