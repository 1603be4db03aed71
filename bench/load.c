/* load.c - viewers that load an RFB server on 127.0.0.1, over plain sockets.
 *
 *   load full|dots|slow|idle|churn|hostile --port P [options]     (see usage)
 *
 * Each viewer has a thread. Every rectangle is parsed and checked; `dots`,
 * --prepaint and --verify decode into a picture as well. Each mode prints one
 * JSON line and ends by itself. */
#define _GNU_SOURCE
#include <arpa/inet.h>
#include <dirent.h>
#include <errno.h>
#include <netinet/in.h>
#include <netinet/tcp.h>
#include <poll.h>
#include <pthread.h>
#include <signal.h>
#include <stdarg.h>
#include <stdatomic.h>
#include <stdint.h>
#include <stdio.h>
#include <stdlib.h>
#include <string.h>
#include <sys/resource.h>
#include <sys/socket.h>
#include <sys/time.h>
#include <time.h>
#include <unistd.h>

#define BUFSZ (256 * 1024)
#define MAXV 1024
#define RAW 0
#define RRE 2
#define HEXTILE 5

typedef uint8_t u8; typedef uint16_t u16; typedef uint32_t u32; typedef uint64_t u64;

/* ---- options ---------------------------------------------------------- */

static int o_port, o_viewers = 1, o_enc = RAW, o_format = 32, o_prepaint;
static int o_verify, o_change, o_swapped, o_mix, o_count, o_conns = 40;
static double o_seconds = 2, o_warmup = 0.5, o_rate = 200, o_phase = 3;
static long o_pid;
static const char *o_attack = "", *mode;

/* ---- small things ------------------------------------------------------ */

static u64 now_ns(void)
{
    struct timespec t;
    clock_gettime(CLOCK_MONOTONIC, &t);
    return (u64)t.tv_sec * 1000000000u + (u64)t.tv_nsec;
}
static void sleep_until(u64 t)
{
    struct timespec ts = { (time_t)(t / 1000000000u), (long)(t % 1000000000u) };
    while (clock_nanosleep(CLOCK_MONOTONIC, TIMER_ABSTIME, &ts, NULL) == EINTR) ;
}
static void sleep_s(double s) { sleep_until(now_ns() + (u64)(s * 1e9)); }
static u16 be16(const u8 *p) { return (u16)(p[0] << 8 | p[1]); }
static u32 be32(const u8 *p) { return (u32)p[0] << 24 | (u32)p[1] << 16 | (u32)p[2] << 8 | p[3]; }
static void put16(u8 *p, unsigned v) { p[0] = (u8)(v >> 8); p[1] = (u8)v; }
static void put32(u8 *p, u32 v) { put16(p, v >> 16); put16(p + 2, v & 0xffff); }
static int by_double(const void *a, const void *b)
{
    double x = *(const double *)a, y = *(const double *)b;
    return x < y ? -1 : x > y;
}
static double quantile(double *v, long n, double q)
{
    if (n == 0) return -1;
    long i = (long)(q * (double)(n - 1) + 0.5);
    return v[i];
}

static atomic_int stop_all;      /* the measured part is over: let go */
static atomic_int failures;
static char first_failure[200];
static pthread_mutex_t fail_lock = PTHREAD_MUTEX_INITIALIZER;
static void fail(const char *fmt, ...)
{
    pthread_mutex_lock(&fail_lock);
    if (atomic_fetch_add(&failures, 1) == 0) {
        va_list a;
        va_start(a, fmt);
        vsnprintf(first_failure, sizeof first_failure, fmt, a);
        va_end(a);
    }
    pthread_mutex_unlock(&fail_lock);
}

/* ---- the server's process ---------------------------------------------- */

struct usage { double cpu, user, sys; long rss, hwm, threads, fds; int alive; };

static struct usage server_usage(void)
{
    struct usage u = { 0 };
    if (o_pid <= 0) return u;
    clockid_t clk;
    struct timespec ts;
    if (clock_getcpuclockid((pid_t)o_pid, &clk) == 0 && clock_gettime(clk, &ts) == 0)
        u.cpu = (double)ts.tv_sec + (double)ts.tv_nsec / 1e9;
    char path[64], line[1024];
    snprintf(path, sizeof path, "/proc/%ld/stat", o_pid);
    FILE *f = fopen(path, "r");
    if (f) {
        if (fgets(line, sizeof line, f)) {
            char *p = strrchr(line, ')');
            unsigned long ut = 0, st = 0;
            char state = 'Z';
            if (p && sscanf(p + 2, "%c %*s %*s %*s %*s %*s %*s %*s %*s %*s %*s %lu %lu", &state, &ut, &st) == 3) {
                u.user = (double)ut / (double)sysconf(_SC_CLK_TCK);
                u.sys = (double)st / (double)sysconf(_SC_CLK_TCK);
                u.alive = state != 'Z' && state != 'X';
            }
        }
        fclose(f);
    }
    snprintf(path, sizeof path, "/proc/%ld/status", o_pid);
    f = fopen(path, "r");
    if (f) {
        while (fgets(line, sizeof line, f)) {
            sscanf(line, "VmRSS: %ld", &u.rss);
            sscanf(line, "VmHWM: %ld", &u.hwm);
            sscanf(line, "Threads: %ld", &u.threads);
        }
        fclose(f);
    }
    snprintf(path, sizeof path, "/proc/%ld/fd", o_pid);
    DIR *d = opendir(path);
    if (d) {
        while (readdir(d)) u.fds++;
        u.fds -= 2;
        closedir(d);
    }
    return u;
}

static double own_cpu(void)
{
    struct rusage r;
    getrusage(RUSAGE_SELF, &r);
    return (double)r.ru_utime.tv_sec + (double)r.ru_utime.tv_usec / 1e6 +
           (double)r.ru_stime.tv_sec + (double)r.ru_stime.tv_usec / 1e6;
}

/* ---- one connection ---------------------------------------------------- */

struct conn {
    int fd, index;
    u8 *buf;
    size_t pos, len;
    int w, h, bpp;               /* bpp in bytes */
    int enc, dead, decode;
    u32 *fb;                     /* pixels in the viewer's format */
    pthread_mutex_t send_lock;
    double connect_ms;           /* connect() to ServerInit */
    atomic_ullong bytes, updates, rects;
    u64 whole_bytes, whole_updates;   /* bytes of complete updates, their number */
    u64 last_done, stall;             /* longest time between two updates, ns */
    atomic_ullong stall_from;         /* stalls count from here on */
    int impatient;               /* may give up when stop_all is set */
};

static int refill(struct conn *c, size_t want, u8 *direct)
{
    /* receives at least one byte; -1 where the connection is over */
    u64 deadline = now_ns() + 40000000000ull;
    for (;;) {
        ssize_t n;
        if (direct) n = recv(c->fd, direct, want, 0);
        else {
            if (c->pos == c->len) c->pos = c->len = 0;
            else if (c->pos > BUFSZ / 2) {
                memmove(c->buf, c->buf + c->pos, c->len - c->pos);
                c->len -= c->pos;
                c->pos = 0;
            }
            n = recv(c->fd, c->buf + c->len, BUFSZ - c->len, 0);
        }
        if (n > 0) {
            atomic_fetch_add_explicit(&c->bytes, (u64)n, memory_order_relaxed);
            if (!direct) c->len += (size_t)n;
            return (int)n;
        }
        if (n < 0 && (errno == EINTR)) continue;
        if (n < 0 && (errno == EAGAIN || errno == EWOULDBLOCK)) {
            if (c->impatient && atomic_load(&stop_all)) { c->dead = 1; return -1; }
            if (now_ns() < deadline) continue;
        }
        if (!c->dead && !(c->impatient && atomic_load(&stop_all)))
            fail("viewer %d: %s", c->index + 1, n == 0 ? "the server closed" : strerror(errno));
        c->dead = 1;
        return -1;
    }
}

/* n (at most BUFSZ / 2) bytes in one piece, or NULL */
static const u8 *take(struct conn *c, size_t n)
{
    while (c->len - c->pos < n)
        if (refill(c, 0, NULL) < 0) return NULL;
    const u8 *p = c->buf + c->pos;
    c->pos += n;
    return p;
}

static int skip(struct conn *c, size_t n)
{
    size_t have = c->len - c->pos;
    if (have >= n) { c->pos += n; return 0; }
    n -= have;
    c->pos = c->len = 0;
    while (n > 0) {
        /* MSG_TRUNC takes bytes off a TCP socket without copying them */
        ssize_t k = recv(c->fd, c->buf, n > (1u << 30) ? 1u << 30 : n, MSG_TRUNC);
        if (k > 0) atomic_fetch_add_explicit(&c->bytes, (u64)k, memory_order_relaxed);
        else if ((k = refill(c, n > BUFSZ ? BUFSZ : n, c->buf)) < 0) return -1;
        n -= (size_t)k;
    }
    return 0;
}

static int say(struct conn *c, const void *p, size_t n)
{
    pthread_mutex_lock(&c->send_lock);
    const u8 *b = p;
    while (n > 0) {
        ssize_t k = send(c->fd, b, n, MSG_NOSIGNAL);
        if (k < 0) {
            if (errno == EINTR) continue;
            if ((errno == EAGAIN || errno == EWOULDBLOCK) && !atomic_load(&stop_all)) continue;
            c->dead = 1;
            pthread_mutex_unlock(&c->send_lock);
            return -1;
        }
        b += k;
        n -= (size_t)k;
    }
    pthread_mutex_unlock(&c->send_lock);
    return 0;
}

static int dial(int rcvbuf)
{
    int fd = socket(AF_INET, SOCK_STREAM | SOCK_CLOEXEC, 0);
    if (fd < 0) return -1;
    if (rcvbuf) setsockopt(fd, SOL_SOCKET, SO_RCVBUF, &rcvbuf, sizeof rcvbuf);
    struct sockaddr_in a = { .sin_family = AF_INET, .sin_port = htons((u16)o_port) };
    a.sin_addr.s_addr = htonl(INADDR_LOOPBACK);
    struct timeval t = { 0, 100000 };
    setsockopt(fd, SOL_SOCKET, SO_RCVTIMEO, &t, sizeof t);
    struct timeval ts = { 1, 0 };
    setsockopt(fd, SOL_SOCKET, SO_SNDTIMEO, &ts, sizeof ts);
    if (connect(fd, (struct sockaddr *)&a, sizeof a) < 0) { close(fd); return -1; }
    int one = 1;
    setsockopt(fd, IPPROTO_TCP, TCP_NODELAY, &one, sizeof one);
    return fd;
}

static void hang_up(struct conn *c)
{
    if (c->fd >= 0) close(c->fd);
    c->fd = -1;
    free(c->buf);
    free(c->fb);
    c->buf = NULL;
    c->fb = NULL;
}

static int not_open(struct conn *c, const u8 *p, const char *what)
{
    if (p) fail("viewer %d: opening: %s", c->index + 1, what);
    return -1;
}

/* connects, and opens in version 3.8 with security type None, until the
 * ServerInit. Where openings are not what is measured, the version is said
 * before the server's is read: LibVNCServer waits 0.1 s for the first bytes of
 * a viewer, which might be a WebSocket's, and serves nobody meanwhile. */
static int greet_with(struct conn *c, int index, int rcvbuf)
{
    memset(c, 0, sizeof *c);
    c->index = index;
    c->fd = -1;
    pthread_mutex_init(&c->send_lock, NULL);
    c->buf = malloc(BUFSZ);
    u64 t0 = now_ns();
    c->fd = dial(rcvbuf);
    if (c->fd < 0) { fail("viewer %d: connect: %s", index + 1, strerror(errno)); return -1; }
    int early = strcmp(mode, "churn") != 0;
    if (early && say(c, "RFB 003.008\n", 12)) return -1;
    const u8 *p = take(c, 12);
    if (!p || memcmp(p, "RFB 003.", 8)) return not_open(c, p, "no version");
    if (!early && say(c, "RFB 003.008\n", 12)) return -1;
    p = take(c, 1);
    if (!p || p[0] == 0) return not_open(c, p, "no security types");
    int n = p[0], found = 0;
    p = take(c, (size_t)n);
    for (int i = 0; p && i < n; i++) found |= p[i] == 1;
    if (!found) return not_open(c, p, "None isn't offered");
    if (say(c, "\1", 1)) return -1;
    p = take(c, 4);
    if (!p || be32(p)) return not_open(c, p, "security result");
    if (say(c, "\1", 1)) return -1;
    p = take(c, 24);
    if (!p) return -1;
    c->w = be16(p);
    c->h = be16(p + 2);
    c->bpp = p[4] / 8;
    u32 name = be32(p + 20);
    if (name > 4096 || c->bpp == 0 || skip(c, name)) return not_open(c, p, "ServerInit");
    c->connect_ms = (double)(now_ns() - t0) / 1e6;
    return 0;
}

static int greet(struct conn *c, int index) { return greet_with(c, index, 0); }

/* The order of bytes that a format has: the other one for what is measured with --swapped, never where pixels are looked at. */
static int is_big;

static int set_format(struct conn *c, int bits)
{
    u8 m[20] = { 0 };
    m[4] = (u8)bits;
    if (bits == 32) { m[5] = 24; put16(m + 8, 255); put16(m + 10, 255); put16(m + 12, 255); m[14] = 16; m[15] = 8; m[16] = 0; }
    else if (bits == 16) { m[5] = 16; put16(m + 8, 31); put16(m + 10, 63); put16(m + 12, 31); m[14] = 11; m[15] = 5; m[16] = 0; }
    else { m[5] = 8; put16(m + 8, 7); put16(m + 10, 7); put16(m + 12, 3); m[14] = 5; m[15] = 2; m[16] = 0; }
    m[6] = (u8)is_big;
    m[7] = 1;
    c->bpp = bits / 8;
    return say(c, m, 20);
}

static u32 to_format(u32 rgb, int bits)
{
    u32 r = rgb >> 16 & 255, g = rgb >> 8 & 255, b = rgb & 255;
    if (bits == 32) return rgb & 0xffffffu;
    if (bits == 16) return (r * 31 + 127) / 255 << 11 | (g * 63 + 127) / 255 << 5 | (b * 31 + 127) / 255;
    return (r * 7 + 127) / 255 << 5 | (g * 7 + 127) / 255 << 2 | (b * 3 + 127) / 255;
}

static int set_encodings(struct conn *c, int enc)
{
    u8 m[16] = { 2, 0 };
    int n = 0;
    put32(m + 4 + 4 * n++, (u32)enc);
    if (enc != RAW) put32(m + 4 + 4 * n++, RAW);
    put16(m + 2, (unsigned)n);
    c->enc = enc;
    return say(c, m, 4 + 4 * (size_t)n);
}

static int request(struct conn *c, int incremental, int x, int y, int w, int h)
{
    u8 m[10] = { 3, (u8)incremental };
    put16(m + 2, (unsigned)x); put16(m + 4, (unsigned)y); put16(m + 6, (unsigned)w); put16(m + 8, (unsigned)h);
    return say(c, m, 10);
}

/* ---- parsing ------------------------------------------------------------ */

static u32 pixel(const u8 *p, int bpp)
{
    if (bpp == 4) return ((u32)p[3] << 24 | (u32)p[2] << 16 | (u32)p[1] << 8 | p[0]) & 0xffffffu;
    if (bpp == 2) return (u32)p[1] << 8 | p[0];
    return p[0];
}

static void fill(struct conn *c, int x, int y, int w, int h, u32 v)
{
    for (int j = y; j < y + h; j++) {
        u32 *r = c->fb + (long)j * c->w + x;
        for (int i = 0; i < w; i++) r[i] = v;
    }
}

static int raw_pixels(struct conn *c, int x, int y, int w, int h)
{
    if (!c->decode) return skip(c, (size_t)w * (size_t)h * (size_t)c->bpp);
    for (int j = 0; j < h; j++) {
        const u8 *p = take(c, (size_t)w * (size_t)c->bpp);
        if (!p) return -1;
        u32 *r = c->fb + (long)(y + j) * c->w + x;
        for (int i = 0; i < w; i++) r[i] = pixel(p + i * c->bpp, c->bpp);
    }
    return 0;
}

static int bad(struct conn *c, const char *what)
{
    fail("viewer %d: bad %s", c->index + 1, what);
    c->dead = 1;
    return -1;
}

static int rre_pixels(struct conn *c, int x, int y, int w, int h)
{
    const u8 *p = take(c, 4 + (size_t)c->bpp);
    if (!p) return -1;
    u32 n = be32(p);
    if ((u64)n > (u64)w * (u64)h) return bad(c, "RRE count");
    if (c->decode) fill(c, x, y, w, h, pixel(p + 4, c->bpp));
    size_t size = (size_t)c->bpp + 8;
    while (n > 0) {
        size_t have = (c->len - c->pos) / size;
        if (have == 0) { if (!take(c, size)) return -1; c->pos -= size; have = (c->len - c->pos) / size; }
        if (have > n) have = n;
        p = c->buf + c->pos;
        c->pos += have * size;
        n -= (u32)have;
        for (; have > 0; have--, p += size) {
            const u8 *q = p + c->bpp;
            int sx = be16(q), sy = be16(q + 2), sw = be16(q + 4), sh = be16(q + 6);
            if (sx + sw > w || sy + sh > h) return bad(c, "RRE subrectangle");
            if (c->decode) fill(c, x + sx, y + sy, sw, sh, pixel(p, c->bpp));
        }
    }
    return 0;
}

static int hextile_pixels(struct conn *c, int x, int y, int w, int h)
{
    u32 bg = 0, fg = 0;
    int has_bg = 0, has_fg = 0;
    for (int ty = 0; ty < h; ty += 16)
        for (int tx = 0; tx < w; tx += 16) {
            int tw = w - tx < 16 ? w - tx : 16, th = h - ty < 16 ? h - ty : 16;
            const u8 *p = take(c, 1);
            if (!p) return -1;
            int bits = *p;
            if (bits & 1) {
                if (raw_pixels(c, x + tx, y + ty, tw, th)) return -1;
                has_bg = has_fg = 0;
                continue;
            }
            if (bits & 2) { if (!(p = take(c, (size_t)c->bpp))) return -1; bg = pixel(p, c->bpp); has_bg = 1; }
            if (!has_bg) return bad(c, "Hextile background");
            if (bits & 4) { if (!(p = take(c, (size_t)c->bpp))) return -1; fg = pixel(p, c->bpp); has_fg = 1; }
            if (c->decode) fill(c, x + tx, y + ty, tw, th, bg);
            if (!(bits & 8)) continue;
            if (!(p = take(c, 1))) return -1;
            int n = *p, coloured = (bits & 16) != 0;
            if (!coloured && !has_fg && n) return bad(c, "Hextile foreground");
            size_t size = (coloured ? (size_t)c->bpp : 0) + 2;
            if (!(p = take(c, size * (size_t)n))) return -1;
            for (; n > 0; n--, p += size) {
                const u8 *q = p + size - 2;
                int sx = q[0] >> 4, sy = q[0] & 15, sw = (q[1] >> 4) + 1, sh = (q[1] & 15) + 1;
                if (sx + sw > tw || sy + sh > th) return bad(c, "Hextile subrectangle");
                if (c->decode) fill(c, x + tx + sx, y + ty + sy, sw, sh, coloured ? pixel(p, c->bpp) : fg);
            }
            if (coloured) has_fg = 0;
        }
    return 0;
}

/* One message. Gives the places covered where it was an update (-1 where the
 * connection is over, -2 where it was another message). */
static long message(struct conn *c)
{
    const u8 *p = take(c, 1);
    if (!p) return -1;
    switch (*p) {
    case 0: break;
    case 1: {
        if (!(p = take(c, 5))) return -1;
        if (skip(c, 6u * be16(p + 3))) return -1;
        return -2;
    }
    case 2: return -2;
    case 3:
        if (!(p = take(c, 7))) return -1;
        if (skip(c, be32(p + 3))) return -1;
        return -2;
    default: return bad(c, "message type");
    }
    if (!(p = take(c, 3))) return -1;
    int n = be16(p + 1);
    long covered = 0;
    for (int k = 0; k < n; k++) {
        if (!(p = take(c, 12))) return -1;
        int x = be16(p), y = be16(p + 2), w = be16(p + 4), h = be16(p + 6);
        int enc = (int)be32(p + 8);
        if (x + w > c->w || y + h > c->h) return bad(c, "rectangle");
        int r;
        if (enc == RAW) r = raw_pixels(c, x, y, w, h);
        else if (enc == RRE && c->enc == RRE) r = rre_pixels(c, x, y, w, h);
        else if (enc == HEXTILE && c->enc == HEXTILE) r = hextile_pixels(c, x, y, w, h);
        else r = bad(c, "encoding");
        if (r) return -1;
        covered += (long)w * h;
    }
    atomic_fetch_add_explicit(&c->rects, (u64)n, memory_order_relaxed);
    return covered;
}

static void done_one(struct conn *c)
{
    u64 t = now_ns(), from = atomic_load_explicit(&c->stall_from, memory_order_relaxed);
    u64 since = c->last_done > from ? c->last_done : from;
    if (from && t - since > c->stall) c->stall = t - since;
    c->last_done = t;
}

/* One whole update: a non-incremental request, then updates until every place
 * was covered. */
static int refresh(struct conn *c)
{
    long area = 0, whole = (long)c->w * c->h;
    if (request(c, 0, 0, 0, c->w, c->h)) return -1;
    for (int guard = 0; guard < 100000; ) {
        long n = message(c);
        if (n == -1) return -1;
        if (n == -2) continue;           /* of bells and texts there may be any number */
        guard++;
        area += n;
        if (area >= whole) { done_one(c); return 0; }
        if (request(c, 1, 0, 0, c->w, c->h)) return -1;
    }
    return bad(c, "refresh");
}

static struct conn conns[MAXV];

/* With --mix viewers are of four kinds: Raw in 32 and in 16 bits, RRE, Hextile. */
static int prepare(struct conn *c)
{
    int kind = o_mix && c >= conns && c < conns + MAXV ? (int)((c - conns) % 4) : -1;
    int bits = kind < 0 ? o_format : kind == 1 ? 16 : 32, encoding = kind < 0 ? o_enc : kind < 2 ? RAW : kind == 2 ? RRE : HEXTILE;
    is_big = o_swapped;
    int refused = set_format(c, bits);
    is_big = 0;
    if (refused || set_encodings(c, encoding)) return -1;
    return refresh(c);
}

static int want_picture(struct conn *c)
{
    if (!c->fb) c->fb = calloc((size_t)c->w * (size_t)c->h, 4);
    c->decode = 1;
    return c->fb ? 0 : -1;
}

static void put_pointer(u8 *m, int mask, int x, int y)
{
    m[0] = 5; m[1] = (u8)mask;
    put16(m + 2, (unsigned)x);
    put16(m + 4, (unsigned)y);
}

/* The same for the same place, and else as by chance. */
static u32 mixed(u32 a, u32 b)
{
    u32 h = a * 0x9e3779b1u ^ (b + 0x7f4a7c15u) * 0x85ebca6bu;
    h ^= h >> 15; h *= 0x2c1b3c6du;
    h ^= h >> 12; h *= 0x297a2d39u;
    h ^= h >> 15;
    return h;
}

/* Is (x, y) part of a glyph-like blob? Cells of 8 by 16, strokes of one or two
 * places, blanks between words, ragged line ends. */
static int is_ink(int x, int y, int width)
{
    int cx = x >> 3, cy = y >> 4, gx = x & 7, gy = y & 15;
    u32 line = mixed((u32)cy, 77u);
    int cells = width >> 3;
    int last = cells - 1 - (int)(line % (u32)(cells / 3 + 1));
    u32 cell = mixed((u32)cx, (u32)cy);
    if (line % 11u == 0 || cx > last || cell % 6u == 0) return 0;
    if (gx < 1 || gx > 6 || gy < 3 || gy > 12) return 0;
    u32 shape = mixed(cell % 60u, 5u);
    int left = (shape >> 0) & 1, right = (shape >> 1) & 1;
    int top = (shape >> 2) & 1, mid = (shape >> 3) & 1, low = (shape >> 4) & 1;
    int slant = (shape >> 5) & 1;
    if (!(left | right | slant)) left = 1;
    if (left && gx <= 2) return 1;
    if (right && gx >= 5) return 1;
    if (top && gy == 3) return 1;
    if (mid && gy == 7) return 1;
    if (low && gy == 12) return 1;
    if (slant && (gx - 1) * 2 == gy - 3) return 1;
    return 0;
}

/* Paint glyph-like blobs, about `most` places, by pointer events, and see
 * every one of them arrive (servers may drop input that comes too fast). */
static long prepaint(struct conn *c, long most)
{
    long n = 0, sent = 0;
    long room = most + (long)c->w * c->h / 1000 + 1;
    int *xy = malloc(sizeof(int) * 2 * (size_t)room);
    for (int y = 0; y < c->h; y++)
        for (int x = 0; x < c->w; x++)
            /* beside the glyphs a place in every page, so that no page of the
             * server's screen is an unwritten one */
            if ((n < most && is_ink(x, y, c->w)) || ((long)y * c->w + x) % 1000 == 500) {
                if (n == room) break;
                xy[2 * n] = x;
                xy[2 * n + 1] = y;
                n++;
            }
    if (set_format(c, 32) || set_encodings(c, RAW) || want_picture(c) || refresh(c)) { free(xy); return -1; }
    for (long at = 0; at < n; at += 200) {
        long end = at + 200 < n ? at + 200 : n;
        for (int round = 0; ; round++) {
            u8 m[200 * 6];
            size_t k = 0;
            long missing = 0;
            for (long i = at; i < end; i++)
                if (c->fb[(long)xy[2 * i + 1] * c->w + xy[2 * i]] != 0xffffffu) {
                    missing++;
                    put_pointer(m + 6 * k++, 1, xy[2 * i], xy[2 * i + 1]);
                }
            if (missing == 0) break;
            if (round > 2000) { fail("prepaint: %ld places don't arrive", missing); free(xy); return -1; }
            if (round % 20 == 0) { if (say(c, m, 6 * k)) { free(xy); return -1; } sent += (long)k; }
            if (request(c, 1, 0, 0, c->w, c->h)) { free(xy); return -1; }
            long r;
            while ((r = message(c)) == -2) ;
            if (r == -1) { free(xy); return -1; }
        }
    }
    u8 up[6];
    put_pointer(up, 0, 0, 0);
    say(c, up, 6);
    free(xy);
    (void)sent;
    return n;
}

/* ---- shared set-up -------------------------------------------------------- */

static u32 *reference;           /* what Raw in 32 bits showed */
static double connect_med, connect_max;
static long painted;

static int open_all(int n, int with_prepaint)
{
    double t[MAXV];
    for (int i = 0; i < n; i++) {
        struct conn *c = &conns[i];
        if (greet(c, i)) return -1;
        t[i] = c->connect_ms;
        if (i == 0 && with_prepaint && o_prepaint) {
            painted = prepaint(c, o_prepaint);
            if (painted < 0) return -1;
        }
        if (i == 0 && o_verify) {
            if (set_format(c, 32) || set_encodings(c, RAW) || want_picture(c) || refresh(c)) return -1;
            reference = malloc((size_t)c->w * (size_t)c->h * 4);
            memcpy(reference, c->fb, (size_t)c->w * (size_t)c->h * 4);
        }
        if (i == 0 && strcmp(mode, "dots")) c->decode = 0;
        if (prepare(c)) return -1;
    }
    qsort(t, (size_t)n, sizeof *t, by_double);
    connect_med = quantile(t, n, 0.5);
    connect_max = t[n - 1];
    return 0;
}

/* After the measured part: is the viewer's encoding of the screen right? */
static const char *verify(void)
{
    if (!o_verify) return "none";
    struct conn *c = &conns[0];
    if (c->dead || want_picture(c)) return "lost";
    memset(c->fb, 0x5a, (size_t)c->w * (size_t)c->h * 4);
    if (refresh(c)) return "lost";
    for (long i = 0; i < (long)c->w * c->h; i++)
        if (c->fb[i] != to_format(reference[i], o_format)) return "differs";
    return "same";
}

struct sample { u64 t; struct usage u; double own; u64 bytes[MAXV], updates[MAXV], rects[MAXV]; };

static void sample(struct sample *s, int n)
{
    s->u = server_usage();
    s->own = own_cpu();
    s->t = now_ns();
    for (int i = 0; i < n; i++) {
        s->bytes[i] = atomic_load(&conns[i].bytes);
        s->updates[i] = atomic_load(&conns[i].updates);
        s->rects[i] = atomic_load(&conns[i].rects);
    }
}

/* The window in slices of a tenth of a second: quartiles of the slices stand
 * against hiccups of the machine better than the mean of the window. */
#define MAXSLICES 1300
static struct { u64 t; double cpu, bytes, updates; } slice[MAXSLICES];
static int slices;

static void watch(int n, double seconds)
{
    clockid_t clk;
    int has = o_pid > 0 && clock_getcpuclockid((pid_t)o_pid, &clk) == 0;
    u64 t0 = now_ns();
    int most = (int)(seconds * 10 + 0.5);
    for (slices = 0; slices <= most && slices < MAXSLICES; slices++) {
        if (slices) sleep_until(t0 + (u64)slices * 100000000u);
        struct timespec ts = { 0, 0 };
        double bytes = 0, updates = 0;
        if (has) clock_gettime(clk, &ts);
        slice[slices].t = now_ns();
        for (int i = 0; i < n; i++) {
            bytes += (double)atomic_load(&conns[i].bytes);
            updates += (double)atomic_load(&conns[i].updates);
        }
        slice[slices].cpu = (double)ts.tv_sec + (double)ts.tv_nsec / 1e9;
        slice[slices].bytes = bytes;
        slice[slices].updates = updates;
    }
}

/* one: the bytes of one update where updates are counted by bytes, else 0 */
static void json_slices(double one)
{
    static double rate[MAXSLICES], cost[MAXSLICES];
    int n = 0, m = 0;
    for (int i = 1; i < slices; i++) {
        double dt = (double)(slice[i].t - slice[i - 1].t) / 1e9;
        double u = one > 0 ? (slice[i].bytes - slice[i - 1].bytes) / one : slice[i].updates - slice[i - 1].updates;
        rate[n++] = u / dt;
        if (u > 0) cost[m++] = (slice[i].cpu - slice[i - 1].cpu) * 1e6 / u;
    }
    qsort(rate, (size_t)n, sizeof *rate, by_double);
    qsort(cost, (size_t)m, sizeof *cost, by_double);
    printf(",\"updates_per_s_q3\":%.3f,\"cpu_us_per_update_q1\":%.3f", quantile(rate, n, 0.75), quantile(cost, m, 0.25));
}

static const char *enc_name(int e) { return e == RAW ? "raw" : e == RRE ? "rre" : e == HEXTILE ? "hextile" : "?"; }

static void json_head(int w, int h)
{
    printf("{\"mode\":\"%s\",\"encoding\":\"%s\",\"format\":%d,\"viewers\":%d,\"width\":%d,\"height\":%d",
           mode, enc_name(o_enc), o_format, o_viewers, w, h);
}

static void json_usage(const struct sample *a, const struct sample *b, double updates)
{
    double dt = (double)(b->t - a->t) / 1e9;
    printf(",\"own_cpu_share\":%.3f", (b->own - a->own) / dt);
    if (o_pid > 0) {
        double cpu = b->u.cpu - a->u.cpu, us = b->u.user - a->u.user, sy = b->u.sys - a->u.sys;
        printf(",\"server_cpu_share\":%.4f,\"server_user_part\":%.3f", cpu / dt, us + sy > 0 ? us / (us + sy) : -1);
        if (updates > 0) printf(",\"cpu_us_per_update\":%.3f", cpu * 1e6 / updates);
        printf(",\"rss_kb\":%ld,\"hwm_kb\":%ld,\"threads\":%ld,\"fds\":%ld,\"alive\":%s",
               b->u.rss, b->u.hwm, b->u.threads, b->u.fds, b->u.alive ? "true" : "false");
    }
}

static int json_end(void)
{
    int f = atomic_load(&failures);
    printf(",\"failures\":%d", f);
    if (f) {
        printf(",\"first_failure\":\"");
        for (char *p = first_failure; *p; p++) putchar(*p == '"' || *p == '\\' || *p < 32 ? '_' : *p);
        printf("\"");
    }
    printf(",\"ok\":%s}\n", f ? "false" : "true");
    return f ? 1 : 0;
}

static int cannot(void)
{
    if (!atomic_load(&failures)) fail("set-up failed");
    printf("{\"mode\":\"%s\"", mode);
    return json_end();
}

static u64 worst_stall(int n)
{
    /* the longest time without an update of any good viewer, still running ones too */
    u64 w = 0, t = now_ns();
    for (int i = 0; i < n; i++) {
        struct conn *c = &conns[i];
        u64 from = atomic_load(&c->stall_from), since = c->last_done > from ? c->last_done : from;
        if (c->stall > w) w = c->stall;
        if (t - since > w) w = t - since;
    }
    return w;
}
static void reset_stall(int n)
{
    for (int i = 0; i < n; i++) { conns[i].stall = 0; atomic_store(&conns[i].stall_from, now_ns()); }
}

/* ---- full ------------------------------------------------------------------ */

static pthread_barrier_t round_begins, round_ends;
static atomic_int rounds_over;          /* set by the first viewer alone, before a round begins */
static atomic_int round_lost;           /* set before a round ends */

/* The first viewer paints a place, and waits until it is shown it. */
static int change_a_place(struct conn *c)
{
    static unsigned turn = 1;        /* never the first place, which LibVNCServer takes for the background in RRE */
    u8 m[12];
    unsigned at = turn++ * 7919u % ((unsigned)c->w * (unsigned)c->h);
    put_pointer(m, 1, (int)(at % (unsigned)c->w), (int)(at / (unsigned)c->w));
    put_pointer(m + 6, 0, (int)(at % (unsigned)c->w), (int)(at / (unsigned)c->w));
    if (say(c, m, sizeof m) || request(c, 1, 0, 0, c->w, c->h)) return -1;
    for (;;) {
        long n = message(c);
        if (n == -1) return -1;
        if (n > 0) return 0;
    }
}

/* With --change all viewers begin each update together, once a place was painted that changes the picture. */
static int begin_round(struct conn *c)
{
    if (c == &conns[0] && (atomic_load(&stop_all) || change_a_place(c))) atomic_store(&rounds_over, 1);
    pthread_barrier_wait(&round_begins);
    return atomic_load(&rounds_over);
}

static void *full_viewer(void *arg)
{
    struct conn *c = arg;
    while (o_change || !atomic_load(&stop_all)) {
        if (o_change && begin_round(c)) return NULL;
        u64 before = atomic_load(&c->bytes) - (c->len - c->pos);
        int lost = refresh(c);
        if (lost) atomic_store(&round_lost, 1);
        if (o_change) {
            pthread_barrier_wait(&round_ends);
            lost = atomic_load(&round_lost);
        }
        if (lost) return NULL;
        atomic_fetch_add(&c->updates, 1);
        c->whole_bytes += atomic_load(&c->bytes) - (c->len - c->pos) - before;
        c->whole_updates++;
        if (o_count && c->whole_updates >= (u64)o_count) return NULL;
    }
    return NULL;
}

/* Full updates of a window: its bytes, divided by the bytes of one update
 * (the picture stands still, or changes by a place, so every update has about as many). */
static double window_updates(const struct sample *a, const struct sample *b, int from, int n, double *low, double *high)
{
    double all = 0;
    if (low) *low = 1e30;
    if (high) *high = 0;
    for (int i = from; i < n; i++) {
        struct conn *c = &conns[i];
        double one = 0;
        if (c->whole_updates)
            one = (double)(b->bytes[i] - a->bytes[i]) / ((double)c->whole_bytes / (double)c->whole_updates);
        else one = (double)(b->updates[i] - a->updates[i]);
        all += one;
        if (low && one < *low) *low = one;
        if (high && one > *high) *high = one;
    }
    return all;
}

static int run_full(void)
{
    int n = o_viewers;
    pthread_t th[MAXV];
    static struct sample a, b;
    if (open_all(n, 1)) return cannot();
    if (pthread_barrier_init(&round_begins, NULL, (unsigned)n) || pthread_barrier_init(&round_ends, NULL, (unsigned)n)) return cannot();
    for (int i = 0; i < n; i++) { conns[i].impatient = i > 0 && !o_change; pthread_create(&th[i], NULL, full_viewer, &conns[i]); }
    if (o_count) {                   /* so many updates each, and an end */
        for (int i = 0; i < n; i++) pthread_join(th[i], NULL);
        json_head(conns[0].w, conns[0].h);
        printf(",\"count\":%d,\"bytes_per_update\":%.1f,\"painted\":%ld", o_count,
               conns[0].whole_updates ? (double)conns[0].whole_bytes / (double)conns[0].whole_updates : -1, painted);
        for (int i = 0; i < n; i++) hang_up(&conns[i]);
        return json_end();
    }
    sleep_s(o_warmup);
    for (int i = 0; i < n; i++) atomic_store(&conns[i].stall_from, now_ns());
    sample(&a, n);
    watch(n, o_seconds);
    sample(&b, n);
    double stall = (double)worst_stall(n);
    atomic_store(&stop_all, 1);
    for (int i = 0; i < n; i++) pthread_join(th[i], NULL);
    const char *v = verify();
    if (!strcmp(v, "differs")) fail("the decoded picture differs from the Raw one");
    double low, high, bytes = 0, rects = 0, dt = (double)(b.t - a.t) / 1e9, whole = 0, wu = 0;
    double u = window_updates(&a, &b, 0, n, &low, &high);
    for (int i = 0; i < n; i++) {
        bytes += (double)(b.bytes[i] - a.bytes[i]);
        rects += (double)(b.rects[i] - a.rects[i]);
        whole += (double)conns[i].whole_bytes;
        wu += (double)conns[i].whole_updates;
    }
    json_head(conns[0].w, conns[0].h);
    printf(",\"seconds\":%.3f,\"updates_per_s\":%.3f,\"mb_per_s\":%.3f,\"bytes_per_update\":%.1f,\"rects_per_update\":%.3f",
           dt, u / dt, bytes / dt / 1e6, wu ? whole / wu : -1, u ? rects / u : -1);
    json_slices(wu ? whole / wu : 0);
    printf(",\"slowest_share\":%.3f,\"stall_max_ms\":%.2f,\"connect_ms\":%.3f,\"connect_max_ms\":%.3f,\"painted\":%ld,\"verify\":\"%s\"",
           u ? low * n / u : -1, stall / 1e6, connect_med, connect_max, painted, v);
    json_usage(&a, &b, u);
    for (int i = 0; i < n; i++) hang_up(&conns[i]);
    return json_end();
}

/* ---- dots ------------------------------------------------------------------- */

#define MAXDOTS 300000
static long dot_count;                   /* at most MAXDOTS and the places */
static atomic_ullong *dot_sent;          /* ns, 0 where not sent */
static atomic_int *dot_seen;             /* by how many viewers */
static float *dot_ms;                    /* viewer * dot_count + dot; < 0 not seen */
static atomic_long dots_out;
static u64 dot_step;

static long dot_place(long i) { return (long)(((u64)i * dot_step + 12345u) % ((u64)conns[0].w * (u64)conns[0].h)); }

static void send_dot(void)
{
    long i = atomic_load(&dots_out);
    if (i >= dot_count || (o_count && i >= o_count)) return;
    struct conn *c = &conns[0];
    u8 m[6];
    long p = dot_place(i);
    put_pointer(m, 1, (int)(p % c->w), (int)(p / c->w));
    atomic_store(&dot_sent[i], now_ns());
    atomic_store(&dots_out, i + 1);
    say(c, m, 6);
}

static void *dots_viewer(void *arg)
{
    struct conn *c = arg;
    float *ms = dot_ms + (long)c->index * dot_count;
    u32 white = to_format(0xffffff, o_format);
    long low = 0;
    if (request(c, 1, 0, 0, c->w, c->h)) return NULL;
    while (!atomic_load(&stop_all)) {
        long n = message(c);
        if (n == -1) return NULL;
        if (n == -2) continue;
        u64 t = now_ns();
        atomic_fetch_add(&c->updates, 1);
        done_one(c);
        if (request(c, 1, 0, 0, c->w, c->h)) return NULL;
        long out = atomic_load(&dots_out);
        int next = 0;
        for (long i = low; i < out; i++) {
            if (ms[i] >= 0 || c->fb[dot_place(i)] != white) continue;
            ms[i] = (float)((double)(t - atomic_load(&dot_sent[i])) / 1e6);
            if (atomic_fetch_add(&dot_seen[i], 1) + 1 == o_viewers && i == out - 1) next = 1;
        }
        while (low < out && ms[low] >= 0) low++;
        if (out - low > 5000) low = out - 5000;        /* lost ones aren't waited for */
        if (next && o_rate <= 0 && !atomic_load(&stop_all)) send_dot();
    }
    return NULL;
}

static void *dots_painter(void *arg)
{
    (void)arg;
    u64 t = now_ns();
    if (o_rate > 0) {
        u64 step = (u64)(1e9 / o_rate);
        while (!atomic_load(&stop_all)) { send_dot(); t += step; sleep_until(t); }
    } else {
        long last = -1;
        send_dot();
        while (!atomic_load(&stop_all)) {              /* only where a dot was lost */
            sleep_s(0.2);
            long out = atomic_load(&dots_out);
            if (out == last && !atomic_load(&stop_all)) send_dot();
            last = out;
        }
    }
    return NULL;
}

static int run_dots(void)
{
    int n = o_viewers;
    pthread_t th[MAXV], painter;
    static struct sample a, b;
    if (open_all(n, 1)) return cannot();
    for (int i = 0; i < n; i++) {
        if (want_picture(&conns[i]) || refresh(&conns[i])) return cannot();
        conns[i].impatient = 1;
    }
    u64 places = (u64)conns[0].w * (u64)conns[0].h;
    dot_count = o_count ? o_count : o_rate > 0 ? (long)(o_rate * (o_warmup + o_seconds + 1)) + 100 : MAXDOTS;
    if (dot_count > MAXDOTS) dot_count = MAXDOTS;
    if ((u64)dot_count > places - 1) dot_count = (long)places - 1;
    for (dot_step = places * 5 / 13 | 1; ; dot_step += 2) {      /* coprime: no place twice */
        u64 x = dot_step, y = places;
        while (y) { u64 r = x % y; x = y; y = r; }
        if (x == 1) break;
    }
    dot_sent = calloc((size_t)dot_count, sizeof *dot_sent);
    dot_seen = calloc((size_t)dot_count, sizeof *dot_seen);
    dot_ms = malloc(sizeof *dot_ms * (size_t)dot_count * (size_t)n);
    if (!dot_sent || !dot_seen || !dot_ms) return cannot();
    for (long i = 0; i < dot_count * n; i++) dot_ms[i] = -1;
    for (int i = 0; i < n; i++) pthread_create(&th[i], NULL, dots_viewer, &conns[i]);
    if (o_count > dot_count) { fail("too many dots"); return cannot(); }
    if (o_count) {                   /* so many dots, one after the other, and an end */
        u64 limit = now_ns() + 300000000000ull;
        send_dot();
        while (atomic_load(&dot_seen[o_count - 1]) < n && now_ns() < limit) sleep_s(0.01);
        if (atomic_load(&dot_seen[o_count - 1]) < n) fail("dot %ld was the last", atomic_load(&dots_out));
        atomic_store(&stop_all, 1);
        for (int i = 0; i < n; i++) shutdown(conns[i].fd, SHUT_RDWR);
        for (int i = 0; i < n; i++) pthread_join(th[i], NULL);
        json_head(conns[0].w, conns[0].h);
        printf(",\"count\":%d", o_count);
        for (int i = 0; i < n; i++) hang_up(&conns[i]);
        return json_end();
    }
    pthread_create(&painter, NULL, dots_painter, NULL);
    sleep_s(o_warmup);
    long from = atomic_load(&dots_out);
    for (int i = 0; i < n; i++) atomic_store(&conns[i].stall_from, now_ns());
    sample(&a, n);
    watch(n, o_seconds);
    sample(&b, n);
    long to = atomic_load(&dots_out);
    sleep_s(0.3);                                      /* the last dots arrive */
    atomic_store(&stop_all, 1);
    pthread_join(painter, NULL);
    for (int i = 0; i < n; i++) shutdown(conns[i].fd, SHUT_RDWR);
    for (int i = 0; i < n; i++) pthread_join(th[i], NULL);
    double dt = (double)(b.t - a.t) / 1e9, u = 0, bytes = 0, rects = 0, low = 1e30;
    for (int i = 0; i < n; i++) {
        double one = (double)(b.updates[i] - a.updates[i]);
        u += one;
        if (one < low) low = one;
        bytes += (double)(b.bytes[i] - a.bytes[i]);
        rects += (double)(b.rects[i] - a.rects[i]);
    }
    long dots = to - from, seen = 0, lost = 0;
    double *ms = malloc(sizeof *ms * (size_t)(dots * n + 1)), *worst = malloc(sizeof *worst * (size_t)(dots + 1));
    long nw = 0;
    for (long d = from; d < to; d++) {
        double w = 0;
        int all = 1;
        for (int i = 0; i < n; i++) {
            float v = dot_ms[(long)i * dot_count + d];
            if (v < 0) { lost++; all = 0; } else { ms[seen++] = v; if (v > w) w = v; }
        }
        if (all) worst[nw++] = w;
    }
    qsort(ms, (size_t)seen, sizeof *ms, by_double);
    qsort(worst, (size_t)nw, sizeof *worst, by_double);
    json_head(conns[0].w, conns[0].h);
    printf(",\"rate\":%.1f,\"seconds\":%.3f,\"dots_per_s\":%.2f,\"updates_per_s\":%.2f,\"mb_per_s\":%.4f,\"bytes_per_update\":%.1f,\"rects_per_update\":%.3f",
           o_rate, dt, (double)dots / dt, u / dt, bytes / dt / 1e6, u ? bytes / u : -1, u ? rects / u : -1);
    printf(",\"latency_ms\":{\"median\":%.4f,\"p90\":%.4f,\"p99\":%.4f,\"max\":%.4f,\"last_viewer_median\":%.4f,\"last_viewer_p99\":%.4f}",
           quantile(ms, seen, 0.5), quantile(ms, seen, 0.9), quantile(ms, seen, 0.99), quantile(ms, seen, 1),
           quantile(worst, nw, 0.5), quantile(worst, nw, 0.99));
    json_slices(0);
    printf(",\"lost\":%ld,\"slowest_share\":%.3f,\"connect_ms\":%.3f,\"connect_max_ms\":%.3f",
           lost, u ? low * n / u : -1, connect_med, connect_max);
    json_usage(&a, &b, u);
    if (o_pid > 0 && dots) printf(",\"cpu_us_per_dot\":%.3f", (b.u.cpu - a.u.cpu) * 1e6 / (double)dots);
    if (nw == 0) fail("no dot was seen by all");
    for (int i = 0; i < n; i++) hang_up(&conns[i]);
    return json_end();
}

/* ---- slow ------------------------------------------------------------------- */

/* the good viewers (all but one) without and with the one that never reads */
static int run_slow(void)
{
    int n = o_viewers > 1 ? o_viewers - 1 : 1;
    pthread_t th[MAXV];
    static struct sample a, b, d, e;
    if (open_all(n, 1)) return cannot();
    for (int i = 0; i < n; i++) { conns[i].impatient = 1; pthread_create(&th[i], NULL, full_viewer, &conns[i]); }
    sleep_s(o_warmup);
    reset_stall(n);
    sample(&a, n);
    sleep_s(o_seconds);
    sample(&b, n);
    u64 stall0 = worst_stall(n);

    /* the slow one opens in its own time, asks for everything, never reads again */
    struct conn slow;
    memset(&slow, 0, sizeof slow);
    int slow_ok = greet_with(&slow, n, 4096) == 0 && set_format(&slow, 32) == 0 && set_encodings(&slow, RAW) == 0;
    if (!slow_ok) fail("the slow viewer couldn't open");
    /* spaced, so that a server that joins requests fills the buffers too */
    for (int i = 0; slow_ok && i < 100; i++) { request(&slow, 0, 0, 0, slow.w, slow.h); sleep_s(0.003); }
    sleep_s(0.1);
    reset_stall(n);
    sample(&d, n);
    sleep_s(o_phase);
    sample(&e, n);
    u64 stall1 = worst_stall(n);
    atomic_store(&stop_all, 1);
    for (int i = 0; i < n; i++) shutdown(conns[i].fd, SHUT_RDWR);
    for (int i = 0; i < n; i++) pthread_join(th[i], NULL);
    double r0 = window_updates(&a, &b, 0, n, NULL, NULL) / ((double)(b.t - a.t) / 1e9);
    double r1 = window_updates(&d, &e, 0, n, NULL, NULL) / ((double)(e.t - d.t) / 1e9);
    json_head(conns[0].w, conns[0].h);
    printf(",\"others_per_s_alone\":%.2f,\"others_per_s_with_slow\":%.2f,\"ratio\":%.4f", r0, r1, r0 > 0 ? r1 / r0 : -1);
    printf(",\"stall_ms_alone\":%.2f,\"stall_ms_with_slow\":%.2f", (double)stall0 / 1e6, (double)stall1 / 1e6);
    printf(",\"rss_kb_alone\":%ld,\"rss_kb_with_slow\":%ld", b.u.rss, e.u.rss);
    json_usage(&d, &e, r1 * (double)(e.t - d.t) / 1e9);
    hang_up(&slow);
    for (int i = 0; i < n; i++) hang_up(&conns[i]);
    return json_end();
}

/* ---- idle -------------------------------------------------------------------- */

/* Viewers that were sent the whole screen and wait: an incremental request is
 * open, and nothing is drawn. What does waiting cost the server? */
static int run_idle(void)
{
    static struct sample a, b;
    int n = o_viewers;
    if (open_all(n, 0)) return cannot();
    for (int i = 0; i < n; i++)
        if (request(&conns[i], 1, 0, 0, conns[i].w, conns[i].h)) return cannot();
    sleep_s(o_warmup);
    sample(&a, n);
    sleep_s(o_seconds);
    sample(&b, n);
    json_head(conns[0].w, conns[0].h);
    json_usage(&a, &b, 0);
    for (int i = 0; i < n; i++) hang_up(&conns[i]);
    return json_end();
}

/* ---- churn -------------------------------------------------------------------- */

/* o_conns viewers one after the other: open, one whole update, leave. */
static int run_churn(void)
{
    double *hello = malloc(sizeof(double) * (size_t)o_conns), *first = malloc(sizeof(double) * (size_t)o_conns);
    struct sample *a = calloc(1, sizeof *a), *b = calloc(1, sizeof *b);
    int n = 0, w = 0, h = 0;
    sample(a, 0);
    u64 limit = now_ns() + 60000000000ull;
    while (n < o_conns && now_ns() < limit) {
        struct conn c;
        u64 t0 = now_ns();
        int bad_one = greet(&c, n) || prepare(&c);
        w = c.w;
        h = c.h;
        double hello_ms = c.connect_ms;
        hang_up(&c);
        if (bad_one) break;
        hello[n] = hello_ms;
        first[n++] = (double)(now_ns() - t0) / 1e6;
    }
    sleep_s(0.3);
    sample(b, 0);
    qsort(hello, (size_t)n, sizeof *hello, by_double);
    qsort(first, (size_t)n, sizeof *first, by_double);
    json_head(w, h);
    printf(",\"connections\":%d,\"hello_ms\":{\"median\":%.3f,\"p99\":%.3f},\"first_update_ms\":{\"median\":%.3f,\"p99\":%.3f}",
           n, quantile(hello, n, 0.5), quantile(hello, n, 0.99), quantile(first, n, 0.5), quantile(first, n, 0.99));
    json_usage(a, b, n);
    return json_end();
}

/* ---- hostile ------------------------------------------------------------------- */

/* One viewer asks for one whole update after another, first alone and then
 * while others mean it no good. What is left to it of its updates?
 *   unread     one asks for whole updates, and never reads
 *   nonsense   connections come and go, a few at a time (talk_nonsense)
 *   half-open  one says the beginning of its version, and no more
 *   pointers, keys, texts, requests
 *              eight send these without end, and read what comes; the requests
 *              are for changes of the whole screen
 *   wholes     eight ask for whole updates without end, and never read */
enum { UNREAD, NONSENSE, HALF_OPEN, POINTERS, KEYS, TEXTS, REQUESTS, WHOLES, ATTACKS };
static const char *attack_names[ATTACKS] = { "unread", "nonsense", "half-open", "pointers", "keys", "texts", "requests", "wholes" };
static const int attackers[ATTACKS] = { 1, 4, 1, 8, 8, 8, 8, 8 };    /* at the same time */

static int attack;
static u8 block[65536];              /* what a flood sends again and again, or nonsense */
static size_t block_size;
static atomic_int nonsense_next;
static atomic_ullong attack_bytes;

/* The messages of a flood, one behind the other, as many as the block holds. */
static size_t make_block(int w, int h)
{
    u32 x = 99;
    size_t n = 0;
    for (size_t i = 0; i < sizeof block; i++) { x = x * 1664525u + 1013904223u; block[i] = (u8)(x >> 24); }
    u8 key[8] = { 4, 1, 0, 0, 0, 0, 0, 0x61 }, text[8] = { 6, 0, 0, 0, 0, 0, 0xff, 0xf8 };
    u8 ask[10] = { 3, attack == REQUESTS };
    put16(ask + 6, (unsigned)w);
    put16(ask + 8, (unsigned)h);
    switch (attack) {
    case POINTERS: for (int i = 0; n + 6 <= sizeof block; i++, n += 6) put_pointer(block + n, 1, i * 37 % w, i * 61 % h); return n;
    case KEYS: for (; n + 8 <= sizeof block; n += 8) memcpy(block + n, key, 8); return n;
    case TEXTS: memcpy(block, text, 8); return sizeof block;
    case REQUESTS: case WHOLES: for (; n + 10 <= sizeof block; n += 10) memcpy(block + n, ask, 10); return n;
    default: return sizeof block;
    }
}

/* Sends n bytes, and throws away what comes meanwhile; -1 where the connection
 * or the attack is over. */
static int push(int fd, const void *p, size_t n)
{
    static u8 thrown[65536];
    const u8 *b = p;
    while (n > 0) {
        ssize_t k = send(fd, b, n, MSG_NOSIGNAL | MSG_DONTWAIT);
        if (atomic_load(&stop_all) || (k < 0 && errno != EAGAIN && errno != EINTR)) return -1;
        if (k > 0) { b += k; n -= (size_t)k; atomic_fetch_add(&attack_bytes, (u64)k); }
        int reads = attack != WHOLES;
        while (reads && recv(fd, thrown, sizeof thrown, MSG_TRUNC | MSG_DONTWAIT) > 0) ;
        struct pollfd ready = { fd, (short)(reads ? POLLIN | POLLOUT : POLLOUT), 0 };
        if (k < 0) poll(&ready, 1, 50);
    }
    return 0;
}

/* Connections whose bytes are no opening, or are nonsense behind one: o_conns
 * of them over the phase, as many at the same time as there are attackers. */
static void talk_nonsense(void)
{
    static const char http[] = "GET / HTTP/1.1\r\nHost: x\r\nUpgrade: websocket\r\nConnection: Upgrade\r\n\r\n";
    int i;
    while ((i = atomic_fetch_add(&nonsense_next, 1)) < o_conns && !atomic_load(&stop_all)) {
        int fd = dial(0);
        struct linger reset = { 1, 0 };
        switch (i % 4) {
        case 0: push(fd, block, sizeof block); break;
        case 1: push(fd, http, sizeof http - 1); break;
        case 2: if (!push(fd, "RFB 003.008\n\1\1", 14)) push(fd, block + i % 1000, 10000); break;
        case 3: push(fd, "RFB 003.008\n\1", 13); setsockopt(fd, SOL_SOCKET, SO_LINGER, &reset, sizeof reset); break;
        }
        sleep_s(o_phase * attackers[NONSENSE] / o_conns);
        if (fd >= 0) close(fd);
    }
}

static void *attacker(void *arg)
{
    struct conn *c = arg;
    switch (attack) {
    case UNREAD:                     /* spaced, so that a server that joins requests fills the buffers too */
        for (int i = 0; i < 100 && !atomic_load(&stop_all); i++) { request(c, 0, 0, 0, c->w, c->h); sleep_s(0.003); }
        break;
    case NONSENSE: talk_nonsense(); break;
    case HALF_OPEN:                  /* it stays connected until the end */
        if ((c->fd = dial(0)) < 0) fail("connect: %s", strerror(errno));
        else push(c->fd, "RFB 0", 5);
        break;
    default: while (!push(c->fd, block, block_size)) ;
    }
    return NULL;
}

static int run_hostile(void)
{
    static struct conn others[8];
    pthread_t good, th[8];
    static struct sample a, b, d, e;
    while (attack < ATTACKS && strcmp(o_attack, attack_names[attack])) attack++;
    if (attack == ATTACKS) { fail("no such attack"); return cannot(); }
    int n = attackers[attack];
    if (open_all(1, 1)) return cannot();
    conns[0].impatient = 1;
    pthread_create(&good, NULL, full_viewer, &conns[0]);
    sleep_s(o_warmup);
    reset_stall(1);
    sample(&a, 1);
    sleep_s(o_seconds);
    sample(&b, 1);
    u64 stall0 = worst_stall(1);

    block_size = make_block(conns[0].w, conns[0].h);
    for (int i = 0; i < n; i++) {
        others[i].fd = -1;
        if (attack == NONSENSE || attack == HALF_OPEN) continue;
        if (greet_with(&others[i], 1 + i, attack == UNREAD ? 4096 : 0)) return cannot();
    }
    reset_stall(1);
    sample(&d, 1);
    for (int i = 0; i < n; i++) pthread_create(&th[i], NULL, attacker, &others[i]);
    sleep_s(o_phase);
    sample(&e, 1);
    u64 stall1 = worst_stall(1);
    atomic_store(&stop_all, 1);
    for (int i = 0; i < n; i++) pthread_join(th[i], NULL);
    shutdown(conns[0].fd, SHUT_RDWR);
    pthread_join(good, NULL);
    double r0 = (double)(b.updates[0] - a.updates[0]) / ((double)(b.t - a.t) / 1e9);
    double r1 = (double)(e.updates[0] - d.updates[0]) / ((double)(e.t - d.t) / 1e9);
    if (o_pid > 0 && !e.u.alive) fail("the server has ended");
    json_head(conns[0].w, conns[0].h);
    printf(",\"attack\":\"%s\",\"attack_mb\":%.3f,\"per_s_alone\":%.2f,\"per_s_attacked\":%.2f,\"share\":%.4f",
           o_attack, (double)atomic_load(&attack_bytes) / 1e6, r0, r1, r0 > 0 ? r1 / r0 : -1);
    printf(",\"stall_ms_alone\":%.2f,\"stall_ms_attacked\":%.2f", (double)stall0 / 1e6, (double)stall1 / 1e6);
    json_usage(&d, &e, (double)(e.updates[0] - d.updates[0]));
    for (int i = 0; i < n; i++) hang_up(&others[i]);
    hang_up(&conns[0]);
    return json_end();
}

/* ---- main ---------------------------------------------------------------------- */

static int usage(void)
{
    fprintf(stderr,
        "load full|dots|slow|idle|churn|hostile --port P [--viewers N] [--encoding raw|rre|hextile] [--format 32|16|8]\n"
        "  [--seconds S] [--warmup S] [--pid PID] [--prepaint PLACES] [--verify]\n"
        "  full: --count UPDATES (of each viewer, in place of a time; no rates are told), --change (a place changes before each),\n"
        "        --swapped (the other order of bytes), --mix (four kinds of viewers)\n"
        "  dots: --rate R (0: the next dot once all viewers saw the last), --count DOTS (in place of a time, at rate 0)\n"
        "  slow: --phase S   (N viewers, one of which never reads)\n"
        "  churn: --conns C\n"
        "  hostile: --attack unread|nonsense|half-open|pointers|keys|texts|requests|wholes --phase S --conns C (of nonsense)\n");
    return 2;
}

int main(int argc, char **argv)
{
    if (argc < 2) return usage();
    mode = argv[1];
    for (int i = 2; i < argc; i++) {
        const char *a = argv[i], *v = i + 1 < argc ? argv[i + 1] : NULL;
        if (!strcmp(a, "--verify")) { o_verify = 1; continue; }
        if (!strcmp(a, "--change")) { o_change = 1; continue; }
        if (!strcmp(a, "--swapped")) { o_swapped = 1; continue; }
        if (!strcmp(a, "--mix")) { o_mix = 1; continue; }
        if (!v) return usage();
        i++;
        if (!strcmp(a, "--port")) o_port = atoi(v);
        else if (!strcmp(a, "--viewers")) o_viewers = atoi(v);
        else if (!strcmp(a, "--encoding")) o_enc = !strcmp(v, "rre") ? RRE : !strcmp(v, "hextile") ? HEXTILE : RAW;
        else if (!strcmp(a, "--format")) o_format = atoi(v);
        else if (!strcmp(a, "--seconds")) o_seconds = atof(v);
        else if (!strcmp(a, "--warmup")) o_warmup = atof(v);
        else if (!strcmp(a, "--phase")) o_phase = atof(v);
        else if (!strcmp(a, "--rate")) o_rate = atof(v);
        else if (!strcmp(a, "--pid")) o_pid = atol(v);
        else if (!strcmp(a, "--prepaint")) o_prepaint = atoi(v);
        else if (!strcmp(a, "--count")) o_count = atoi(v);
        else if (!strcmp(a, "--conns")) o_conns = atoi(v);
        else if (!strcmp(a, "--attack")) o_attack = v;
        else return usage();
    }
    if (o_count) o_rate = 0;
    if (o_change && strcmp(mode, "full")) return usage();
    if (o_port < 1 || o_port > 65535 || o_viewers < 1 || o_viewers > MAXV || o_seconds > 120 || o_phase > 120 ||
        o_warmup > 60 || o_conns < 1 || o_conns > 100000 || o_rate > 100000 || o_prepaint < 0 || o_prepaint > 1000000 ||
        (o_format != 32 && o_format != 16 && o_format != 8)) return usage();
    signal(SIGPIPE, SIG_IGN);
    struct rlimit handles;           /* one for each viewer */
    if (!getrlimit(RLIMIT_NOFILE, &handles) && handles.rlim_cur < MAXV + 64) {
        handles.rlim_cur = handles.rlim_max < MAXV + 64 ? handles.rlim_max : MAXV + 64;
        setrlimit(RLIMIT_NOFILE, &handles);
    }
    /* whatever happens: an end */
    alarm((unsigned)(2 * (o_seconds + o_warmup + o_phase) + (o_count ? 500 : 100)));
    if (!strcmp(mode, "full")) return run_full();
    if (!strcmp(mode, "dots")) return run_dots();
    if (!strcmp(mode, "slow")) return run_slow();
    if (!strcmp(mode, "idle")) return run_idle();
    if (!strcmp(mode, "churn")) return run_churn();
    if (!strcmp(mode, "hostile")) return run_hostile();
    return usage();
}
