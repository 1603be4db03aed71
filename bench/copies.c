/* copies.c - what a picture of one's own costs a server in one thread, where all of 1920 by 1080 changes and is sent in Raw:
 *
 *   copies [FRAMES]
 *
 * The same loop four ways, each with a reader of its own: a program fills its framebuffer; a server sends it. It prints milliseconds of
 * the server's processor time for a frame (60), and the ratio to the first way. No protocol is spoken. */
#define _GNU_SOURCE
#include <arpa/inet.h>
#include <netinet/in.h>
#include <poll.h>
#include <stdint.h>
#include <stdio.h>
#include <stdlib.h>
#include <string.h>
#include <sys/socket.h>
#include <sys/wait.h>
#include <time.h>
#include <unistd.h>

enum { WIDTH = 1920, HEIGHT = 1080, BYTES = 4 * WIDTH * HEIGHT, PIECE = 65536, LVS_PIECE = 30000 };

static uint8_t framebuffer[BYTES], picture[BYTES], buffer[PIECE];

static double cpu(void)
{
    struct timespec t;
    clock_gettime(CLOCK_THREAD_CPUTIME_ID, &t);
    return (double)t.tv_sec * 1e3 + (double)t.tv_nsec / 1e6;
}

static void fill(uint32_t frame)
{
    for (uint32_t y = 0; y < HEIGHT; y++)
        for (uint32_t x = 0; x < WIDTH; x++) ((uint32_t *)(void *)framebuffer)[y * WIDTH + x] = (x * 3 + y * 5 + frame * 0x10101) & 0xffffff;
}

static void send_all(int to, const uint8_t *from, size_t count)
{
    while (count > 0) {
        ssize_t sent = send(to, from, count, MSG_DONTWAIT | MSG_NOSIGNAL);
        if (sent < 0) {
            struct pollfd wait = { to, POLLOUT, 0 };
            poll(&wait, 1, 1000);
            continue;
        }
        from += sent, count -= (size_t)sent;
    }
}

static void by_buffer(int to, const uint8_t *from, size_t piece)
{
    for (size_t at = 0; at < BYTES; at += piece) {
        const size_t count = BYTES - at < piece ? BYTES - at : piece;
        memcpy(buffer, from + at, count);
        send_all(to, buffer, count);
    }
}

static void as_libvncserver(int to) { by_buffer(to, framebuffer, LVS_PIECE); }
static void copied_first(int to) { memcpy(picture, framebuffer, BYTES); by_buffer(to, picture, PIECE); }
static void sent_from_it(int to) { memcpy(picture, framebuffer, BYTES); send_all(to, picture, BYTES); }

static void part_by_part(int to)
{
    for (size_t at = 0; at < BYTES; at += PIECE) {
        const size_t count = BYTES - at < PIECE ? BYTES - at : PIECE;
        memcpy(picture + at, framebuffer + at, count);
        send_all(to, picture + at, count);
    }
}

/* reads frames, and answers each */
static void read_all(struct sockaddr_in at)
{
    static char room[1 << 20];
    int from = socket(AF_INET, SOCK_STREAM, 0);
    if (connect(from, (struct sockaddr *)&at, sizeof at) < 0) _exit(1);
    for (size_t got = 0;;) {
        ssize_t count = read(from, room, sizeof room);
        if (count <= 0) _exit(0);
        for (got += (size_t)count; got >= BYTES; got -= BYTES)
            if (write(from, "", 1) != 1) _exit(1);
    }
}

static double measured(void (*serve)(int), int frames)
{
    struct sockaddr_in at = { .sin_family = AF_INET, .sin_addr.s_addr = htonl(INADDR_LOOPBACK) };
    socklen_t size = sizeof at;
    int listener = socket(AF_INET, SOCK_STREAM, 0), to;
    double used = 0;
    char answer;
    if (bind(listener, (struct sockaddr *)&at, sizeof at) < 0 || listen(listener, 1) < 0 || getsockname(listener, (struct sockaddr *)&at, &size) < 0) exit(3);
    if (fork() == 0) read_all(at);
    to = accept(listener, NULL, NULL);
    for (int frame = 0; frame < frames; frame++) {
        usleep(40000);
        used -= cpu();
        fill((uint32_t)frame);
        serve(to);
        used += cpu();
        if (read(to, &answer, 1) != 1) exit(3);
    }
    close(to), close(listener);
    wait(NULL);
    return used / frames;
}

int main(int argc, char **argv)
{
    static const struct { const char *name; void (*serve)(int); } ways[] = {
        { "by a buffer of 30,000 bytes, as LibVNCServer", as_libvncserver },
        { "copied into a picture, and by a buffer of 64 KB", copied_first },
        { "copied into a picture, and sent from there", sent_from_it },
        { "each 64 KB copied and sent at once", part_by_part },
    };
    const int frames = argc > 1 ? atoi(argv[1]) : 60;
    double first = 0;
    memset(framebuffer, 1, BYTES), memset(picture, 2, BYTES);
    for (size_t k = 0; k < sizeof ways / sizeof *ways; k++) {
        const double used = measured(ways[k].serve, frames);
        if (k == 0) first = used;
        printf("| %s | %.2f ms (%.2f) |\n", ways[k].name, used, used / first);
        fflush(stdout);
    }
}
