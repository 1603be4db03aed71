/* server_record.c: sessions that vnc_server_record has written to a file: "server_record ok" where each answer is the one that stands here,
 * and each file has the lines that stand here. With an argument less is waited for. */
#define _POSIX_C_SOURCE 200809L
#include "vnc_server.h"
#include "viewers.h"
#include <signal.h>
#include <sys/resource.h>
#include <sys/stat.h>

static char folder[] = "/tmp/server_record_XXXXXX";
static char path[sizeof folder + 16];

/* Where the file of a name lies, in a folder of the program's own. */
static const char *at(const char *name)
{
    snprintf(path, sizeof path, "%s/%s", folder, name);
    return path;
}

static int32_t records(const char *name)
{
    at(name);
    return vnc_server_record(s, path);
}

/* The first bytes of a file go to `room`, with a zero behind them: how many there are, or -1 where there is no such file. */
static long holds(const char *name, char *room, size_t count)
{
    FILE *file = fopen(at(name), "rb");
    size_t got;
    if (!file) return -1;
    got = fread(room, 1, count - 1, file);
    room[got] = 0;
    fclose(file);
    return (long)got;
}

/* Whether a file has just this text. */
static int has(const char *name, const char *text)
{
    char room[4096];
    if (holds(name, room, sizeof room) == (long)strlen(text) && strcmp(room, text) == 0) return 1;
    printf("%s has: %s\n", name, room);
    return 0;
}

/* The first line of a session of a picture of 2 by 1, of which an update has at most 1,000 rectangles. */
#define SCREEN "screen 2 1 demo 1000\n"

/* Nothing is recorded where nothing was named, or a path of no bytes was, and where the server is shut. */
static int unrecorded(void)
{
    IS(vnc_server_record_state(s), VNC_ERROR_CLOSED);
    IS(listens(2, 1), 0);
    IS(vnc_server_record_state(s), VNC_RECORD_NONE);
    IS(records("taken_back"), 0);
    IS(vnc_server_record(s, ""), 0);
    IS(listens(2, 1), 0);
    IS(vnc_server_record_state(s), VNC_RECORD_NONE);
    IS(access(at("taken_back"), F_OK), -1);
    return is_over();
}

/* A session of drawing alone: the file is there once the server listens, for its owner alone, and has each line once it is closed. */
static int drawn(void)
{
    static const uint32_t colours[2] = {0xff8000, 0x00007f};
    static const vnc_rect both[2] = {{0, 0, 1, 1}, {1, 0, 2, 1}};
    struct stat found;
    IS(records("drawn"), 0);
    IS(access(at("drawn"), F_OK), -1);
    IS(listens(2, 1), 0);
    IS(vnc_server_record_state(s), VNC_RECORD_WRITTEN);
    IS(stat(at("drawn"), &found), 0);
    IS(found.st_mode & 0777, 0600);
    IS(vnc_server_paint(s, 0, 0, 2, 1, colours, 2), 0);
    IS(vnc_server_paint(s, 0, 0, 3, 1, colours, 2), VNC_ERROR_BAD_RECT);
    IS(vnc_server_write_pixels(s, 1, 0, 2, 1, colours, 1), 0);
    IS(vnc_server_mark_rect(s, 0, 0, 1, 1), 0);
    IS(vnc_server_mark_region(s, both, 0), 0);
    IS(vnc_server_schedule_copy_rect(s, 1, 0, 2, 1, 1, 0), 0);
    IS(vnc_server_do_copy_rect(s, 0, 0, 1, 1, -1, 0), 0);
    IS(vnc_server_bell(s), 0);
    IS(vnc_server_cut_text(s, (const uint8_t *)"hi", 2), 0);
    IS(vnc_server_new_framebuffer(s, 1, 1), 0);
    IS(vnc_server_close(s), 0);
    IS(vnc_server_record_state(s), VNC_ERROR_CLOSED);
    HOLDS(has("drawn", SCREEN "paint 0 0 2 1 ff800000007f\nwrite 1 0 1 1 ff8000\nmark 0 0 1 1\nmarks\nschedule 1 0 2 1 1 0\ndocopy 0 0 1 1 -1 0\nbell\n"
                              "cuttext 6869\nresize 1 1\n"));
    return is_over();
}

/* A viewer comes, says what it says, is given an update, and goes. What it says may be heard in pieces: their bytes are these. */
static int visited(void)
{
    char room[4096], said[256] = "", *line;
    size_t cuts = 0;
    IS(records("visited"), 0);
    IS(listens(2, 1), 0);
    HOLDS(opens(&first));
    HOLDS(comes(1));
    HOLDS(sees_all(first));
    leaves(&first);
    HOLDS(goes(1, VNC_REASON_LEFT, 0));
    IS(vnc_server_close(s), 0);
    HOLDS(holds("visited", room, sizeof room) > 0);
    HOLDS(strncmp(room, SCREEN "connect 1\n", sizeof SCREEN + 9) == 0);
    for (line = strtok(room, "\n"); line; line = strtok(0, "\n")) {
        if (strncmp(line, "hear 1 ", 7) == 0) strncat(said, line + 7, sizeof said - strlen(said) - 1);
        cuts += strcmp(line, "cut 1") == 0;
    }
    IS(cuts, 1);
    IS(strcmp(said, "524642203030332e3030380a0101" "03000000000000020001"), 0);
    return is_over();
}

/* What can't be recorded isn't served, and what was served goes on: a file that is there already, a folder, a link to nothing, a folder
 * that isn't there, and a path that is too long or has a zero in it. No file is made where the port is taken. */
static int refusals(void)
{
    static uint8_t longest[4097];
    int32_t port;
    IS(mkdir(at("folder"), 0700), 0);
    IS(symlink("nowhere", at("link")), 0);
    IS(listens(3, 2), 0);
    port = vnc_server_port(s);
    IS(records("drawn"), 0);
    IS(listens(2, 1), VNC_ERROR_CANNOT_RECORD);
    IS(records("folder"), 0);
    IS(listens(2, 1), VNC_ERROR_CANNOT_RECORD);
    IS(records("link"), 0);
    IS(listens(2, 1), VNC_ERROR_CANNOT_RECORD);
    IS(records("none/file"), 0);
    IS(listens(2, 1), VNC_ERROR_CANNOT_RECORD);
    memset(longest, 'a', sizeof longest);
    IS(vnc_server_record_n(s, longest, 4096), 0);
    IS(listens(2, 1), VNC_ERROR_CANNOT_RECORD);
    IS(vnc_server_record_n(s, (const uint8_t *)"/tmp/a\0b", 8), 0);
    IS(listens(2, 1), VNC_ERROR_CANNOT_RECORD);
    IS(vnc_server_port(s), port);
    IS(vnc_server_width(s), 3);
    IS(vnc_server_record_state(s), VNC_RECORD_NONE);
    IS(records("unmade"), 0);
    IS(listens_on(s, port, 2, 1, 8), VNC_ERROR_CANNOT_LISTEN);
    IS(listens_on(s, 0, 0, 1, 8), VNC_ERROR_BAD_SIZE);
    IS(access(at("unmade"), F_OK), -1);
    IS(listens(2, 1), 0);
    IS(vnc_server_record_state(s), VNC_RECORD_WRITTEN);
    IS(listens(2, 1), 0);
    IS(vnc_server_record_state(s), VNC_RECORD_NONE);
    HOLDS(has("unmade", SCREEN));
    IS(records("forgotten"), 0);
    IS(vnc_server_close(s), 0);
    IS(listens(2, 1), 0);
    IS(vnc_server_record_state(s), VNC_RECORD_NONE);
    return is_over();
}

/* A file that may not grow further ends its record, and the viewers are served as before. */
static int breaks(void)
{
    struct rlimit usual, small;
    static uint32_t colours[8192] = {1};
    char room[64];
    int k;
    IS(records("broken"), 0);
    IS(listens(8192, 1), 0);
    HOLDS(opens(&first));
    HOLDS(signal(SIGXFSZ, SIG_IGN) != SIG_ERR);
    IS(getrlimit(RLIMIT_FSIZE, &usual), 0);
    small = usual;
    small.rlim_cur = 20000;
    IS(setrlimit(RLIMIT_FSIZE, &small), 0);
    for (k = 0; k < 4; k++) {
        IS(vnc_server_paint(s, 0, 0, 8192, 1, colours, 8192), 0);
        HOLDS(turns());
    }
    IS(setrlimit(RLIMIT_FSIZE, &usual), 0);
    IS(vnc_server_record_state(s), VNC_RECORD_BROKEN);
    HOLDS(is_sent_no_more(first));
    IS(vnc_server_record_state(s), VNC_RECORD_BROKEN);
    IS(vnc_server_close(s), 0);
    HOLDS(holds("broken", room, sizeof room) > 0);
    IS(strncmp(room, "screen 8192 1 demo 1000\n", 24), 0);
    return is_over();
}

/* A server of vnc_server_new_recorded. */
static int made(void)
{
    vnc_server *other = 0;
    IS(vnc_server_new_recorded("127.0.0.1", 0, 2, 1, "demo", 8, at("made"), &other), 0);
    IS(vnc_server_record_state(other), VNC_RECORD_WRITTEN);
    vnc_server_free(other);
    HOLDS(has("made", SCREEN));
    other = 0;
    IS(vnc_server_new_recorded("127.0.0.1", 0, 2, 1, "demo", 8, at("made"), &other), VNC_ERROR_CANNOT_RECORD);
    HOLDS(other == 0);
    return 0;
}

/* What listens nowhere is recorded, too. */
static int unbound(void)
{
    char room[4096];
    int fds[2];
    IS(records("unbound"), 0);
    IS(vnc_server_serve(s, 2, 1, "demo", 8), 0);
    IS(vnc_server_record_state(s), VNC_RECORD_WRITTEN);
    IS(socketpair(AF_UNIX, SOCK_STREAM, 0, fds), 0);
    first = fds[0];
    IS(vnc_server_adopt(s, fds[1]), 1);
    HOLDS(says(first, B(OPENING)) && skips(first, GREETED) && sees_all(first));
    IS(vnc_server_close(s), 0);
    HOLDS(holds("unbound", room, sizeof room) > 0);
    HOLDS(strncmp(room, SCREEN "connect 1\n", sizeof SCREEN + 9) == 0 && strstr(room, "\ncut 1\n") != 0);
    IS(records("unbound"), 0);
    IS(vnc_server_serve(s, 2, 1, "demo", 8), VNC_ERROR_CANNOT_RECORD);
    IS(errno, EEXIST);
    IS(vnc_server_record(s, ""), 0);
    return is_over();
}

static void forget(void)
{
    static const char *const names[] = {"drawn", "visited", "link", "unmade", "broken", "made", "unbound"};
    size_t k;
    EACH(k, names) unlink(at(names[k]));
    rmdir(at("folder"));
    rmdir(folder);
}

int main(int argc, char **argv)
{
    int failed;
    (void)argv;
    if (argc > 1) patience = 1;
    s = (vnc_server *)malloc(vnc_server_size());
    if (!s || !mkdtemp(folder)) return 1;
    vnc_server_init(s);
    failed = unrecorded() || drawn() || visited() || refusals() || breaks() || made() || unbound();
    leaves(&first);
    vnc_server_free(s);
    forget();
    if (!failed) printf("server_record ok\n");
    return failed;
}
