/* writes BYTES VIEWERS [SECONDS] - what it takes to write so many bytes to so many sockets on loopback, again and again, and nothing else: the
 * processor time of the writer alone for each viewer and round, as a line of JSON. Each socket is written 64 KB at a time while it takes them, as
 * a server does with updates that it has. Another process reads. The sockets are watched by epoll. */
#include <errno.h>
#include <fcntl.h>
#include <netinet/in.h>
#include <netinet/tcp.h>
#include <poll.h>
#include <sys/epoll.h>
#include <signal.h>
#include <stdio.h>
#include <stdlib.h>
#include <string.h>
#include <sys/resource.h>
#include <sys/socket.h>
#include <sys/wait.h>
#include <time.h>
#include <unistd.h>

enum { MOST = 1024, AT_ONCE = 65536 };
static int sockets[MOST];
static size_t sent[MOST];
static int watched;

static double now(clockid_t clock)
{
    struct timespec t;
    clock_gettime(clock, &t);
    return (double)t.tv_sec + (double)t.tv_nsec / 1e9;
}

static int give_up(const char *what)
{
    perror(what);
    return 1;
}

/* Reads all that comes on all sockets, and says one byte back for each BYTES. */
static int read_all(const int *from, int viewers, size_t bytes)
{
    static char room[262144];
    static size_t got[MOST];
    struct pollfd ready[MOST];
    for (int i = 0; i < viewers; i++) { ready[i].fd = from[i]; ready[i].events = POLLIN; }
    for (;;) {
        if (poll(ready, (nfds_t)viewers, -1) < 0 && errno != EINTR) return 1;
        for (int i = 0; i < viewers; i++) {
            if (!ready[i].revents) continue;
            ssize_t n = read(from[i], room, sizeof room);
            if (n <= 0) return 0;
            for (got[i] += (size_t)n; got[i] >= bytes; got[i] -= bytes)
                if (write(from[i], "", 1) != 1) return 0;
        }
    }
}

/* Writes to a socket while it takes something. */
static int write_some(int i, const char *bytes, size_t size, int *left)
{
    while (sent[i] < size) {
        size_t some = size - sent[i] < AT_ONCE ? size - sent[i] : AT_ONCE;
        ssize_t n = write(sockets[i], bytes + sent[i], some);
        if (n < 0) return errno == EAGAIN ? 0 : -1;
        sent[i] += (size_t)n;
        if (sent[i] >= size) --*left;
    }
    return 0;
}

/* One round: BYTES to each socket, and a byte back from each. */
static int round_of(int viewers, const char *bytes, size_t size)
{
    struct epoll_event ready[MOST];
    char back;
    memset(sent, 0, sizeof sent);
    int left = viewers;
    for (int i = 0; i < viewers; i++)
        if (write_some(i, bytes, size, &left)) return -1;
    while (left) {
        int many = epoll_wait(watched, ready, viewers, -1);
        for (int at = 0; at < many; at++) {
            if (write_some((int)ready[at].data.u32, bytes, size, &left)) return -1;
        }
    }
    for (int i = 0; i < viewers; i++) {
        struct pollfd one = { sockets[i], POLLIN, 0 };
        if (poll(&one, 1, -1) < 0 || read(sockets[i], &back, 1) != 1) return -1;
    }
    return 0;
}

int main(int argc, char **argv)
{
    size_t size = argc > 2 ? strtoul(argv[1], NULL, 10) : 0;
    int viewers = argc > 2 ? atoi(argv[2]) : 0, others[MOST], yes = 1;
    double seconds = argc > 3 ? atof(argv[3]) : 1;
    if (!size || viewers < 1 || viewers > MOST) { fprintf(stderr, "writes BYTES VIEWERS [SECONDS]\n"); return 2; }
    struct rlimit handles;
    if (!getrlimit(RLIMIT_NOFILE, &handles)) { handles.rlim_cur = handles.rlim_max; setrlimit(RLIMIT_NOFILE, &handles); }
    signal(SIGPIPE, SIG_IGN);
    struct sockaddr_in at = { .sin_family = AF_INET, .sin_addr.s_addr = htonl(INADDR_LOOPBACK) };
    socklen_t length = sizeof at;
    watched = epoll_create1(0);
    int door = socket(AF_INET, SOCK_STREAM, 0);
    if (door < 0 || bind(door, (struct sockaddr *)&at, sizeof at) || listen(door, MOST) || getsockname(door, (struct sockaddr *)&at, &length))
        return give_up("listen");
    for (int i = 0; i < viewers; i++) {
        others[i] = socket(AF_INET, SOCK_STREAM, 0);
        if (others[i] < 0 || connect(others[i], (struct sockaddr *)&at, sizeof at)) return give_up("connect");
        sockets[i] = accept(door, NULL, NULL);
        if (sockets[i] < 0) return give_up("accept");
        setsockopt(sockets[i], IPPROTO_TCP, TCP_NODELAY, &yes, sizeof yes);
        fcntl(sockets[i], F_SETFL, O_NONBLOCK);
        struct epoll_event wanted = { .events = EPOLLOUT | EPOLLET, .data.u32 = (unsigned)i };
        if (epoll_ctl(watched, EPOLL_CTL_ADD, sockets[i], &wanted)) return give_up("epoll");
    }
    pid_t reader = fork();
    if (reader < 0) return give_up("fork");
    if (!reader) { for (int i = 0; i < viewers; i++) close(sockets[i]); _exit(read_all(others, viewers, size)); }
    for (int i = 0; i < viewers; i++) close(others[i]);
    char *bytes = malloc(size);
    if (!bytes) return give_up("malloc");
    memset(bytes, 85, size);
    long rounds = -3;                /* the first are not counted */
    double cpu = 0, begun = 0;
    for (int ended = 0; !ended; rounds++) {
        if (!rounds) { cpu = now(CLOCK_PROCESS_CPUTIME_ID); begun = now(CLOCK_MONOTONIC); }
        if (round_of(viewers, bytes, size)) return give_up("write");
        ended = rounds >= 0 && now(CLOCK_MONOTONIC) - begun >= seconds;
    }
    cpu = now(CLOCK_PROCESS_CPUTIME_ID) - cpu;
    printf("{\"bytes\":%zu,\"viewers\":%d,\"rounds\":%ld,\"cpu_us_per_update\":%.3f}\n", size, viewers, rounds, cpu * 1e6 / (double)rounds / viewers);
    kill(reader, SIGTERM);
    waitpid(reader, NULL, 0);
    return 0;
}
