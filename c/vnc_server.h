/* vnc_server.h: a VNC server (RFC 6143) in one thread, for C. What each call of
 * the library does is proved; this header, and the C that includes it, are not.
 *
 * A server has a picture, a port on which it listens, and the sockets of its
 * viewers; or it listens nowhere, and has those that vnc_server_adopt takes in.
 * The program draws (vnc_server_paint), takes turns
 * (vnc_server_process_events), and fetches what its viewers told
 * (vnc_server_next_inputs) and which of them came and went
 * (vnc_server_next_events). vnc_screen.h has the same picture for programs with
 * sockets of their own. LibVNCServer's names for a call stand in parentheses.
 *
 * Ownership  A vnc_server lies in the program's memory, of vnc_server_size()
 *            bytes at a multiple of VNC_ALIGNMENT, as malloc gives it:
 *            vnc_server_new and vnc_server_free see to that. From
 *            vnc_server_init on only the library reads and writes there. A
 *            closed server holds no other memory and no descriptor: the
 *            program may free its memory, or listen there again. Memory that
 *            a call is given is used during that call alone, and the library
 *            hands out no pointers but constant texts. vnc_server_adopt and
 *            vnc_server_listen_at say whose a descriptor is.
 * Threads    One call at a time for each server, from any thread: where several
 *            threads use one, the program has a lock around each call, and a
 *            turn that waits holds it; vnc_waker_wake ends the wait. Two
 *            servers have nothing in common. No call locks or starts a thread,
 *            and only vnc_server_process_events waits; a signal ends its wait.
 * Results    0 or more: done. Below 0: a vnc_code, which vnc_code_text tells,
 *            and nothing has changed; vnc_server_process_events,
 *            vnc_server_update_from, vnc_server_adopt and vnc_server_listen_at
 *            say what has. A call of a closed server answers VNC_ERROR_CLOSED,
 *            but for those that say otherwise.
 *            VNC_ERROR_NO_MEMORY may come from each call that draws,
 *            listens, takes a turn or says so.
 * errno      Says why, where the system refused: behind
 *            VNC_ERROR_CANNOT_LISTEN, VNC_ERROR_CANNOT_RECORD,
 *            VNC_ERROR_NETWORK, VNC_ERROR_CLOCK, VNC_ERROR_BAD_SOCKET and
 *            VNC_ERROR_CANNOT_ADOPT.
 * Held       For each viewer one update on its way, which holds 4 bytes for
 *            each pixel, what its socket didn't take of 64 KB, and up to 64
 *            bells and texts for the next update, each text once for all
 *            viewers. Inputs and events wait until they are fetched: at most
 *            4,096 inputs with 4 MB of texts, and 1,024 events. What comes when
 *            there is no more room, and an input for which there is no memory,
 *            is lost and counted: vnc_server_lost_count.
 * Security   None but the address: who reaches the port sees the picture, and
 *            can send inputs. Whose connection is adopted, the program
 *            decides. No call raises SIGPIPE.
 * Undefined  A pointer to a server that is null, freed, not initialised or
 *            moved; a buffer or data that is smaller than its count says; two
 *            calls for one server at once; a call from a signal handler, or
 *            from the child of a fork of a program with threads; closing a
 *            descriptor of the library's, or having it adopted once more.
 *            Anything else gets an answer.
 */
#ifndef VNC_SERVER_H
#define VNC_SERVER_H

#include "vnc_types.h"
#include <errno.h>
#include <stdlib.h>
#include <string.h>

#ifdef __cplusplus
extern "C" {
#endif

/* The number of this interface. It grows with each change that a program which
 * was compiled before can see; vnc_server_abi() is the library's number. */
#define VNC_SERVER_ABI 6

/* How many viewers may be connected at once, where a program says 0. */
#define VNC_SERVER_VIEWERS 1024

/* A server; what it consists of is the library's alone. */
typedef struct vnc_server vnc_server;

/* What came to pass with a viewer. */
enum vnc_event_kind {
    VNC_EVENT_CONNECTED = 1,
    VNC_EVENT_DISCONNECTED = 2
};

/* Why a viewer went. */
enum vnc_reason {
    VNC_REASON_LEFT = 1,         /* it closed its connection */
    VNC_REASON_FAULT = 2,        /* it sent what no message is */
    VNC_REASON_READ_FAILED = 3,  /* reading from its socket failed */
    VNC_REASON_WRITE_FAILED = 4, /* writing to its socket failed */
    VNC_REASON_NO_MEMORY = 5,    /* there was no memory for it */
    VNC_REASON_CLOSED = 6,       /* by vnc_server_close_viewer */
    VNC_REASON_TIMEOUT = 7,      /* its opening took more than 10 seconds */
    VNC_REASON_FRAMES = 9        /* a browser sent what no frame is */
};

/* A viewer came or went. Fields of the other kind are 0. */
typedef struct vnc_event {
    uint64_t viewer; /* from 1 on, as they come; none again before listening */
    uint32_t kind;   /* a vnc_event_kind */
    uint32_t reason; /* of one that went: a vnc_reason */
    int32_t fault;   /* of VNC_REASON_FAULT: a vnc_fault; of
                        VNC_REASON_FRAMES: the code of its close */
} vnc_event;
VNC_LAYOUT(vnc_event, 24, 8);

/* ---- Beginning and end ---- */

/* Returns the number of the library's interface. vnc_server_new,
 * vnc_server_listen and vnc_server_serve compare it with VNC_SERVER_ABI. */
uint32_t vnc_server_abi(void);

/* Returns how many bytes a server takes. */
size_t vnc_server_size(void);

/* Makes this memory a closed server. Once: an open server that lies there
 * would not be closed. */
void vnc_server_init(vnc_server *server);

/* Does what vnc_server_listen does, for an address and a name of so many bytes,
 * with no zero at their ends, and `viewers` as it stands. For callers in other
 * languages, which compare vnc_server_abi themselves. */
int32_t vnc_server_listen_n(vnc_server *server,
                            const uint8_t *address, size_t address_count,
                            uint16_t port, uint32_t width, uint32_t height,
                            const uint8_t *name, size_t name_count,
                            uint32_t viewers);

/* Listens, and serves a black picture (rfbGetScreen, rfbInitServer). An open
 * server is closed once this is done, and goes on where it is refused: it has
 * its port until then, which can't be asked for again.
 *   address  an IP address in digits: "127.0.0.1", "::1", "0.0.0.0" for all of
 *            the machine's of IPv4, "::" for all
 *   port     0 for one that the system chooses: see vnc_server_port
 *   width, height  columns and rows
 *   name     the desktop's name
 *   viewers  how many may be connected at once, 0 for VNC_SERVER_VIEWERS; a
 *            further one waits until one has gone
 * Returns 0, or VNC_ERROR_VERSION, VNC_ERROR_BAD_SIZE, VNC_ERROR_BAD_NAME,
 * VNC_ERROR_BAD_ADDRESS, VNC_ERROR_CANNOT_LISTEN, VNC_ERROR_CANNOT_RECORD or
 * VNC_ERROR_NO_MEMORY. A closed server may be told to listen. */
static inline int32_t vnc_server_listen(vnc_server *server,
                                        const char *address, uint16_t port,
                                        uint32_t width, uint32_t height,
                                        const char *name, uint32_t viewers)
{
    if (vnc_server_abi() != VNC_SERVER_ABI) return VNC_ERROR_VERSION;
    return vnc_server_listen_n(server, (const uint8_t *)address,
                               strlen(address), port, width, height,
                               (const uint8_t *)name, strlen(name),
                               viewers ? viewers : VNC_SERVER_VIEWERS);
}

/* Does what vnc_server_serve does, for a name of so many bytes, and `viewers`
 * as it stands. */
int32_t vnc_server_serve_n(vnc_server *server,
                           uint32_t width, uint32_t height,
                           const uint8_t *name, size_t name_count,
                           uint32_t viewers);

/* Serves a black picture as vnc_server_listen does, but listens nowhere: its
 * viewers are those that vnc_server_adopt takes in, and its port is 0.
 * Returns 0, or VNC_ERROR_VERSION, VNC_ERROR_BAD_SIZE, VNC_ERROR_BAD_NAME,
 * VNC_ERROR_NETWORK, VNC_ERROR_CANNOT_RECORD or VNC_ERROR_NO_MEMORY. A closed
 * server may be told to serve. */
static inline int32_t vnc_server_serve(vnc_server *server,
                                       uint32_t width, uint32_t height,
                                       const char *name, uint32_t viewers)
{
    if (vnc_server_abi() != VNC_SERVER_ABI) return VNC_ERROR_VERSION;
    return vnc_server_serve_n(server, width, height, (const uint8_t *)name,
                              strlen(name),
                              viewers ? viewers : VNC_SERVER_VIEWERS);
}

/* Does what vnc_server_listen_also does, for an address of so many bytes. */
int32_t vnc_server_listen_also_n(vnc_server *server,
                                 const uint8_t *address, size_t address_count,
                                 uint16_t port);

/* Listens on one more port, also where the server listened nowhere. Who comes
 * there is a viewer as the others are; from several ports they are accepted in
 * turn. `address` and `port` are as those of vnc_server_listen. The picture,
 * the viewers and the other ports stay.
 * Returns the port, or VNC_ERROR_BAD_ADDRESS, VNC_ERROR_CANNOT_LISTEN,
 * VNC_ERROR_NO_MEMORY, or VNC_ERROR_TOO_MANY_PORTS where it listens on eight
 * already. */
static inline int32_t vnc_server_listen_also(vnc_server *server,
                                             const char *address,
                                             uint16_t port)
{
    return vnc_server_listen_also_n(server, (const uint8_t *)address,
                                    strlen(address), port);
}

/* Listens further at a socket that the program has: one that systemd handed
 * over, one of UNIX at a path that the program bound. Who comes there is a
 * viewer as the others are. The picture, the viewers and the ports stay.
 *   fd  a stream socket, bound to an address of IP or UNIX; it may listen
 *       already, and is made non-blocking
 * Returns 0, or VNC_ERROR_BAD_SOCKET where it is no socket or can't listen,
 * VNC_ERROR_NETWORK, VNC_ERROR_CANNOT_LISTEN, VNC_ERROR_NO_MEMORY, or
 * VNC_ERROR_TOO_MANY_PORTS where the server listens at eight already.
 * Behind VNC_ERROR_BAD_SOCKET and VNC_ERROR_CLOSED the descriptor stays the
 * program's. Otherwise it is the server's, also behind the other codes, which
 * have closed it; the file at the path of a UNIX socket stays. */
int32_t vnc_server_listen_at(vnc_server *server, int32_t fd);

/* Does what vnc_server_listen_web does, for texts of so many bytes. */
int32_t vnc_server_listen_web_n(vnc_server *server,
                                const uint8_t *address, size_t address_count,
                                uint16_t port,
                                const uint8_t *hosts, size_t host_count,
                                const uint8_t *origins, size_t origin_count);

/* Listens on a port for browsers, which are viewers over WebSockets (RFC 6455),
 * as noVNC is; in place of one on which it listened for them before, which has
 * to be another port. TLS is for a proxy in front. `address` and `port` are as
 * those of vnc_server_listen.
 *   hosts    which names in a request's Host are let in besides 127.0.0.1,
 *            localhost and [::1] at any port: each as a browser writes it, as
 *            "desk.example:6080", with commas in between; "" for no other
 *   origins  pages of which other hosts are let in, each as a browser writes
 *            it, as "https://page.example", with commas in between; "" for
 *            none: then a page has to come from the very host and port that it
 *            asks for
 * A request whose host or origin isn't let in is answered 403, so a page of a
 * foreign site can't reach the server through its reader's browser. A program
 * that is no browser names no origin, and is let in. At most 64 browsers wait
 * for their answer, each for at most 10 seconds; none of them is a viewer yet.
 * Returns the port, or VNC_ERROR_BAD_ADDRESS, VNC_ERROR_CANNOT_LISTEN or
 * VNC_ERROR_NO_MEMORY. */
static inline int32_t vnc_server_listen_web(vnc_server *server,
                                            const char *address,
                                            uint16_t port, const char *hosts,
                                            const char *origins)
{
    return vnc_server_listen_web_n(server, (const uint8_t *)address,
                                   strlen(address), port,
                                   (const uint8_t *)hosts, strlen(hosts),
                                   (const uint8_t *)origins, strlen(origins));
}

/* Does what vnc_server_record does, for a path of so many bytes. */
int32_t vnc_server_record_n(vnc_server *server,
                            const uint8_t *path, size_t path_count);

/* Names the file in which the picture that is served next is recorded, as it
 * happens: what is drawn, and what viewers send. `vncdemo replay` has from it
 * what each viewer was sent, byte for byte. The file has pictures, keys and
 * copied texts in it.
 *   path  of at most 4,095 bytes; "" for no record. vnc_server_listen and
 *         vnc_server_serve make the file, for its owner alone to read, and
 *         answer VNC_ERROR_CANNOT_RECORD where it exists or can't be made
 * It holds for one of these that is done, and until vnc_server_close.
 * Each turn writes before it waits, and vnc_server_close writes the rest. Where
 * a write fails the record ends, and the server goes on: viewers are sent the
 * same with a record and without one. Returns 0, or VNC_ERROR_NO_MEMORY. A
 * closed server may be told. */
static inline int32_t vnc_server_record(vnc_server *server, const char *path)
{
    return vnc_server_record_n(server, (const uint8_t *)path, strlen(path));
}

/* Whether what is served is recorded. */
enum vnc_record_state {
    VNC_RECORD_NONE = 0,
    VNC_RECORD_WRITTEN = 1,
    VNC_RECORD_BROKEN = 2 /* it has ended: a write failed, or no memory */
};

/* Returns whether what is served is recorded: a vnc_record_state. */
int32_t vnc_server_record_state(const vnc_server *server);

/* Closes all connections, frees its ports and all memory, and writes a record
 * to its end (rfbShutdownServer, rfbScreenCleanup). What was not fetched is
 * gone.
 * Returns 0, also for a closed server. */
int32_t vnc_server_close(vnc_server *server);

/* Closes a server, and frees it. NULL is nothing to free. */
static inline void vnc_server_free(vnc_server *server)
{
    int error = errno;
    if (!server) return;
    vnc_server_close(server);
    free(server);
    errno = error;
}

/* Makes a server in memory of malloc's, which listens, and records in a file
 * where `path` isn't empty. The arguments are those of vnc_server_listen and
 * vnc_server_record, and so are the codes. `*out` is NULL where it is refused,
 * and then nothing is made. */
static inline int32_t vnc_server_new_recorded(const char *address,
                                              uint16_t port, uint32_t width,
                                              uint32_t height,
                                              const char *name,
                                              uint32_t viewers,
                                              const char *path,
                                              vnc_server **out)
{
    int32_t code;
    vnc_server *server;
    *out = NULL;
    if (vnc_server_abi() != VNC_SERVER_ABI) return VNC_ERROR_VERSION;
    server = (vnc_server *)malloc(vnc_server_size());
    if (!server) return VNC_ERROR_NO_MEMORY;
    vnc_server_init(server);
    code = vnc_server_record(server, path);
    if (code == 0)
        code = vnc_server_listen(server, address, port, width, height, name,
                                 viewers);
    if (code == 0) *out = server;
    else vnc_server_free(server);
    return code;
}

/* Makes a server which listens, with no record. */
static inline int32_t vnc_server_new(const char *address, uint16_t port,
                                     uint32_t width, uint32_t height,
                                     const char *name, uint32_t viewers,
                                     vnc_server **out)
{
    return vnc_server_new_recorded(address, port, width, height, name, viewers,
                                   "", out);
}

/* Makes a server in memory of malloc's, which listens nowhere. The arguments
 * and the codes are those of vnc_server_serve. `*out` is NULL where it is
 * refused, and then nothing is made. */
static inline int32_t vnc_server_new_unbound(uint32_t width, uint32_t height,
                                             const char *name,
                                             uint32_t viewers,
                                             vnc_server **out)
{
    int32_t code;
    vnc_server *server;
    *out = NULL;
    if (vnc_server_abi() != VNC_SERVER_ABI) return VNC_ERROR_VERSION;
    server = (vnc_server *)malloc(vnc_server_size());
    if (!server) return VNC_ERROR_NO_MEMORY;
    vnc_server_init(server);
    code = vnc_server_serve(server, width, height, name, viewers);
    if (code == 0) *out = server;
    else vnc_server_free(server);
    return code;
}

/* ---- Turns ---- */

/* Takes a turn (rfbProcessEvents): waits until something can be done, at most
 * so many milliseconds, below 0 without end. Then it reads what viewers sent,
 * writes what they are to be sent, and last accepts new ones, which are read
 * from in the next turn. A turn is bounded, however much they send.
 * Returns 0, or VNC_ERROR_NO_MEMORY, VNC_ERROR_NETWORK or VNC_ERROR_CLOCK where
 * it ended early: what it did stays done, viewers are served as before, and the
 * next turn goes on. */
int32_t vnc_server_process_events(vnc_server *server, int32_t milliseconds);

/* Returns the descriptor by which a program with a loop of its own waits, by
 * poll, epoll or select. Such a program takes a turn of 0 milliseconds once
 * this can be read, or once the time of vnc_server_timeout is over. It stays
 * the server's own until vnc_server_close: read nothing from it. */
int32_t vnc_server_fd(const vnc_server *server);

/* Returns for how many milliseconds such a program may wait now, a part of one
 * as a whole one: 2^31 - 1 also where there is no end. Ask before each wait:
 * drawing, and what a turn leaves to do, make it 0. Or VNC_ERROR_CLOCK. */
int32_t vnc_server_timeout(const vnc_server *server);

/* ---- What viewers told ---- */

/* Fetches the next inputs of all viewers, in their order, into `buffer`
 * (kbdAddEvent, ptrAddEvent, setXCutText). A text is the last of a call's:
 * vnc_server_text has its bytes.
 * Returns how many, 0 where none wait. */
int64_t vnc_server_next_inputs(vnc_server *server,
                               vnc_input *buffer, size_t count);

/* Copies the first bytes of the text that vnc_server_next_inputs fetched last
 * into `buffer`. Returns how many. */
int32_t vnc_server_text(const vnc_server *server,
                        uint8_t *buffer, size_t count);

/* Fetches who came and went next into `buffer` (newClientHook,
 * clientGoneHook). Returns how many, 0 where none wait. */
int64_t vnc_server_next_events(vnc_server *server,
                               vnc_event *buffer, size_t count);

/* Returns how many inputs and events were lost since vnc_server_listen or
 * vnc_server_serve: each that was not kept, and no other. A viewer whose coming
 * was lost is served all the same: vnc_server_numbers has it. */
int64_t vnc_server_lost_count(const vnc_server *server);

/* Returns how often, since vnc_server_listen or vnc_server_serve, viewers asked
 * for pixels whether these changed or not, by requests that aren't incremental
 * (7.5.3): more than before a turn where one did in it. A program that draws
 * without saying so takes its pixels in then. vnc_settings has how many a
 * viewer made.
 * (clientFramebufferUpdateRequestHook, which is called for each request.) */
int64_t vnc_server_full_request_count(const vnc_server *server);

/* ---- Viewers ---- */

/* Takes in a connection that the program accepted or made itself: from inetd or
 * systemd, an end of a socketpair, a UNIX socket, one that it connected
 * (inetdSock, rfbNewClient, rfbReverseConnection). Also of a server that
 * listens. It is read from in the next turn, and vnc_server_next_events tells
 * that it came.
 *   fd  a stream socket, connected; it is made non-blocking, and so is each
 *       descriptor of the same socket
 * Returns the viewer's number, above 0, or a code:
 *   VNC_ERROR_BAD_SOCKET    it is no socket, or not connected
 *   VNC_ERROR_FULL          as many viewers are connected as may be; it was
 *                           told "too many viewers" (7.1.2)
 *   VNC_ERROR_CANNOT_ADOPT  the system refused to watch it, or there was no
 *                           memory for it
 *   VNC_ERROR_NO_MEMORY, VNC_ERROR_NETWORK, VNC_ERROR_CLOCK  as elsewhere
 * Behind VNC_ERROR_BAD_SOCKET and VNC_ERROR_CLOSED the descriptor stays the
 * program's. Otherwise it is the server's, also behind the other codes: these
 * have closed it, and the server closes it once the viewer has gone, or with
 * itself. The other end reads its end then, unless the program has another
 * descriptor of the same socket, as 1 and 2 of inetd's. */
int64_t vnc_server_adopt(vnc_server *server, int32_t fd);

/* Returns how many viewers are connected. */
int32_t vnc_server_viewer_count(const vnc_server *server);

/* Copies the numbers of the connected viewers into `buffer`, in the order in
 * which they came, as many as fit. Returns how many: where that is `count`,
 * there may be more, and vnc_server_viewer_count says how many there are. Or
 * VNC_ERROR_NO_MEMORY. */
int32_t vnc_server_numbers(const vnc_server *server,
                           uint64_t *buffer, size_t count);

/* Returns 1 where a viewer's opening is over and it met no fault, else 0: its
 * shared flag is known then. Or VNC_ERROR_NO_VIEWER. */
int32_t vnc_server_is_open(const vnc_server *server, uint64_t viewer);

/* Closes a viewer's connection in the next turn (rfbCloseClient). It is read
 * from and written to no more; one that came in the last turn was sent nothing
 * yet (RFB_CLIENT_REFUSE). Returns 0, or VNC_ERROR_NO_VIEWER or
 * VNC_ERROR_NO_MEMORY. */
int32_t vnc_server_close_viewer(vnc_server *server, uint64_t viewer);

/* Does what vnc_server_viewer_address does, with no zero behind it, and returns
 * how many bytes. */
int32_t vnc_server_viewer_address_n(const vnc_server *server, uint64_t viewer,
                                    uint8_t *buffer, size_t count);

/* Enough bytes for each address: the longest takes 40, with the zero. */
#define VNC_ADDRESS_SIZE 47

/* Copies the IP address that a viewer comes from into `buffer`, in digits, as
 * much of it as fits with a zero behind it: VNC_ADDRESS_SIZE bytes are enough
 * (host of rfbClientRec). On "::" an address of IPv4 is "::ffff:127.0.0.1".
 * Returns 0, or VNC_ERROR_NO_VIEWER, VNC_ERROR_NO_MEMORY, or VNC_ERROR_NETWORK
 * where the system doesn't tell, as when the viewer has just gone, and where
 * its socket has no IP address, as a UNIX socket; `buffer` is "" then. */
static inline int32_t vnc_server_viewer_address(const vnc_server *server,
                                                uint64_t viewer, char *buffer,
                                                size_t size)
{
    int32_t count = vnc_server_viewer_address_n(
        server, viewer, (uint8_t *)buffer, size ? size - 1 : 0);
    if (size) buffer[count > 0 ? count : 0] = 0;
    return count < 0 ? count : 0;
}

/* What moved of a viewer. */
typedef struct vnc_traffic {
    uint64_t received; /* bytes read from it: of a browser the payloads */
    uint64_t sent;     /* bytes written to it, likewise */
    uint64_t updates;  /* updates made for it */
    uint64_t silent;   /* milliseconds from its last bytes or, before any came,
                          from its coming, to the last turn */
} vnc_traffic;
VNC_LAYOUT(vnc_traffic, 32, 8);

/* Does what vnc_server_traffic does: copies the first of the numbers of which
 * the library's vnc_traffic consists into `numbers`, and returns how many. */
int32_t vnc_server_traffic_n(const vnc_server *server, uint64_t viewer,
                             uint64_t *numbers, size_t count);

/* Tells what moved of a viewer. A program that lets silent viewers go looks
 * here. What an older library doesn't know is 0.
 * Returns 0, or VNC_ERROR_NO_VIEWER, and `*traffic` stays. */
static inline int32_t vnc_server_traffic(const vnc_server *server,
                                         uint64_t viewer, vnc_traffic *traffic)
{
    uint64_t numbers[sizeof *traffic / sizeof(uint64_t)] = {0};
    int32_t code = vnc_server_traffic_n(server, viewer, numbers,
                                        sizeof numbers / sizeof *numbers);
    if (code >= 0) memcpy(traffic, numbers, sizeof *traffic);
    return code < 0 ? code : 0;
}

/* Does what vnc_server_settings does: copies the first of the 32-bit words of
 * which the library's vnc_settings consists into `words`, and returns how
 * many. */
int32_t vnc_server_settings_n(const vnc_server *server, uint64_t viewer,
                              uint32_t *words, size_t count);

/* Tells what a viewer has set by what was read from it: from its coming on, and
 * a turn may change it. (Of rfbClientRec its format, preferredEncoding,
 * useCopyRect and useNewFBSize, and the shared flag of its ClientInit.) What an
 * older library doesn't know is 0.
 * Returns 0, or VNC_ERROR_NO_VIEWER, and `*settings` stays. */
static inline int32_t vnc_server_settings(const vnc_server *server,
                                          uint64_t viewer,
                                          vnc_settings *settings)
{
    uint32_t words[sizeof *settings / sizeof(uint32_t)] = {0};
    int32_t code = vnc_server_settings_n(server, viewer, words,
                                         sizeof words / sizeof *words);
    if (code >= 0) memcpy(settings, words, sizeof *settings);
    return code < 0 ? code : 0;
}

/* ---- Drawing ----
 * What is drawn is sent in the next turns. Coordinates are columns and rows
 * from 0 on; x2 and y2 are one further than the last. Colours are 0x00RRGGBB,
 * row by row; a top byte other than 0 is cleared. Each call returns 0, or what
 * it says, or VNC_ERROR_NO_MEMORY. */

/* Gives a rectangle these colours. Or VNC_ERROR_BAD_RECT,
 * VNC_ERROR_BAD_PIXEL_COUNT. */
int32_t vnc_server_paint(vnc_server *server,
                         int32_t x1, int32_t y1, int32_t x2, int32_t y2,
                         const uint32_t *colours, size_t count);

/* Does the same, but no viewer is sent it before it is marked. Or
 * VNC_ERROR_BAD_RECT, VNC_ERROR_BAD_PIXEL_COUNT. */
int32_t vnc_server_write_pixels(vnc_server *server, int32_t x1, int32_t y1,
                                int32_t x2, int32_t y2,
                                const uint32_t *colours, size_t count);

/* Marks a rectangle as changed (rfbMarkRectAsModified), its corners in any
 * order; what lies off the screen is left out. */
int32_t vnc_server_mark_rect(vnc_server *server, int32_t x1, int32_t y1,
                             int32_t x2, int32_t y2);

/* Marks the pixels of any of these rectangles (rfbMarkRegionAsModified). Or
 * VNC_ERROR_OUT_OF_RANGE. */
int32_t vnc_server_mark_region(vnc_server *server,
                               const vnc_rect *rects, size_t count);

/* Moves pixels into a rectangle, from (dx, dy) to the left and above it, and
 * sends viewers that take CopyRect a copy (rfbDoCopyRect). What would come from
 * off the screen is left out. */
int32_t vnc_server_do_copy_rect(vnc_server *server, int32_t x1, int32_t y1,
                                int32_t x2, int32_t y2,
                                int32_t dx, int32_t dy);

/* Does the same with the pixels of any of these rectangles (rfbDoCopyRegion).
 * Or VNC_ERROR_OUT_OF_RANGE. */
int32_t vnc_server_do_copy_region(vnc_server *server,
                                  const vnc_rect *rects, size_t count,
                                  int32_t dx, int32_t dy);

/* Does the same for viewers alone: the picture stays, for the program to move
 * its pixels by vnc_server_write_pixels (rfbScheduleCopyRect). */
int32_t vnc_server_schedule_copy_rect(vnc_server *server,
                                      int32_t x1, int32_t y1,
                                      int32_t x2, int32_t y2,
                                      int32_t dx, int32_t dy);

/* Does the same with the pixels of any of these rectangles
 * (rfbScheduleCopyRegion). Or VNC_ERROR_OUT_OF_RANGE. */
int32_t vnc_server_schedule_copy_region(vnc_server *server,
                                        const vnc_rect *rects, size_t count,
                                        int32_t dx, int32_t dy);

/* Rings the bell of each viewer that is open and for which fewer than 64 bells
 * and texts wait (rfbSendBell). */
int32_t vnc_server_bell(vnc_server *server);

/* Sends a copied text to each viewer that is open and for which fewer than 64
 * bells and texts wait (rfbSendServerCutText). Or VNC_ERROR_TEXT_TOO_LONG. */
int32_t vnc_server_cut_text(vnc_server *server,
                            const uint8_t *text, size_t count);

/* Has a black picture of this size in place of the old one
 * (rfbNewFramebuffer). Or VNC_ERROR_BAD_SIZE. */
int32_t vnc_server_new_framebuffer(vnc_server *server,
                                   uint32_t width, uint32_t height);

/* Takes a program's own pixels in (rfbMarkRectAsModified): compares them with a
 * rectangle of the picture, and paints what differs, in few rectangles.
 *   left, top, width, height  the rectangle; what lies off the screen is left
 *            out
 *   bytes    the pixels, rows `stride` bytes apart
 *   format   one, and format_count is 1; or NULL and 0 for 32 bits, 0x00RRGGBB
 *            with the lowest byte first
 *   table    1 to 256 colours 0x00RRGGBB, for pixels of one byte and no format;
 *            else NULL and 0
 * Returns how many pixels changed, or VNC_ERROR_BAD_FORMAT,
 * VNC_ERROR_BAD_STRIDE, VNC_ERROR_TOO_FEW_BYTES. Behind VNC_ERROR_NO_MEMORY
 * each pixel has its old colour or its new one, and another call takes the
 * rest. */
int64_t vnc_server_update_from(vnc_server *server, uint32_t left, uint32_t top,
                               uint32_t width, uint32_t height,
                               const uint8_t *bytes, size_t byte_count,
                               uint64_t stride,
                               const vnc_pixel_format *format,
                               size_t format_count,
                               const uint32_t *table, size_t table_count);

/* ---- What there is ---- */

/* Returns the port of vnc_server_listen; 0 where the server began without. */
int32_t vnc_server_port(const vnc_server *server);

/* Returns the picture's columns, and its rows. */
int64_t vnc_server_width(const vnc_server *server);
int64_t vnc_server_height(const vnc_server *server);

/* Returns a pixel's colour, or VNC_ERROR_OFF_SCREEN. */
int64_t vnc_server_colour(const vnc_server *server, uint32_t x, uint32_t y);

/* ---- Wakers ---- */

/* A waker ends a wait of vnc_server_process_events, or the next one's, from
 * another thread; then the thread that takes the turns may see to what is new.
 * It lies in the program's memory, of vnc_waker_size() bytes at a multiple of
 * VNC_ALIGNMENT, as a server does. One call at a time for each waker; but
 * vnc_waker_wake may be called while a call for the server runs. A server has
 * one waker at a time. It may be closed before the server or after it. */
typedef struct vnc_waker vnc_waker;

/* Returns how many bytes a waker takes. */
size_t vnc_waker_size(void);

/* Makes this memory a waker of the server. It is closed where the server is, or
 * the system has no more descriptors. */
void vnc_waker_init(vnc_server *server, vnc_waker *waker);

/* Wakes the server; one that was closed since wakes from nothing. Returns 0,
 * VNC_ERROR_CLOSED, or VNC_ERROR_NETWORK where the system refuses it. */
int32_t vnc_waker_wake(vnc_waker *waker);

/* Closes the waker: its descriptor is closed, and its memory may be freed.
 * Returns 0. */
int32_t vnc_waker_close(vnc_waker *waker);

/* Makes a waker in memory of malloc's: 0, or VNC_ERROR_NO_MEMORY, and `*out` is
 * NULL. */
static inline int32_t vnc_waker_new(vnc_server *server, vnc_waker **out)
{
    vnc_waker *waker = (vnc_waker *)malloc(vnc_waker_size());
    *out = waker;
    if (!waker) return VNC_ERROR_NO_MEMORY;
    vnc_waker_init(server, waker);
    return 0;
}

/* Closes a waker, and frees it. NULL is nothing to free. */
static inline void vnc_waker_free(vnc_waker *waker)
{
    if (!waker) return;
    vnc_waker_close(waker);
    free(waker);
}

#ifdef __cplusplus
}
#endif

#endif
