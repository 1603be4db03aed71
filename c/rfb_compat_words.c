/* rfb_compat_words.c: what is said by rfb_compat.h, and the words that a
 * program takes out of its arguments. */
#include "rfb_compat.h"
#include <stdarg.h>
#include <stddef.h>

static int saysNothing;

static void say(const char *format, ...)
{
    va_list args;
    va_start(args, format);
    if (!saysNothing) vfprintf(stderr, format, args);
    va_end(args);
}

rfbLogProc rfbLog = say, rfbErr = say;

void rfbLogEnable(int enabled) { saysNothing = !enabled; }

/* ---- arguments ---- */

/* Takes so many words out of the list. */
static void take_out(int *argc, char **argv, int at, int count)
{
    memmove(argv + at, argv + at + count,
            (size_t)(*argc - at - count) * sizeof *argv);
    *argc -= count;
    argv[*argc] = NULL;
}

/* What a word does: it sets a field to a number, a text or TRUE; says where to
 * listen or record; or what is said of it. VALUE and NOTHING have no effect,
 * the first with a value. */
enum effect {
    NUMBER,
    TEXT,
    FLAG,
    ADDRESS,
    RECORD,
    PASSWORD,
    PROMISE,
    IPV4_ALONE,
    VALUE,
    NOTHING,
    HELP
};

#define AT(field) offsetof(rfbScreenInfo, field)
#define REFUSED_PASSWORD \
    "is refused: there are no passwords, and the screen is not served"
#define REFUSED_TLS "is refused: there is no TLS, and the screen is not served"
#define NO_EFFECT "has no effect here: "
#define NO_HTTP NO_EFFECT "there is no HTTP"

static const struct {
    const char *word;
    enum effect does;
    size_t at;
    const char *said;
} words[] = {
    {"-rfbport", NUMBER, AT(port), NULL},
    {"-rfbportv6", NUMBER, AT(ipv6port),
     "above 0: IPv6 is served on -rfbport's port; else not at all"},
    {"-listen", ADDRESS, 0, NULL},
    {"-listenv6", IPV4_ALONE, 0,
     "has the screen served by IPv4 alone: IPv6 can't be confined to one "
     "address here"},
    {"-deferupdate", NUMBER, AT(deferUpdateTime), NULL},
    {"-desktop", TEXT, AT(desktopName), NULL},
    {"-alwaysshared", FLAG, AT(alwaysShared), NULL},
    {"-nevershared", FLAG, AT(neverShared), NULL},
    {"-dontdisconnect", FLAG, AT(dontDisconnect), NULL},
    {"-record", RECORD, 0, NULL},
    {"-passwd", PASSWORD, 0, REFUSED_PASSWORD},
    {"-rfbauth", PASSWORD, 0, REFUSED_PASSWORD},
    {"-sslkeyfile", PROMISE, 0, REFUSED_TLS},
    {"-sslcertfile", PROMISE, 0, REFUSED_TLS},
    {"-httpdir", TEXT, AT(httpDir), NO_HTTP},
    {"-httpport", NUMBER, AT(httpPort), NO_HTTP},
    {"-httpportv6", VALUE, 0, NO_HTTP},
    {"-enablehttpproxy", FLAG, AT(httpEnableProxyConnect), NO_HTTP},
    {"-rfbwait", VALUE, 0, NO_EFFECT "no viewer holds up another"},
    {"-rfbversion", VALUE, 0, NO_EFFECT "the version is 3.8"},
    {"-permitfiletransfer", NOTHING, 0, NO_EFFECT "no files are transferred"},
    {"-deferptrupdate", VALUE, 0, NO_EFFECT "each pointer event is told"},
    {"-progressive", VALUE, 0, NO_EFFECT "an update is sent as a whole"},
    {"-help", HELP, 0, NULL},
};
enum { WORDS = sizeof words / sizeof *words };

static rfbBool has_value(enum effect does)
{
    return does != FLAG && does != NOTHING && does != HELP ? TRUE : FALSE;
}

void rfbUsage(void)
{
    for (int k = 0; k < WORDS; k++)
        fprintf(stderr, "%s%s %s\n", words[k].word,
                has_value(words[k].does) ? " VALUE" : "",
                words[k].said ? words[k].said : "");
}

/* Listens at this address: FALSE where it is none. */
static rfbBool set_address(rfbScreenInfoPtr s, const char *value)
{
    const char *digits = strcmp(value, "localhost") ? value : "127.0.0.1";
    if (!*value || !strcmp(value, "any")) {
        s->listenInterface = htonl(INADDR_ANY);
        return TRUE;
    }
    if (inet_pton(AF_INET, digits, &s->listenInterface) == 1) return TRUE;
    rfbErr("-listen: %s is no address of IPv4 in digits\n", value);
    return FALSE;
}

/* Does what a word does: FALSE where the screen is not to be had. */
static rfbBool obey(rfbScreenInfoPtr s, int k, char *value)
{
    char *field = (char *)s + words[k].at;
    int number;
    if (words[k].said) rfbErr("%s %s\n", words[k].word, words[k].said);
    switch (words[k].does) {
    case NUMBER:
        number = atoi(value);
        memcpy(field, &number, sizeof number);
        break;
    case TEXT: memcpy(field, &value, sizeof value); break;
    case FLAG: *(rfbBool *)field = TRUE; break;
    case RECORD: s->record = value; break;
    case PASSWORD: s->authPasswdData = value; break;
    case PROMISE: s->promise = words[k].word; break;
    case IPV4_ALONE: s->ipv6port = 0; break;
    case ADDRESS: return set_address(s, value);
    case HELP: rfbUsage(); return FALSE;
    default: break;
    }
    return TRUE;
}

/* The number of a word, or WORDS. */
static int number_of(const char *word)
{
    int k = 0;
    while (k < WORDS && strcmp(word, words[k].word)) k++;
    return k;
}

rfbBool rfbProcessArguments(rfbScreenInfoPtr s, int *argc, char **argv)
{
    for (int at = 1; argc && at < *argc;) {
        const int k = number_of(argv[at]);
        char *value = NULL;
        if (k == WORDS) {
            at++;
            continue;
        }
        if (has_value(words[k].does) && at + 1 < *argc) value = argv[at + 1];
        if (has_value(words[k].does) &&
            (!value || (words[k].does == RECORD && !*value))) {
            rfbErr("%s wants a value\n", words[k].word);
            return FALSE;
        }
        take_out(argc, argv, at, value ? 2 : 1);
        if (!obey(s, k, value)) return FALSE;
    }
    return TRUE;
}

/* What a word gives a size, or NULL. */
static int *size_of_word(const char *word, int *width, int *height, int *bpp)
{
    if (!strcmp(word, "-width")) return width;
    if (!strcmp(word, "-height")) return height;
    return strcmp(word, "-bpp") ? NULL : bpp;
}

rfbBool rfbProcessSizeArguments(int *width, int *height, int *bpp, int *argc,
                                char **argv)
{
    for (int at = 1; argc && at < *argc - 1;) {
        int *size = size_of_word(argv[at], width, height, bpp);
        if (!size) {
            at++;
            continue;
        }
        *size = atoi(argv[at + 1]);
        take_out(argc, argv, at, 2);
    }
    return TRUE;
}
