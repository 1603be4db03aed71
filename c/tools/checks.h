/* checks.h: what a program that checks the library says of what isn't as it is to be. */
#ifndef CHECKS_H
#define CHECKS_H

#include "vnc_types.h"
#include <stdio.h>
#include <string.h>

/* What a call gives, else the line and what it gives instead; what holds; and a function of such lines, or a row of a table. */
#define IS(call, want) do { long got = (long)(call); if (got != (long)(want)) { printf("line %d: %s gives %ld\n", __LINE__, #call, got); return 1; } } while (0)
#define HOLDS(what) IS(what, 1)
#define DO(part) do { if (part) { printf("from line %d: %s\n", __LINE__, #part); return 1; } } while (0)
#define ROW(number, part) do { if (part) { printf("from line %d: row %u of %s\n", __LINE__, (unsigned)(number), #part); return 1; } } while (0)

/* A literal's bytes, and how many they are; and each row of a table. */
#define B(literal) literal, sizeof literal - 1
#define EACH(k, table) for (k = 0; k < sizeof table / sizeof *table; k++)

/* Whether an input is just this one. */
static inline int is_input(const vnc_input *in, const vnc_input *want)
{
    if (in->viewer == want->viewer && in->kind == want->kind && in->down == want->down && in->key == want->key && in->buttons == want->buttons &&
        in->x == want->x && in->y == want->y && in->length == want->length && in->shortened == want->shortened)
        return 1;
    printf("viewer %lu, kind %u, down %u, key %u, buttons %u, at %u, %u, length %lu, shortened %u\n", (unsigned long)in->viewer, (unsigned)in->kind,
           (unsigned)in->down, (unsigned)in->key, (unsigned)in->buttons, (unsigned)in->x, (unsigned)in->y, (unsigned long)in->length, (unsigned)in->shortened);
    return 0;
}

/* Whether a viewer has set just this. */
static inline int is_set(const vnc_settings *set, const vnc_settings *want) { return memcmp(set, want, sizeof *want) == 0; }

#endif
