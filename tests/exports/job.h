/* The jobs of standard input, each closed by a line `(end)`. */
#include <stdio.h>
#include <string.h>

#include "wonkpecan.h"

static uint8_t text[FBS_ANSWER_BYTES];

/* the next job without its `(end)` line; whether there is one */
static int next_job(size_t *length) {
    size_t line = 0;
    int byte;
    *length = 0;
    while (*length < sizeof text && (byte = getchar()) != EOF) {
        text[(*length)++] = (uint8_t)byte;
        if (byte != '\n') continue;
        if (*length - line == 6 && memcmp(text + line, "(end)\n", 6) == 0) {
            *length = line;
            return 1;
        }
        line = *length;
    }
    return 0;
}
