#ifndef CONTROLLER_H
#define CONTROLLER_H

#include "rabtunex.h"

#include <stdio.h>

/* How a controller is set up. */
struct controller {
    uint8_t settings[RABTUNEX_SETTINGS];
    unsigned openings; /* how often it begins, at the most, until a diagnosis comes back */
    const uint8_t *book;
    size_t book_len;
};

/* The download of the book: 0, how it ended and after how many sendings; or the refusal number of
 * settings or a book that are wrong. */
uint8_t controller_run(int line, const struct controller *controller,
                       uint8_t ending[RABTUNEX_ENDING], size_t *sendings);

/* Says an ending in words. */
void controller_say(FILE *out, const uint8_t ending[RABTUNEX_ENDING]);

#endif
