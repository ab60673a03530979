/*
 * The line between both ends: it loses telegrams and flips bits, as its seed says.
 */
#ifndef LOSSY_H
#define LOSSY_H

#include "line.h"

/* What became of the telegrams that went one way. */
struct fates {
    unsigned lost;
    unsigned damaged;
};

struct lossy {
    uint64_t seed;
    unsigned lost;    /* of a hundred telegrams, how many are lost .. */
    unsigned damaged; /* .. and how many more arrive with one bit flipped */
    struct fates requests;
    struct fates replies;
};

/* A number below n, and the seed after it. */
unsigned below(uint64_t *seed, unsigned n);

/* One sending: the controller's request to the printer, and the printer's reply back. Where nothing
 * comes back, the controller is told so. The answer is false once an end is gone. */
bool lossy_carry(struct lossy *lossy, int controller, int printer);

#endif
