#ifndef PRINTER_H
#define PRINTER_H

#include "rabtunex.h"

/* The templates that a printer has: memory that outlives a power cut. */
struct slots {
    uint8_t lengths[RABTUNEX_SLOTS];
    uint8_t bodies[RABTUNEX_SLOT_BYTES];
};

/* How a printer is set up. */
struct printer {
    uint8_t address;
    uint8_t boarding; /* 1 while boarding, else 0 */
    uint8_t slow;     /* how many polls every third write takes */
};

/* The printer's end until the line is gone: 0, or the refusal number of a fault in this set-up. */
uint8_t printer_run(int line, const struct printer *printer, struct slots *slots);

#endif
