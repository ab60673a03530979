/*
 * The printer's end of the line: all that a card in a printer does.
 */
#include "printer.h"

#include "line.h"

#include <string.h>

/* What the library is lent at each step, since it keeps nothing itself. The front of reply is the
 * reply that a repeated call gets again: nothing else may be stored there. */
static uint8_t state[RABTUNEX_PRINTER_STATE];
static uint8_t telegram[RABTUNEX_TELEGRAM_MAX];
static uint8_t reply[RABTUNEX_TELEGRAM_MAX];

/* Station status 1, 2 and 3, the master, and the ident number. */
static const uint8_t diagnosis[] = {0x00, 0x04, 0x00, RABTUNEX_NO_MASTER, 0x12, 0x34};

/* A fresh printer. Nothing of it outlives a power cut but the slots. */
static void begin(const struct printer *printer)
{
    memset(state, 0, sizeof state);
    state[RABTUNEX_PRINTER_ADDRESS] = printer->address;
    state[RABTUNEX_PRINTER_BOARDING] = printer->boarding;
    state[RABTUNEX_PRINTER_SA] = RABTUNEX_NOBODY;
}

/* How many polls get "not yet" if this telegram is a write: here every third write takes long. */
static uint8_t not_yet(const struct printer *printer)
{
    return state[RABTUNEX_PRINTER_WRITES] % 3 == 2 ? printer->slow : 0;
}

uint8_t printer_run(int line, const struct printer *printer, struct slots *slots)
{
    size_t got;
    size_t sent;
    begin(printer);
    while (line_receive(line, telegram, &got)) {
        uint8_t refused = rabtunex_printer_step(state, telegram, got, diagnosis, sizeof diagnosis,
                                                not_yet(printer), slots->lengths, slots->bodies,
                                                reply, sizeof reply, &sent);
        /* Bad telegrams are never refused, they get no reply: it is what this file lends that is
         * wrong, and every further step would be refused too. */
        if (refused != 0) {
            return refused;
        }
        line_transmit(line, reply, sent);
    }
    return 0;
}
