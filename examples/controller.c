/*
 * The controller's end of the line: all that a card in a desk's controller does for a download.
 */
#include "controller.h"

#include "line.h"

#include <string.h>

/* What the library is lent at each step, since it keeps nothing itself. */
static uint8_t state[RABTUNEX_CONTROLLER_STATE];
static uint8_t request[RABTUNEX_TELEGRAM_MAX];
static uint8_t reply[RABTUNEX_TELEGRAM_MAX];

/* Sends the request and waits: how many bytes came back. A line that is gone is as silent as one
 * that loses everything, and the download ends of itself. */
static size_t exchange(int line, size_t stored)
{
    size_t got;
    if (!line_transmit(line, request, stored) || !line_receive(line, reply, &got)) {
        return 0;
    }
    return got;
}

/* One download. */
static uint8_t download(int line, const struct controller *controller,
                        uint8_t ending[RABTUNEX_ENDING], size_t *sendings)
{
    size_t got = 0;
    size_t stored;
    memset(state, 0, sizeof state);
    for (;;) {
        uint8_t refused =
            rabtunex_controller_step(controller->settings, controller->book, controller->book_len,
                                     state, reply, got, request, sizeof request, &stored, ending);
        if (refused != 0 || ending[RABTUNEX_ENDING_KIND] != RABTUNEX_GOES_ON) {
            return refused;
        }
        got = exchange(line, stored);
        ++*sendings;
    }
}

/* An opening is sent once and never repeated. Where no diagnosis came back no slot has changed, so
 * that it is safe to begin anew. */
uint8_t controller_run(int line, const struct controller *controller,
                       uint8_t ending[RABTUNEX_ENDING], size_t *sendings)
{
    unsigned openings = 0;
    uint8_t refused;
    *sendings = 0;
    do {
        refused = download(line, controller, ending, sendings);
        openings++;
    } while (refused == 0 && ending[RABTUNEX_ENDING_KIND] == RABTUNEX_ENDED_NO_OPENING &&
             openings < controller->openings);
    return refused;
}

void controller_say(FILE *out, const uint8_t ending[RABTUNEX_ENDING])
{
    unsigned k = ending[RABTUNEX_ENDING_TEMPLATE];
    switch (ending[RABTUNEX_ENDING_KIND]) {
    case RABTUNEX_GOES_ON:
        fputs("goes on", out);
        break;
    case RABTUNEX_ENDED_DONE:
        fputs("done", out);
        break;
    case RABTUNEX_ENDED_NO_OPENING:
        fputs("no opening", out);
        break;
    case RABTUNEX_ENDED_NO_ANSWER:
        fprintf(out, "no answer at %u", k);
        break;
    case RABTUNEX_ENDED_NOT_READY:
        fprintf(out, "not ready at %u", k);
        break;
    case RABTUNEX_ENDED_REFUSED:
        fprintf(out, "refused at %u codes %02X %02X", k, ending[RABTUNEX_ENDING_CODE1],
                ending[RABTUNEX_ENDING_CODE2]);
        break;
    case RABTUNEX_ENDED_STRANGE:
        fprintf(out, "strange reply at %u", k);
        break;
    }
}
