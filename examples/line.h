/*
 * The line as a card sees it. On a card these two functions drive the bus controller; here each end
 * is a process, and what passes between them goes over a socket.
 */
#ifndef LINE_H
#define LINE_H

#include "rabtunex.h"

#include <stdbool.h>

/* Waits for what comes in, and stores its bytes and their count: 0 where nothing came in time. The
 * answer is false once the line is gone. */
bool line_receive(int line, uint8_t bytes[RABTUNEX_TELEGRAM_MAX], size_t *count);

/* Sends one telegram, of RABTUNEX_TELEGRAM_MAX bytes at most, or keeps silent, which is a count of
 * 0. The answer is false once the line is gone. */
bool line_transmit(int line, const uint8_t *bytes, size_t count);

#endif
