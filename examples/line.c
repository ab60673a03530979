/*
 * A telegram goes over the socket behind a byte with its length. Silence is a length of 0, so that
 * nobody has to wait for a clock.
 */
#define _DEFAULT_SOURCE
#include "line.h"

#include <sys/socket.h>

bool line_receive(int line, uint8_t bytes[RABTUNEX_TELEGRAM_MAX], size_t *count)
{
    uint8_t length;
    if (recv(line, &length, 1, MSG_WAITALL) != 1) {
        return false;
    }
    *count = length;
    return length == 0 || recv(line, bytes, length, MSG_WAITALL) == length;
}

bool line_transmit(int line, const uint8_t *bytes, size_t count)
{
    uint8_t length = (uint8_t)count;
    if (send(line, &length, 1, MSG_NOSIGNAL) != 1) {
        return false;
    }
    return length == 0 || send(line, bytes, length, MSG_NOSIGNAL) == length;
}
