#include "lossy.h"

/* SplitMix64: every seed gives the same numbers on every machine. */
unsigned below(uint64_t *seed, unsigned n)
{
    *seed += 0x9E3779B97F4A7C15u;
    uint64_t word = *seed;
    word = (word ^ (word >> 30)) * 0xBF58476D1CE4E5B9u;
    word = (word ^ (word >> 27)) * 0x94D049BB133111EBu;
    return (unsigned)((word ^ (word >> 31)) % n);
}

/* What arrives of a telegram: all of it, nothing, or all with one bit flipped. */
static size_t pass(struct lossy *lossy, struct fates *fates, uint8_t *bytes, size_t count)
{
    unsigned fate = below(&lossy->seed, 100);
    if (count == 0) {
        return 0;
    }
    if (fate < lossy->lost) {
        fates->lost++;
        return 0;
    }
    if (fate < lossy->lost + lossy->damaged) {
        unsigned bit = below(&lossy->seed, (unsigned)count * 8);
        bytes[bit / 8] = (uint8_t)(bytes[bit / 8] ^ (1u << (bit % 8)));
        fates->damaged++;
    }
    return count;
}

bool lossy_carry(struct lossy *lossy, int controller, int printer)
{
    uint8_t bytes[RABTUNEX_TELEGRAM_MAX];
    size_t count;
    if (!line_receive(controller, bytes, &count)) {
        return false;
    }
    count = pass(lossy, &lossy->requests, bytes, count);
    if (count != 0) {
        if (!line_transmit(printer, bytes, count) || !line_receive(printer, bytes, &count)) {
            return false;
        }
        count = pass(lossy, &lossy->replies, bytes, count);
    }
    return line_transmit(controller, bytes, count);
}
