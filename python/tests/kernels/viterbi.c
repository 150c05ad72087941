#include <stdint.h>

#define STATES 8
#define MIN(a, b) ((a) < (b) ? (a) : (b))

/* Add, compare, select for the butterflies of one step of a Viterbi decoder with eight states. The decisions are one byte. */
uint8_t viterbi(const uint16_t metric[STATES], uint16_t next[STATES], const uint8_t branch[STATES / 2], uint8_t largest)
{
    uint8_t decisions = 0;
    for (int i = 0; i < STATES / 2; i++) {
        uint16_t straight = branch[i], crossed = largest - branch[i];
        uint16_t a = metric[i] + straight, b = metric[i + STATES / 2] + crossed;
        uint16_t c = metric[i] + crossed, d = metric[i + STATES / 2] + straight;
        next[2 * i] = MIN(a, b);
        next[2 * i + 1] = MIN(c, d);
        decisions |= (b < a) << 2 * i;
        decisions |= (d < c) << (2 * i + 1);
    }
    return decisions;
}
