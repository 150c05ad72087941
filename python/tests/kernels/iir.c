#include <stdint.h>

#define Q 15
#define SAMPLES 8

/* Saturation of a 32-bit sum to 16 bits, as DSP libraries write it. */
static inline int16_t sat16(int32_t v)
{
    return v > INT16_MAX ? INT16_MAX : v < INT16_MIN ? INT16_MIN : (int16_t)v;
}

/* A second-order section in Q15, direct form I, with saturation; state holds x[n-1], x[n-2], y[n-1], y[n-2]. */
void iir(const int16_t coeff[5], int16_t state[4], const int16_t *restrict in, int16_t *restrict out)
{
    int16_t x1 = state[0], x2 = state[1], y1 = state[2], y2 = state[3];
    for (int n = 0; n < SAMPLES; n++) {
        int32_t acc = (int32_t)coeff[0] * in[n];
        acc += coeff[1] * x1;
        acc += coeff[2] * x2;
        acc -= coeff[3] * y1;
        acc -= coeff[4] * y2;
        int16_t y = sat16((acc + (1 << (Q - 1))) >> Q);
        x2 = x1, x1 = in[n];
        y2 = y1, y1 = y;
        out[n] = y;
    }
    state[0] = x1;
    state[1] = x2;
    state[2] = y1;
    state[3] = y2;
}
