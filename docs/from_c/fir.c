#include <stdint.h>

#define TAPS 5
#define SAMPLES 24

/* A filter of five taps in Q15, with a rounding shift. */
void fir(const int32_t x[SAMPLES], const int32_t h[TAPS], int32_t y[SAMPLES - TAPS + 1])
{
    for (int i = 0; i < SAMPLES - TAPS + 1; i++) {
        int32_t acc = 1 << 14;
        for (int k = 0; k < TAPS; k++)
            acc += h[k] * x[i + k];
        y[i] = acc >> 15;
    }
}
