#include <stdint.h>

#define TAPS 5
#define SAMPLES 24

/* The same filter, two outputs at a time: each tap that is loaded is used twice. */
void fir(const int32_t x[SAMPLES], const int32_t h[TAPS], int32_t y[SAMPLES - TAPS + 1])
{
    for (int i = 0; i < SAMPLES - TAPS + 1; i += 2) {
        int32_t even = 1 << 14, odd = 1 << 14;
        for (int k = 0; k < TAPS; k++) {
            even += h[k] * x[i + k];
            odd += h[k] * x[i + k + 1];
        }
        y[i] = even >> 15;
        y[i + 1] = odd >> 15;
    }
}
