#include <stdint.h>

/* Fixed-point RGB to YCbCr of four pixels, as JPEG encoders have it. */
#define SCALE 16
#define FIX(x) ((int32_t)((x) * (1L << SCALE) + 0.5))
#define HALF (1 << (SCALE - 1))
#define CENTER ((int32_t)128 << SCALE)

void ycbcr(const uint8_t rgb[4][3], uint8_t y[4], uint8_t cb[4], uint8_t cr[4])
{
    for (int i = 0; i < 4; i++) {
        const int32_t r = rgb[i][0], g = rgb[i][1], b = rgb[i][2];
        y[i] = (FIX(0.29900) * r + FIX(0.58700) * g + FIX(0.11400) * b + HALF) >> SCALE;
        cb[i] = (-FIX(0.16874) * r - FIX(0.33126) * g + FIX(0.50000) * b + CENTER + HALF - 1) >> SCALE;
        cr[i] = (FIX(0.50000) * r - FIX(0.41869) * g - FIX(0.08131) * b + CENTER + HALF - 1) >> SCALE;
    }
}
