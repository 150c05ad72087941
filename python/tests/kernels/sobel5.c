#include <stdint.h>
#include <stdlib.h>

enum { TAPS = 5, WIDTH = 6 };

static const int8_t SMOOTH[TAPS] = {1, 4, 6, 4, 1};
static const int8_t EDGE[TAPS] = {-1, -2, 0, 2, 1};

/* The 5 x 5 Sobel operator at two neighbouring pixels: |gx| + |gy|, cut to a byte. */
void sobel5(const uint8_t rows[TAPS][WIDTH], uint8_t out[WIDTH - TAPS + 1])
{
    for (int x = 0; x <= WIDTH - TAPS; ++x) {
        int gx = 0, gy = 0;
        for (int j = 0; j < TAPS; ++j)
            for (int i = 0; i < TAPS; ++i) {
                const int p = rows[j][x + i];
                gx += SMOOTH[j] * EDGE[i] * p;
                gy += EDGE[j] * SMOOTH[i] * p;
            }
        unsigned magnitude = (abs(gx) + abs(gy)) >> 5;
        out[x] = magnitude > 255 ? 255 : magnitude;
    }
}
