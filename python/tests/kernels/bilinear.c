#include <stdint.h>

typedef unsigned char byte;
#define FRACTION 8

/* A linear blend of two values by a fraction of 8 bits. */
static int lerp(int a, int b, int t) { return (a * ((1 << FRACTION) - t) + b * t) >> FRACTION; }

/* One RGBA pixel by bilinear interpolation between four, with fractions fx and fy. */
void bilinear(const byte p[2][2][4], int fx, int fy, byte *out)
{
    for (int c = 0; c < 4; c++) {
        int top = lerp(p[0][0][c], p[0][1][c], fx & 255);
        int bottom = lerp(p[1][0][c], p[1][1][c], fx & 255);
        *(out + c) = lerp(top, bottom, fy & 255);
    }
}
