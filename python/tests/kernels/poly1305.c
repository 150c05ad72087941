#include <stdint.h>

typedef uint32_t u32;
typedef uint64_t u64;
#define M26 0x3ffffff

/* One block of Poly1305 in five limbs of 26 bits: h = (h + m) * r mod 2^130 - 5, with the carries. */
void poly1305(u32 h[5], const u32 r[5], const u32 m[4])
{
    const u32 r0 = r[0], r1 = r[1], r2 = r[2], r3 = r[3], r4 = r[4];
    const u32 s1 = r1 * 5, s2 = r2 * 5, s3 = r3 * 5, s4 = r4 * 5;
    u32 h0 = h[0] + (m[0] & M26);
    u32 h1 = h[1] + ((u32)((((u64)m[1] << 32) | m[0]) >> 26) & M26);
    u32 h2 = h[2] + ((u32)((((u64)m[2] << 32) | m[1]) >> 20) & M26);
    u32 h3 = h[3] + ((u32)((((u64)m[3] << 32) | m[2]) >> 14) & M26);
    u32 h4 = h[4] + ((m[3] >> 8) | (1u << 24));

    u64 d0 = (u64)h0 * r0 + (u64)h1 * s4 + (u64)h2 * s3 + (u64)h3 * s2 + (u64)h4 * s1;
    u64 d1 = (u64)h0 * r1 + (u64)h1 * r0 + (u64)h2 * s4 + (u64)h3 * s3 + (u64)h4 * s2;
    u64 d2 = (u64)h0 * r2 + (u64)h1 * r1 + (u64)h2 * r0 + (u64)h3 * s4 + (u64)h4 * s3;
    u64 d3 = (u64)h0 * r3 + (u64)h1 * r2 + (u64)h2 * r1 + (u64)h3 * r0 + (u64)h4 * s4;
    u64 d4 = (u64)h0 * r4 + (u64)h1 * r3 + (u64)h2 * r2 + (u64)h3 * r1 + (u64)h4 * r0;

    u32 c = (u32)(d0 >> 26);
    h[0] = (u32)d0 & M26;
    d1 += c; c = (u32)(d1 >> 26); h[1] = (u32)d1 & M26;
    d2 += c; c = (u32)(d2 >> 26); h[2] = (u32)d2 & M26;
    d3 += c; c = (u32)(d3 >> 26); h[3] = (u32)d3 & M26;
    d4 += c; c = (u32)(d4 >> 26); h[4] = (u32)d4 & M26;
    h[0] += c * 5; c = h[0] >> 26; h[0] &= M26;
    h[1] += c;
}
