#define NX 6

/* A line of a seven-point stencil in three dimensions: the line itself with its ends, and its four neighbours. */
void stencil3d(const float c[NX + 2], const float n[NX], const float s[NX], const float u[NX], const float d[NX],
               float out[NX], float alpha, float beta)
{
    for (int i = 0; i < NX; i++)
        out[i] = alpha * c[i + 1] + beta * (c[i] + c[i + 2] + n[i] + s[i] + u[i] + d[i]);
}
