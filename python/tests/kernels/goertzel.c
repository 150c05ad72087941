/* Goertzel's recurrence for one bin over 16 samples, and the power of the bin. */
float goertzel(const float samples[16], float coeff)
{
    float q1 = 0.0f, q2 = 0.0f;
    int n = 16;
    while (n-- > 0) {
        float q0 = coeff * q1 - q2 + samples[15 - n];
        q2 = q1;
        q1 = q0;
    }
    return q1 * q1 + q2 * q2 - q1 * q2 * coeff;
}
