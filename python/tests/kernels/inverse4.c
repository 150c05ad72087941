/* The inverse of a 4 x 4 matrix by 2 x 2 minors, row by row, as graphics code has it. */
void inverse4(const double m[16], double inv[16])
{
    double s0 = m[0] * m[5] - m[4] * m[1], s1 = m[0] * m[6] - m[4] * m[2], s2 = m[0] * m[7] - m[4] * m[3];
    double s3 = m[1] * m[6] - m[5] * m[2], s4 = m[1] * m[7] - m[5] * m[3], s5 = m[2] * m[7] - m[6] * m[3];
    double c5 = m[10] * m[15] - m[14] * m[11], c4 = m[9] * m[15] - m[13] * m[11], c3 = m[9] * m[14] - m[13] * m[10];
    double c2 = m[8] * m[15] - m[12] * m[11], c1 = m[8] * m[14] - m[12] * m[10], c0 = m[8] * m[13] - m[12] * m[9];
    double det = 1.0 / (s0 * c5 - s1 * c4 + s2 * c3 + s3 * c2 - s4 * c1 + s5 * c0);
    inv[0] = (m[5] * c5 - m[6] * c4 + m[7] * c3) * det;
    inv[1] = (-m[1] * c5 + m[2] * c4 - m[3] * c3) * det;
    inv[2] = (m[13] * s5 - m[14] * s4 + m[15] * s3) * det;
    inv[3] = (-m[9] * s5 + m[10] * s4 - m[11] * s3) * det;
    inv[4] = (-m[4] * c5 + m[6] * c2 - m[7] * c1) * det;
    inv[5] = (m[0] * c5 - m[2] * c2 + m[3] * c1) * det;
    inv[6] = (-m[12] * s5 + m[14] * s2 - m[15] * s1) * det;
    inv[7] = (m[8] * s5 - m[10] * s2 + m[11] * s1) * det;
    inv[8] = (m[4] * c4 - m[5] * c2 + m[7] * c0) * det;
    inv[9] = (-m[0] * c4 + m[1] * c2 - m[3] * c0) * det;
    inv[10] = (m[12] * s4 - m[13] * s2 + m[15] * s0) * det;
    inv[11] = (-m[8] * s4 + m[9] * s2 - m[11] * s0) * det;
    inv[12] = (-m[4] * c3 + m[5] * c1 - m[6] * c0) * det;
    inv[13] = (m[0] * c3 - m[1] * c1 + m[2] * c0) * det;
    inv[14] = (-m[12] * s3 + m[13] * s1 - m[14] * s0) * det;
    inv[15] = (m[8] * s3 - m[9] * s1 + m[10] * s0) * det;
}
