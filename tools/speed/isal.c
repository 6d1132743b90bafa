/* How long ISA-L's Reed-Solomon code over bytes takes for the same bytes: put-stripes' N - L parity pieces of a file
 * in L data pieces, and the file from its last L pieces. It encrypts nothing, corrects nothing and knows no liar.
 *
 *     cc -O3 -o isal isal.c -lisal
 *     isal N L BYTES */
#include <isa-l.h>
#include <stdint.h>
#include <stdio.h>
#include <stdlib.h>
#include <string.h>
#include <time.h>

static double now(void)
{
    struct timespec t;
    clock_gettime(CLOCK_MONOTONIC, &t);
    return (double)t.tv_sec * 1e9 + (double)t.tv_nsec;
}

int main(int count, char **words)
{
    if (count != 4) return 2;
    int n = atoi(words[1]), l = atoi(words[2]), length = atoi(words[3]), piece = (length + l - 1) / l;
    uint8_t matrix[16 * 16], chosen[16 * 16], inverse[16 * 16], tables[32 * 16 * 16];
    uint8_t *pieces[16], *back[16];
    if (n > 16 || l < 1 || l >= n) return 2;
    for (int j = 0; j < n; j++) {
        pieces[j] = malloc((size_t)piece);
        back[j] = malloc((size_t)piece);
        for (int k = 0; k < piece; k++) pieces[j][k] = (uint8_t)(k * 167 + j * 59 + (k >> 8));
        memset(back[j], 0, (size_t)piece);
    }
    double start = now();
    gf_gen_cauchy1_matrix(matrix, n, l);
    ec_init_tables(l, n - l, matrix + l * l, tables);
    ec_encode_data(piece, l, n - l, tables, pieces, pieces + l);
    double put = now() - start;
    start = now();
    memcpy(chosen, matrix + (n - l) * l, (size_t)(l * l));
    if (gf_invert_matrix(chosen, inverse, l) != 0) return 1;
    ec_init_tables(l, l, inverse, tables);
    ec_encode_data(piece, l, l, tables, pieces + (n - l), back);
    double get = now() - start;
    for (int j = 0; j < l; j++)
        if (memcmp(back[j], pieces[j], (size_t)piece) != 0) return 1;
    fprintf(stderr, "%.0f %.0f\n", put, get);
    return 0;
}
