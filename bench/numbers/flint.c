/* Computes one product or one sum of dense elements of a cyclotomic field with FLINT, many times over.
   The words are product, large (a product of numerators above 2^24) or sum, the order of the root, and how many
   times. */
#include <stdio.h>
#include <stdlib.h>
#include <string.h>
#include <flint/fmpq_poly.h>
#include <flint/fmpz_poly.h>
#if __has_include(<flint/nf_elem.h>)
#include <flint/nf_elem.h>
#else
#include <antic/nf_elem.h>
#endif

static const long spread[16] = {3, 1, -4, 1, 5, -9, 2, 6, -5, 3, 5, -8, 9, 7, -9, 3};

static void dense(nf_elem_t x, const nf_t field, long phi, int first, long scale) {
    fmpq_poly_t poly;
    fmpq_poly_init(poly);
    for (long j = 0; j < phi; j++)
        fmpq_poly_set_coeff_si(poly, j, scale * spread[(j + first) % 16]);
    nf_elem_init(x, field);
    nf_elem_set_fmpq_poly(x, poly, field);
    fmpq_poly_clear(poly);
}

int main(int count, char **words) {
    if (count != 4)
        return 2;
    long times = atol(words[3]);
    fmpz_poly_t whole;
    fmpq_poly_t modulus;
    nf_t field;
    nf_elem_t x, y, z;
    fmpz_poly_init(whole);
    fmpz_poly_cyclotomic(whole, strtoul(words[2], NULL, 10));
    fmpq_poly_init(modulus);
    fmpq_poly_set_fmpz_poly(modulus, whole);
    nf_init(field, modulus);
    long scale = strcmp(words[1], "large") == 0 ? 33554432 : 1;
    dense(x, field, fmpz_poly_degree(whole), 0, scale);
    dense(y, field, fmpz_poly_degree(whole), 5, scale);
    nf_elem_init(z, field);
    if (strcmp(words[1], "sum") == 0)
        for (long i = 0; i < times; i++)
            nf_elem_add(z, x, y, field);
    else
        for (long i = 0; i < times; i++)
            nf_elem_mul(z, x, y, field);
    nf_elem_print_pretty(z, field, "z");
    putchar('\n');
    return 0;
}
