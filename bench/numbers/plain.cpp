// Computes one product of dense cyclotomic numbers by the plain double sum in 128 bits with a test of each
// term's magnitude, many times over. The words are product, the order of the root (5, 16 or 60), and how many times.
#include <cstdio>
#include <cstdlib>

typedef __int128 wide;
typedef unsigned __int128 size;

static const wide spread[16] = {3, 1, -4, 1, 5, -9, 2, 6, -5, 3, 5, -8, 9, 7, -9, 3};
static const size most = ~size(0) >> 1;

static int order, phi;
static signed char rho[60][16];

static size magnitude(wide x) { return x < 0 ? -size(x) : size(x); }

// The powers of z, where low has the coefficients of the cyclotomic polynomial below the top.
static void fill(const signed char *low) {
    rho[0][0] = 1;
    for (int k = 1; k < order; k++)
        for (int j = 0; j < phi; j++)
            rho[k][j] = (j == 0 ? 0 : rho[k - 1][j - 1]) - rho[k - 1][phi - 1] * low[j];
}

// The numerator at j, where the sum of the terms' magnitudes is at most 2^127 - 1.
static bool numerator(const wide *x, const wide *y, int j, wide *out) {
    wide sum = 0;
    size total = 0;
    for (int a = 0; a < phi; a++)
        for (int b = 0; b < phi; b++) {
            wide r = rho[(a + b) % order][j];
            if (x[a] == 0 || r == 0)
                continue;
            size term;
            if (__builtin_mul_overflow(magnitude(x[a]), magnitude(y[b]), &term) || term > most)
                return false;
            if (__builtin_mul_overflow(term, magnitude(r), &term) || term > most)
                return false;
            total += term;
            if (total > most)
                return false;
            sum += x[a] * y[b] * r;
        }
    *out = sum;
    return true;
}

int main(int count, char **words) {
    static const signed char five[] = {1, 1, 1, 1}, sixteen[] = {1, 0, 0, 0, 0, 0, 0, 0},
                             sixty[] = {1, 0, 1, 0, 0, 0, -1, 0, -1, 0, -1, 0, 0, 0, 1, 0};
    if (count != 4)
        return 2;
    order = atoi(words[2]);
    phi = order == 5 ? 4 : order == 16 ? 8 : 16;
    fill(order == 5 ? five : order == 16 ? sixteen : sixty);
    wide x[16] = {0}, y[16] = {0}, z[16] = {0};
    for (int j = 0; j < phi; j++) {
        x[j] = spread[j];
        y[j] = spread[(j + 5) % 16];
    }
    long times = atol(words[3]), failed = 0;
    wide all = 0;
    for (long i = 0; i < times; i++) {
        x[i % phi] = -x[i % phi];
        for (int j = 0; j < phi; j++)
            if (!numerator(x, y, j, &z[j]))
                failed++;
        all += z[0];
    }
    printf("%ld %ld\n", (long)all, failed);
    return 0;
}
