/* The same lines as cap_bench, done by FLINT: operation, prime, size, rank; prints microseconds and a number of the answer. */
#include <flint/flint.h>
#include <flint/nmod_mat.h>
#include <stdint.h>
#include <stdio.h>
#include <string.h>
#include <time.h>

static uint64_t seed;

static void fill(nmod_mat_t m, unsigned p) {
    for (slong i = 0; i < nmod_mat_nrows(m); i++)
        for (slong j = 0; j < nmod_mat_ncols(m); j++) {
            seed = seed * 6364136223846793005ull + 1442695040888963407ull;
            nmod_mat_entry(m, i, j) = (uint32_t)(seed >> 33) % p;
        }
}

static double now(void) {
    struct timespec t;
    clock_gettime(CLOCK_MONOTONIC, &t);
    return t.tv_sec * 1e6 + t.tv_nsec / 1e3;
}

int main(void) {
    char op[32];
    unsigned p, n, r;
    while (scanf("%31s %u %u %u", op, &p, &n, &r) == 4) {
        nmod_mat_t m, a, b, x;
        seed = 12345;
        nmod_mat_init(m, n, n, p);
        if (r == n)
            fill(m, p);
        else {
            nmod_mat_init(a, n, r, p);
            nmod_mat_init(b, r, n, p);
            fill(a, p);
            fill(b, p);
            nmod_mat_mul(m, a, b);
            nmod_mat_clear(a);
            nmod_mat_clear(b);
        }
        long answer = 0;
        double start;
        if (!strcmp(op, "rref")) {
            start = now();
            answer = nmod_mat_rref(m);
        } else if (!strcmp(op, "null_rows")) {
            nmod_mat_init(a, n, n, p);
            nmod_mat_init(x, n, n, p);
            start = now();
            nmod_mat_transpose(a, m);
            answer = nmod_mat_nullspace(x, a);
            nmod_mat_clear(a);
            nmod_mat_clear(x);
        } else if (!strcmp(op, "product")) {
            nmod_mat_init(x, n, n, p);
            start = now();
            nmod_mat_mul(x, m, m);
            answer = n;
            nmod_mat_clear(x);
        } else {
            nmod_mat_init(a, n, n, p);
            nmod_mat_init(b, n, 1, p);
            nmod_mat_init(x, n, 1, p);
            start = now();
            nmod_mat_transpose(a, m);
            for (unsigned i = 0; i < n; i++)
                nmod_mat_entry(b, i, 0) = nmod_mat_entry(m, n - 1, i);
            answer = nmod_mat_can_solve(x, a, b);
            nmod_mat_clear(a);
            nmod_mat_clear(b);
            nmod_mat_clear(x);
        }
        printf("%s %u %u %u %.0f %ld\n", op, p, n, r, now() - start, answer);
        nmod_mat_clear(m);
    }
    return 0;
}
