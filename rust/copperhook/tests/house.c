/* A triangle by house factors, through all four calls: a line for each call, the number that it returns and the bits of its results; at last a
   coupling that has no house factor. Written as a C program would use the library. */
#include "copperhook.h"

#include <inttypes.h>
#include <stdio.h>
#include <string.h>

enum { EDGES = 3, PAIRS = 2, BETAS = 2, CONFIGURATIONS = 2, ROOM = 64 };

#define TRIANGLE 3, 0, a, EDGES, b, EDGES, m, EDGES, us, PAIRS, vs, PAIRS

static const size_t a[EDGES] = {0, 1, 0}, b[EDGES] = {1, 2, 2}, us[PAIRS] = {0, 0}, vs[PAIRS] = {1, 2};
static const double m[EDGES] = {1.0, 0.5, 2.0}, betas[BETAS] = {0.25, 1.0};

static void print(size_t number, const double *results, size_t count) {
    printf("%zu", number);
    for (size_t i = 0; i < count; i++) {
        uint64_t bits;
        memcpy(&bits, &results[i], sizeof bits);
        printf(" %016" PRIx64, bits);
    }
    printf("\n");
}

int main(void) {
    const double couplings[EDGES] = {0.5, -0.25, 4.0}, off[EDGES] = {0.5, 0.1, 4.0};
    double results[PAIRS], stored[BETAS * PAIRS * CONFIGURATIONS], sums[2][BETAS * PAIRS], work[ROOM];
    size_t count, number;
    number = copperhook_house_correlations(TRIANGLE, couplings, EDGES, COPPERHOOK_BLOCK, results, PAIRS, work, ROOM);
    print(number, results, PAIRS);
    number = copperhook_house_exhaustive_c(TRIANGLE, betas, BETAS, COPPERHOOK_BLOCK, stored, BETAS * PAIRS * CONFIGURATIONS, work, ROOM,
                                           &count);
    print(number, stored, BETAS * PAIRS * CONFIGURATIONS);
    number = copperhook_house_exhaustive(TRIANGLE, betas, BETAS, COPPERHOOK_BLOCK, sums[0], BETAS * PAIRS, sums[1], BETAS * PAIRS, work,
                                         ROOM, &count);
    print(number, sums[0], 2 * BETAS * PAIRS);
    number = copperhook_house_sample(TRIANGLE, betas, BETAS, COPPERHOOK_BLOCK, 7, 2, 5, 4, sums[0], BETAS * PAIRS, sums[1],
                                     BETAS * PAIRS, work, ROOM, &count);
    print(number, sums[0], 2 * BETAS * PAIRS);
    number = copperhook_house_correlations(TRIANGLE, off, EDGES, COPPERHOOK_BLOCK, results, PAIRS, work, ROOM);
    print(number, results, 0);
    return 0;
}
