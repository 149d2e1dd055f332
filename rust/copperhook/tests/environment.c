/* A coupling of the least double, before and after the floating-point environment is set right. Linked with -ffast-math the first is 0. */
#include "copperhook.h"

#include <fenv.h>
#include <inttypes.h>
#include <stdio.h>
#include <string.h>

static void print_coupling(void) {
    const size_t a[1] = {0}, b[1] = {1};
    const double m[1] = {1.0}, betas[1] = {0x1p-1074};
    double result[1] = {7.0};
    uint64_t bits;
    size_t refused = copperhook_couplings(2, a, 1, b, 1, m, 1, betas, 1, result, 1);
    memcpy(&bits, result, sizeof bits);
    printf("%zu %016" PRIx64 "\n", refused, bits);
}

int main(void) {
    print_coupling();
    fesetenv(FE_DFL_ENV);
    print_coupling();
    return 0;
}
