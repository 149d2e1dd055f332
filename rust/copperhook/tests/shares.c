/* The shares of two lists, which are then lent with lengths that do not add up. */
#include "copperhook.h"
#include <inttypes.h>
#include <stdio.h>

static void print(size_t answer, const uint64_t *shares) {
    printf("%zu", answer);
    for (size_t i = 0; i < 8; i++)
        printf(" %" PRIu64, shares[i]);
    printf("\n");
}

int main(void) {
    const double stored[6] = {1.0, -0.0, -0.25, 0.5, 0.0, 0.125};
    const size_t lengths[2] = {2, 4}, more[2] = {2, 5};
    uint64_t shares[8] = {0};
    size_t answer = copperhook_shares(stored, 6, lengths, 2, shares);
    print(answer, shares);
    for (size_t i = 0; i < 8; i++)
        shares[i] = 7;
    answer = copperhook_shares(stored, 6, more, 2, shares);
    print(answer, shares);
    return 0;
}
