/* A run of three chunks as a record, in two parts that are joined, and the totals of both: they are those of copperhook_sample. */
#include "copperhook.h"
#include <stdio.h>
#include <string.h>

enum { HEAD = 32, ROW = 28, SUMS = 4 };

static const size_t a[3] = {0, 1, 0}, b[3] = {1, 2, 2}, us[2] = {0, 0}, vs[2] = {1, 2};
static const double m[3] = {1.0, 0.5, 2.0}, betas[2] = {0.25, 1.0};
static double work[64];

static size_t recorded(uint64_t from, uint64_t to, uint8_t *record, size_t bytes) {
    return copperhook_house_sample_record(3, 0, a, 3, b, 3, m, 3, us, 2, vs, 2, betas, 2, COPPERHOOK_BLOCK, 7, from, to, 4, record, bytes, work, 64);
}

int main(void) {
    uint8_t early[HEAD + 2 * SUMS * ROW], late[HEAD + SUMS * ROW], whole[HEAD + 3 * SUMS * ROW], joined[sizeof whole];
    double sums[2][2 * SUMS];
    size_t count[2] = {0, 0};
    printf("%zu %zu %zu\n", recorded(2, 4, early, sizeof early), recorded(4, 5, late, sizeof late), recorded(2, 5, whole, sizeof whole));
    printf("%zu", copperhook_record_join(late, sizeof late, early, sizeof early, joined, sizeof joined));
    printf(" %d\n", memcmp(joined, whole, sizeof whole));
    printf("%zu", copperhook_record_totals(joined, sizeof joined, sums[0], SUMS, sums[0] + SUMS, SUMS, &count[0]));
    copperhook_house_sample(3, 0, a, 3, b, 3, m, 3, us, 2, vs, 2, betas, 2, COPPERHOOK_BLOCK, 7, 2, 5, 4, sums[1], SUMS, sums[1] + SUMS, SUMS, work, 64, &count[1]);
    printf(" %d %zu %zu\n", memcmp(sums[0], sums[1], sizeof sums[0]), count[0], count[1]);
    /* a byte short; chunks that are missing; a sum of -0.0 */
    printf("%zu", copperhook_record_join(early, sizeof early - 1, late, sizeof late, joined, sizeof joined));
    printf(" %zu", copperhook_record_join(whole, sizeof whole, late, sizeof late, joined, sizeof joined));
    late[HEAD + 19] = 0x80;
    memset(late + HEAD + 12, 0, 7);
    printf(" %zu\n", copperhook_record_totals(late, sizeof late, sums[0], SUMS, sums[0] + SUMS, SUMS, &count[0]));
    return 0;
}
