/* The sheet of a free square strip, 2 by 2, with factors 2 and 1/2 in both configurations: one line for each pair, its label, its ends and
   the bits of its correlation; in the second configuration from pair records. Then how far they are from the exact ones at most, where that
   is known. Written as a C program would use the library. */
#include "copperhook.h"

#include <inttypes.h>
#include <stdio.h>
#include <stdlib.h>
#include <string.h>

struct strip {
    size_t a[16], b[16], edges, n;
    double m[16];
    size_t us[COPPERHOOK_STANDARD_PAIRS], vs[COPPERHOOK_STANDARD_PAIRS], pairs;
    struct copperhook_pair records[COPPERHOOK_STANDARD_PAIRS];
    uint8_t labels[COPPERHOOK_LABEL_BYTES];
};

static size_t make(struct strip *s) {
    size_t refused = copperhook_strip_n(COPPERHOOK_SQUARE, 2, 2, false, &s->n);
    if (!refused)
        refused = copperhook_raw_edges(COPPERHOOK_SQUARE, 2, 2, false, s->a, 16, s->b, 16, s->m, 16, &s->edges);
    if (!refused)
        refused = copperhook_pairs(COPPERHOOK_SQUARE, 2, 2, false, s->us, COPPERHOOK_STANDARD_PAIRS, s->vs, COPPERHOOK_STANDARD_PAIRS,
                                   s->labels, COPPERHOOK_LABEL_BYTES, &s->pairs);
    for (size_t i = 0; !refused && i < s->pairs; i++)
        s->records[i] = (struct copperhook_pair){s->us[i], s->vs[i]};
    return refused;
}

static size_t print_bound(const struct strip *s, const double *factors) {
    bool known;
    double bound;
    size_t refused = copperhook_error_bound(s->n, 0, s->a, s->edges, s->b, s->edges, s->m, s->edges, factors, s->edges, &known, &bound);
    if (!refused && known)
        printf("within %a\n", bound);
    return refused;
}

static size_t print_sheet(const struct strip *s, bool as_records, const double *factors, double *work, size_t room) {
    double results[COPPERHOOK_STANDARD_PAIRS];
    const char *label = (const char *)s->labels;
    size_t refused;
    if (as_records)
        refused = copperhook_correlations_of(s->n, 0, s->a, s->edges, s->b, s->edges, s->m, s->edges, s->records, s->pairs, factors,
                                             s->edges, COPPERHOOK_BLOCK, results, s->pairs, work, room);
    else
        refused = copperhook_correlations(s->n, 0, s->a, s->edges, s->b, s->edges, s->m, s->edges, s->us, s->pairs, s->vs, s->pairs,
                                          factors, s->edges, COPPERHOOK_BLOCK, results, s->pairs, work, room);
    if (refused)
        return refused;
    for (size_t i = 0; i < s->pairs; i++, label += strlen(label) + 1) {
        uint64_t bits;
        memcpy(&bits, &results[i], sizeof bits);
        printf("%s %zu %zu %016" PRIx64 "\n", label, s->us[i], s->vs[i], bits);
    }
    return print_bound(s, factors);
}

int main(void) {
    struct strip s;
    double factors[4] = {2.0, 2.0, 2.0, 2.0};
    double *work;
    size_t room, refused = make(&s);
    if (!refused)
        refused = copperhook_room(s.n, 0, s.a, s.edges, s.b, s.edges, s.m, s.edges, s.us, s.pairs, s.vs, s.pairs, COPPERHOOK_BLOCK,
                                  &room);
    if (refused) {
        fprintf(stderr, "refused by %zu\n", refused);
        return 1;
    }
    work = malloc(room * sizeof *work);
    if (!work)
        return 1;
    refused = print_sheet(&s, false, factors, work, room);
    factors[3] = 0.5; /* edge 2-3, the free one */
    if (!refused)
        refused = print_sheet(&s, true, factors, work, room);
    free(work);
    return refused ? 1 : 0;
}
