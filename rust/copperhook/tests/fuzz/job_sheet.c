/*
 * A fuzzer of the C entries that read and write job sheets, for clang's libFuzzer:
 *
 *     clang -g -O1 -fsanitize=fuzzer,address,undefined -Iinclude rust/copperhook/tests/fuzz/job_sheet.c target/staticlib/libcopperhook.a -o job_sheet_fuzz
 *     ./job_sheet_fuzz -max_len=600 -max_total_time=300 CORPUS
 *
 * The archive is not instrumented, so coverage is that of the reader below, written from document 02; every answer of the library is held to it, and
 * guard words stand around every list. Of an accepted sheet whose job is written, the bytes must be those of the sheet.
 */
#include "copperhook.h"
#include <stdio.h>
#include <stdlib.h>
#include <string.h>

enum { MOST = 64, GUARD = 4 };

static void check(int good, const char *what) {
    if (!good) {
        fprintf(stderr, "job_sheet_fuzz: %s\n", what);
        abort();
    }
}

struct record {
    size_t refusal, kind, next, first, second;
    uint64_t bits;
};

static uint64_t word(const uint8_t *bytes, size_t width) {
    uint64_t x = 0;
    for (size_t i = width; i-- > 0;) x = x << 8 | bytes[i];
    return x;
}

/* Document 02's record at a place, behind the kind read last. */
static struct record model(const uint8_t *sheet, size_t len, size_t place, size_t last) {
    static const size_t body[6] = {0, 3, 12, 8, 4, 0};
    struct record r = {19, 0, 0, 0, 0, 0};
    if (place >= len) return r;
    size_t kind = sheet[place];
    const uint8_t *at = sheet + place + 1;
    if (kind < 1 || kind > 5) return r;
    if (last == 0 ? kind != 1 : kind == 1) return r;
    if (last >= 5 || (last > 1 && kind < last)) return r;
    if (len - place - 1 < body[kind]) return r;
    if (kind == 5 && len - place > 1) {
        r.refusal = 20;
        return r;
    }
    r.refusal = 0;
    r.kind = kind;
    r.next = place + 1 + body[kind];
    if (kind == 1) r.first = word(at, 2), r.second = word(at + 2, 1);
    if (kind == 2) r.first = word(at, 2), r.second = word(at + 2, 2), r.bits = word(at + 4, 8);
    if (kind == 3) r.bits = word(at, 8);
    if (kind == 4) r.first = word(at, 2), r.second = word(at + 2, 2);
    return r;
}

static struct record library(const uint8_t *sheet, size_t len, size_t place, size_t last) {
    struct record r = {0, 0, 0, 0, 0, 0};
    double value = 0.0;
    r.refusal = copperhook_sheet_read(sheet, len, place, last, &r.kind, &r.next, &r.first, &r.second, &value);
    memcpy(&r.bits, &value, 8);
    return r;
}

static int same(struct record a, struct record b) {
    return a.refusal == b.refusal && a.kind == b.kind && a.next == b.next && a.first == b.first && a.second == b.second && a.bits == b.bits;
}

struct numbers {
    size_t before[GUARD], list[MOST], after[GUARD];
};
struct doubles {
    uint64_t before[GUARD];
    double list[MOST];
    uint64_t after[GUARD];
};

int LLVMFuzzerTestOneInput(const uint8_t *data, size_t size) {
    if (size < 2) return 0;
    /* the first two bytes choose a place and a kind read last; the others are the sheet, in memory of its own length */
    size_t len = size - 2, place = 0, last = 0, edges = 0, betas = 0, pairs = 0;
    uint8_t *sheet = malloc(len + 1);
    memcpy(sheet, data + 2, len);
    struct record r;
    check(same(library(sheet, len, data[0], data[1] % 8), model(sheet, len, data[0], data[1] % 8)), "a record at any place");
    do {
        r = model(sheet, len, place, last);
        check(same(library(sheet, len, place, last), r), "a record behind the one before");
        edges += r.kind == 2, betas += r.kind == 3, pairs += r.kind == 4;
        place = r.next, last = r.kind;
    } while (r.refusal == 0 && r.kind != 5);
    struct numbers a, b, us, vs;
    struct doubles m, x;
    struct numbers *lists[4] = {&a, &b, &us, &vs};
    for (int i = 0; i < 4; i++) memset(lists[i], 0xa5, sizeof a);
    memset(&m, 0xa5, sizeof m), memset(&x, 0xa5, sizeof x);
    size_t n = 7, floor = 7, e = 7, p = 7, nb = 7;
    size_t number = copperhook_sheet_job(sheet, len, &n, &floor, a.list, MOST, b.list, MOST, m.list, MOST, us.list, MOST, vs.list, MOST, x.list, MOST, &e, &p, &nb);
    size_t expected = r.refusal ? r.refusal : edges > MOST || betas > MOST || pairs > MOST ? 12 : 0;
    check(number == expected, "a whole sheet's number");
    size_t held = number ? 0 : edges;
    uint8_t full[sizeof a];
    memset(full, 0xa5, sizeof full);
    check(!memcmp(a.before, full, sizeof a.before) && !memcmp(a.list + held, full, (MOST - held + GUARD) * sizeof(size_t)), "a list behind its front");
    check(!memcmp(m.before, full, sizeof m.before) && !memcmp(m.list + held, full, (MOST - held + GUARD) * sizeof(double)), "magnitudes behind their front");
    if (number == 0) {
        check(e == edges && p == pairs && nb == betas, "counts");
        uint8_t out[6000];
        memset(out, 0xa5, sizeof out);
        size_t bytes = 7;
        size_t wrote = copperhook_sheet_write(n, floor, a.list, e, b.list, e, m.list, e, us.list, p, vs.list, p, x.list, nb, out, sizeof out, &bytes);
        check(wrote <= 8 || wrote == 21, "a writer's number");
        if (wrote == 0) check(bytes == len && !memcmp(out, sheet, len) && out[len] == 0xa5, "a sheet written again");
        else check(bytes == 7 && out[0] == 0xa5, "a refused sheet");
    } else {
        check(n == 7 && floor == 7 && e == 7 && p == 7 && nb == 7, "references of a refused sheet");
    }
    free(sheet);
    return 0;
}
