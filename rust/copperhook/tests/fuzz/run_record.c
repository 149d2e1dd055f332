/*
 * A fuzzer of the C entries that read run records, for clang's libFuzzer:
 *
 *     clang -g -O1 -fsanitize=fuzzer,address,undefined -Iinclude rust/copperhook/tests/fuzz/run_record.c target/staticlib/libcopperhook.a -o run_record_fuzz
 *     ./run_record_fuzz -max_len=700 -max_total_time=300 CORPUS
 *
 * The archive is not instrumented, so coverage is that of the reader below, written from document 02; every answer of the library is held to it,
 * and guard bytes stand around every list that is written. Two records are joined in either order, and the totals of both are taken.
 * With RUN_RECORD_PRINT in the environment each pair of records is printed in hexadecimal digits, as rust/compare/tests/records.txt has them.
 */
#include "copperhook.h"
#include <stdio.h>
#include <stdlib.h>
#include <string.h>

enum { GUARD = 16, HEAD = 32, ROW = 28 };
typedef unsigned __int128 whole;

static void check(int good, const char *what) {
    if (!good) {
        fprintf(stderr, "run_record_fuzz: %s\n", what);
        abort();
    }
}

struct record {
    const uint8_t *bytes;
    size_t len;
    uint64_t seed, start, end, samples, betas, pairs;
};

static uint64_t word(const uint8_t *bytes, size_t width) {
    uint64_t x = 0;
    for (size_t i = width; i-- > 0;) x = x << 8 | bytes[i];
    return x;
}

static void put(uint8_t *bytes, size_t width, uint64_t x) {
    for (size_t i = 0; i < width; i++, x >>= 8) bytes[i] = (uint8_t)x;
}

static struct record headed(const uint8_t *bytes, size_t len) {
    struct record r = {bytes, len, 0, 0, 0, 0, 0, 0};
    if (len < HEAD) return r;
    r.seed = word(bytes + 1, 8), r.start = word(bytes + 9, 8), r.end = word(bytes + 17, 8);
    r.samples = word(bytes + 25, 4), r.betas = bytes[29], r.pairs = word(bytes + 30, 2);
    return r;
}

static double sum(const struct record *r, size_t row, size_t at) {
    uint64_t bits = word(r->bytes + HEAD + ROW * row + at, 8);
    double x;
    memcpy(&x, &bits, 8);
    return x;
}

/* 26: what is no record. */
static int bad(const struct record *r) {
    if (r->len < HEAD || r->bytes[0] != 17) return 1;
    if (r->betas > 64 || r->pairs > 256 || r->end < r->start) return 1;
    if ((whole)(r->end - r->start) * r->samples > (whole)1 << 32) return 1;
    size_t each = r->betas * r->pairs;
    if ((whole)r->len != HEAD + (whole)(r->end - r->start) * ROW * each) return 1;
    for (size_t row = 0; row < (r->len - HEAD) / ROW; row++) {
        const uint8_t *at = r->bytes + HEAD + ROW * row;
        size_t place = row % each;
        if (at[0] != 18 || word(at + 1, 8) != r->start + row / each) return 1;
        if (at[9] != place / r->pairs || word(at + 10, 2) != place % r->pairs) return 1;
        double squares = sum(r, row, 12), fourths = sum(r, row, 20);
        if (!(0.0 <= fourths && fourths <= squares && squares <= (double)r->samples)) return 1;
        if (word(at + 12, 8) >> 63 || word(at + 20, 8) >> 63) return 1;
    }
    return 0;
}

/* Whether what is around some bytes is as it was. */
static int guarded(const uint8_t *memory, size_t len) {
    for (size_t i = 0; i < GUARD; i++)
        if (memory[i] != 0xa5 || memory[GUARD + len + i] != 0xa5) return 0;
    return 1;
}

static uint8_t *lent(size_t len) {
    uint8_t *memory = malloc(len + 2 * GUARD);
    memset(memory, 0xa5, len + 2 * GUARD);
    return memory;
}

static void try_join(const struct record *one, const struct record *two, size_t room) {
    uint8_t *memory = lent(room), *expected = lent(room);
    size_t number = copperhook_record_join(one->bytes, one->len, two->bytes, two->len, memory + GUARD, room), wanted = 0;
    const struct record *early = one->end == two->start ? one : two, *late = early == one ? two : one;
    if (bad(one) || bad(two)) wanted = 26;
    else if (one->seed != two->seed || one->samples != two->samples || one->betas != two->betas || one->pairs != two->pairs) wanted = 27;
    else if (early->end != late->start) wanted = 27;
    else if ((whole)(late->end - early->start) * one->samples > (whole)1 << 32) wanted = 11;
    else if (room != one->len + two->len - HEAD) wanted = 12;
    else {
        memcpy(expected + GUARD, early->bytes, early->len);
        put(expected + GUARD + 17, 8, late->end);
        memcpy(expected + GUARD + early->len, late->bytes + HEAD, late->len - HEAD);
    }
    check(number == wanted, "a join's number");
    check(guarded(memory, room) && !memcmp(memory, expected, room + 2 * GUARD), "a joined record");
    free(memory), free(expected);
}

static void try_totals(const struct record *r, size_t more) {
    size_t sums = r->betas * r->pairs <= 64 * 256 ? r->betas * r->pairs : 0, lengths[2] = {sums + (more & 1), sums + (more >> 1 & 1)};
    uint8_t *memory[2] = {lent(8 * lengths[0]), lent(8 * lengths[1])};
    size_t count = 7;
    size_t number = copperhook_record_totals(r->bytes, r->len, (double *)(memory[0] + GUARD), lengths[0], (double *)(memory[1] + GUARD), lengths[1], &count);
    size_t wanted = bad(r) ? 26 : more & 3 ? 12 : 0;
    check(number == wanted, "a number of totals");
    check(count == (wanted ? 7 : (r->end - r->start) * r->samples), "a count");
    for (int which = 0; which < 2; which++) {
        uint8_t *expected = lent(8 * lengths[which]);
        for (size_t place = 0; wanted == 0 && place < sums; place++) {
            double x = 0.0;
            for (size_t row = place; row < (r->len - HEAD) / ROW; row += sums) x += sum(r, row, which ? 20 : 12);
            memcpy(expected + GUARD + 8 * place, &x, 8);
        }
        check(!memcmp(memory[which], expected, 8 * lengths[which] + 2 * GUARD), "totals");
        free(memory[which]), free(expected);
    }
}

/* Gives the rows the kinds and numbers that the head asks for, and the head an end as far as its rows reach: what else is wrong stays. */
static void mend(uint8_t *bytes, size_t len) {
    struct record r = headed(bytes, len);
    size_t each = r.betas * r.pairs;
    if (len < HEAD || each == 0) return;
    size_t rows = (len - HEAD) / ROW;
    put(bytes + 17, 8, r.start + rows / each);
    for (size_t row = 0; row < rows; row++) {
        uint8_t *at = bytes + HEAD + ROW * row;
        at[0] = 18, put(at + 1, 8, r.start + row / each), put(at + 9, 1, row % each / r.pairs), put(at + 10, 2, row % each % r.pairs);
    }
}

static void print(const struct record *r) {
    for (size_t i = 0; i < r->len; i++) printf("%02x", r->bytes[i]);
}

int LLVMFuzzerTestOneInput(const uint8_t *data, size_t size) {
    if (size < 4) return 0;
    /* the first four bytes choose where the second record begins, what is mended, how long the buffers are, and whether heads are alike */
    size_t len = size - 4, cut = (data[0] | (size_t)(data[1] & 3) << 8) % (len + 1);
    uint8_t *first = malloc(cut + 1), *second = malloc(len - cut + 1);
    memcpy(first, data + 4, cut), memcpy(second, data + 4 + cut, len - cut);
    if (data[2] & 1) mend(first, cut);
    if (data[3] & 1 && cut >= HEAD && len - cut >= HEAD) {
        memcpy(second, first, 9), memcpy(second + 25, first + 25, 7);
        memcpy(second + 9, first + 17, 8);
    }
    if (data[2] & 2) mend(second, len - cut);
    struct record one = headed(first, cut), two = headed(second, len - cut);
    if (getenv("RUN_RECORD_PRINT")) print(&one), printf(" "), print(&two), printf("\n");
    size_t room = len >= HEAD ? len - HEAD : 0;
    room = data[2] & 4 ? room + 1 : data[2] & 8 && room ? room - 1 : room;
    try_join(&one, &two, room), try_join(&two, &one, room);
    try_totals(&one, data[2] >> 4), try_totals(&two, data[2] >> 6);
    free(first), free(second);
    return 0;
}
