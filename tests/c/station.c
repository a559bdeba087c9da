/* The station's calls and the benchmark's, tried from C beside reference.c: every call on every refusal that can reach it, on random groups
 * whole and damaged, new and old (W-204), and for long runs on one group. Guard bytes stand before each buffer and an unmapped page after it. */
#define _DEFAULT_SOURCE
#include "bench_api.h"
#include "forecaster.h"
#include "reference.h"

#include <stdio.h>
#include <stdlib.h>
#include <string.h>
#include <sys/mman.h>
#include <unistd.h>

#define GUARD 64
#define GUARD_BYTE 0xA5
#define MOST (FORECASTER_GROUP_LENGTH(48) + 8)
#define ROOM 25 /* of command 15, which an old group lacks */
#define UNTOUCHED INT64_C(0x5AA5DEADBEEF1234)
#define ONE UINT64_C(0x3FF0000000000000)  /* the bits of 1.0 */
#define HALF UINT64_C(0x3FE0000000000000) /* and of 0.5 */

enum { EVEN = 0x40, RELATIVE = 0x08 }; /* bits of the model byte: ties to even (W-211), relative errors (W-205) */

static unsigned long calls, failures;
static const char *what = "";

static void expect(int holds, const char *text) {
    if (holds)
        return;
    failures++;
    fprintf(stderr, "%s: %s (call %lu)\n", what, text, calls);
    if (failures > 20)
        exit(1);
}

/* ---- the calls, and the refusals that each can give and has given */
enum call { STEP, MISSING, SWITCH, FORECAST, BATCH, FORECASTS, WEIGHT, WEIGHT_GROUPS, RELATIVE_VARIANCE, BATCH_ON, FORECASTS_ON, CALLS };
static const char *const names[CALLS] = {"step",   "missing",       "switch",            "forecast", "batch",       "forecasts",
                                         "weight", "weight groups", "relative variance", "batch on", "forecasts on"};
#define BIT(code) (1u << (code))
#define OF_A_GROUP (BIT(11) - BIT(2) + BIT(16) + BIT(17)) /* 2 to 10, 16 and 17 */
#define REWRITTEN (OF_A_GROUP | BIT(12))                  /* an old group without room */
#define OF_A_READING (BIT(13) | BIT(14) | BIT(15))
static const unsigned refusals[CALLS] = {REWRITTEN | OF_A_READING, REWRITTEN | BIT(14) | BIT(15),        REWRITTEN,
                                         OF_A_GROUP | BIT(11),     OF_A_GROUP | BIT(12) | OF_A_READING, OF_A_GROUP | BIT(11) | BIT(12),
                                         OF_A_GROUP | BIT(11),     OF_A_GROUP | BIT(11) | BIT(12),
                                         OF_A_GROUP | BIT(11) | BIT(12) | BIT(18) | BIT(19),
                                         OF_A_GROUP | BIT(12) | BIT(20) | OF_A_READING,
                                         OF_A_GROUP | BIT(11) | BIT(12) | BIT(20)};
static unsigned long given[CALLS][256];

static int answered(enum call call, uint8_t got, uint8_t code) {
    calls++;
    given[call][got]++;
    if (got != code) {
        failures++;
        fprintf(stderr, "%s: %s returned %d and not %d (call %lu)\n", what, names[call], got, code, calls);
        if (failures > 20)
            exit(1);
    }
    return got;
}

static void all_given(void) {
    what = "refusals";
    for (int call = 0; call < CALLS; call++)
        for (int code = 0; code < 256; code++) {
            int can = code == 0 || (code <= FORECASTER_NO_CHECKPOINT && refusals[call] & BIT(code));
            if (can != (given[call][code] != 0)) {
                failures++;
                fprintf(stderr, "%s: %d was %s\n", names[call], code, can ? "never given" : "given");
            }
        }
}

/* ---- buffers: the last byte of a buffer is the last of its pages, and the page after it can't be touched */
struct pages {
    uint8_t *end;
};

static struct pages map_pages(size_t size) {
    size_t page = (size_t)sysconf(_SC_PAGESIZE), used = (size + GUARD + page - 1) / page * page;
    uint8_t *start = mmap(NULL, used + page, PROT_READ | PROT_WRITE, MAP_PRIVATE | MAP_ANONYMOUS, -1, 0);
    if (start == MAP_FAILED || mprotect(start + used, page, PROT_NONE) != 0) {
        perror("pages");
        exit(1);
    }
    return (struct pages){start + used};
}

static void *lend(struct pages pages, const void *bytes, size_t length) {
    uint8_t *at = pages.end - length;
    memset(at - GUARD, GUARD_BYTE, GUARD);
    if (length > 0)
        memcpy(at, bytes, length);
    return at;
}

static void expect_bytes(const void *lent, const void *bytes, size_t length) {
    const uint8_t *at = lent;
    for (int i = 1; i <= GUARD; i++)
        expect(at[-i] == GUARD_BYTE, "a byte before the buffer was written");
    expect(length == 0 || memcmp(at, bytes, length) == 0, "a buffer holds other bytes than expected");
}

enum { MOST_CELLS = 600, MOST_CHANGES = 64 };
static struct pages groups, reference_groups, number_cells, reading_cells, skip_cells, repeat_cells;

/* the number's cell between two guards */
struct cell {
    int64_t before, value, after;
};

static struct cell fresh(void) {
    struct cell c = {~UNTOUCHED, UNTOUCHED, ~UNTOUCHED};
    return c;
}

static void expect_cell(struct cell c, int64_t value) {
    expect(c.before == ~UNTOUCHED && c.after == ~UNTOUCHED, "a byte beside the lent number was written");
    expect(c.value == value, "the lent number is not the one expected");
}

/* ---- one call on a lent copy of the bytes, and the reference on another; what the group then holds goes back into the bytes */
static int64_t number; /* that the last step or forecast gave */

static void take_back(uint8_t *bytes, const uint8_t *at, const uint8_t *theirs, size_t length, int refused) {
    expect_bytes(at, theirs, length);
    if (refused)
        expect(length == 0 || memcmp(at, bytes, length) == 0, "a refused call wrote into the group");
    if (length > 0)
        memcpy(bytes, theirs, length);
}

static int try_step(uint8_t *bytes, size_t length, int32_t reading) {
    uint8_t *at = lend(groups, bytes, length), *theirs = lend(reference_groups, bytes, length);
    struct cell c = fresh();
    int64_t e = UNTOUCHED;
    uint8_t code = ref_step(theirs, length, reading, &e);
    int got = answered(STEP, forecaster_step(at, length, reading, &c.value), code);
    take_back(bytes, at, theirs, length, got);
    expect_cell(c, e);
    number = c.value;
    return got;
}

static int try_missing(uint8_t *bytes, size_t length) {
    uint8_t *at = lend(groups, bytes, length), *theirs = lend(reference_groups, bytes, length);
    uint8_t code = ref_missing(theirs, length);
    int got = answered(MISSING, forecaster_missing(at, length), code);
    take_back(bytes, at, theirs, length, got);
    return got;
}

static int try_switch(uint8_t *bytes, size_t length) {
    uint8_t *at = lend(groups, bytes, length), *theirs = lend(reference_groups, bytes, length);
    uint8_t code = ref_switch_to_even(theirs, length);
    int got = answered(SWITCH, forecaster_switch_to_even(at, length), code);
    take_back(bytes, at, theirs, length, got);
    return got;
}

static int try_forecast(const uint8_t *bytes, size_t length, uint32_t horizon) {
    const uint8_t *at = lend(groups, bytes, length), *theirs = lend(reference_groups, bytes, length);
    struct cell c = fresh();
    int64_t f = UNTOUCHED;
    uint8_t code = ref_forecast(theirs, length, horizon, &f);
    int got = answered(FORECAST, forecaster_forecast(at, length, horizon, &c.value), code);
    expect_bytes(at, bytes, length);
    expect_cell(c, f);
    number = c.value;
    return got;
}

/* cells that nobody has written */
static int64_t *untouched(int64_t *cells, size_t room) {
    for (size_t i = 0; i < room; i++)
        cells[i] = UNTOUCHED + (int64_t)i;
    return lend(number_cells, cells, room * sizeof *cells);
}

static int try_batch(const uint8_t *bytes, size_t length, const int32_t *readings, size_t n, size_t room) {
    int64_t expected[MOST_CELLS];
    const uint8_t *at = lend(groups, bytes, length), *theirs = lend(reference_groups, bytes, length);
    const int32_t *read = lend(reading_cells, readings, n * sizeof *readings);
    int64_t *cells = untouched(expected, room);
    size_t taken, got_taken[3] = {77, 77, 77};
    uint8_t code = ref_batch(theirs, length, readings, n, expected, room, &taken);
    int got = answered(BATCH, bench_batch(at, length, read, n, cells, room, &got_taken[1]), code);
    expect_bytes(at, bytes, length);
    expect_bytes(read, readings, n * sizeof *readings);
    expect_bytes(cells, expected, room * sizeof *expected);
    expect(got_taken[0] == 77 && got_taken[2] == 77, "a byte beside the readings taken was written");
    expect(got_taken[1] == taken, "the readings taken are not those expected");
    return got;
}

static int try_forecasts(const uint8_t *bytes, size_t length, uint32_t horizon, size_t room) {
    int64_t expected[MOST_CELLS];
    const uint8_t *at = lend(groups, bytes, length), *theirs = lend(reference_groups, bytes, length);
    int64_t *cells = untouched(expected, room);
    uint8_t code = ref_forecasts(theirs, length, horizon, expected, room);
    int got = answered(FORECASTS, bench_forecasts(at, length, horizon, cells, room), code);
    expect_bytes(at, bytes, length);
    expect_bytes(cells, expected, room * sizeof *expected);
    return got;
}

static int try_weight(const uint8_t *bytes, size_t length, uint32_t horizon) {
    const uint8_t *at = lend(groups, bytes, length), *theirs = lend(reference_groups, bytes, length);
    uint64_t w = UNTOUCHED, got_w[3] = {UNTOUCHED, UNTOUCHED, UNTOUCHED};
    uint8_t code = ref_weight(theirs, length, horizon, &w);
    int got = answered(WEIGHT, bench_weight(at, length, horizon, &got_w[1]), code);
    expect_bytes(at, bytes, length);
    expect(got_w[0] == UNTOUCHED && got_w[2] == UNTOUCHED, "a byte beside the weight was written");
    expect(got_w[1] == w, "the weight is not the one expected");
    return got;
}

/* Where the groups are given, 2^32 and they are the weight of the same horizon. */
static int try_groups(const uint8_t *bytes, size_t length, uint32_t horizon, size_t room) {
    int64_t found[MOST_CELLS];
    uint64_t expected[MOST_CELLS], sum = UINT64_C(1) << 32, weight = 0;
    const uint8_t *at = lend(groups, bytes, length), *theirs = lend(reference_groups, bytes, length);
    uint64_t *cells = (uint64_t *)untouched(found, room);
    memcpy(expected, found, room * sizeof *expected);
    uint8_t code = ref_weight_groups(theirs, length, horizon, expected, room);
    int got = answered(WEIGHT_GROUPS, bench_weight_groups(at, length, horizon, cells, room), code);
    expect_bytes(at, bytes, length);
    expect_bytes(cells, expected, room * sizeof *expected);
    if (got)
        return got;
    for (int k = 0; k < (bytes[2] ? bytes[2] : 1); k++)
        sum += cells[k];
    expect(bench_weight(at, length, horizon, &weight) == 0 && weight == sum, "2^32 and the groups are not the weight");
    return got;
}

/* The doubles are compared by their bits. Those that nobody has written are numbers too. */
static int try_relative(const uint8_t *bytes, size_t length, uint32_t horizon, uint64_t sigma2, size_t room) {
    int64_t found[MOST_CELLS], beside[3] = {UNTOUCHED, UNTOUCHED, UNTOUCHED};
    double expected[MOST_CELLS], value[3], got_value[3];
    const uint8_t *at = lend(groups, bytes, length), *theirs = lend(reference_groups, bytes, length);
    double *cells = (double *)untouched(found, room);
    memcpy(expected, found, room * sizeof *expected);
    memcpy(value, beside, sizeof value);
    memcpy(got_value, beside, sizeof got_value);
    uint8_t code = ref_relative_variance(theirs, length, horizon, sigma2, &value[1], expected, room);
    int got = answered(RELATIVE_VARIANCE, bench_relative_variance(at, length, horizon, sigma2, &got_value[1], cells, room), code);
    expect_bytes(at, bytes, length);
    expect_bytes(cells, expected, room * sizeof *expected);
    expect(memcmp(got_value, value, sizeof value) == 0, "the variance is not the one expected, or a byte beside it was written");
    return got;
}

/* the two lists of a calendar (W-208) */
struct calendar {
    uint64_t skipped[MOST_CHANGES], repeated[MOST_CHANGES];
    size_t skips, repeats;
};

static const struct calendar no_changes;

static int try_batch_on(const uint8_t *bytes, size_t length, const struct calendar *on, const int32_t *readings, size_t n, size_t room) {
    int64_t expected[MOST_CELLS];
    const uint8_t *at = lend(groups, bytes, length), *theirs = lend(reference_groups, bytes, length);
    const uint64_t *skipped = lend(skip_cells, on->skipped, on->skips * sizeof *skipped);
    const uint64_t *repeated = lend(repeat_cells, on->repeated, on->repeats * sizeof *repeated);
    const int32_t *read = lend(reading_cells, readings, n * sizeof *readings);
    int64_t *cells = untouched(expected, room);
    size_t taken, got_taken[3] = {77, 77, 77};
    uint8_t code = ref_batch_on(theirs, length, on->skipped, on->skips, on->repeated, on->repeats, readings, n, expected, room, &taken);
    int got = answered(BATCH_ON, bench_batch_on(at, length, skipped, on->skips, repeated, on->repeats, read, n, cells, room, &got_taken[1]), code);
    expect_bytes(at, bytes, length);
    expect_bytes(skipped, on->skipped, on->skips * sizeof *skipped);
    expect_bytes(repeated, on->repeated, on->repeats * sizeof *repeated);
    expect_bytes(read, readings, n * sizeof *readings);
    expect_bytes(cells, expected, room * sizeof *expected);
    expect(got_taken[0] == 77 && got_taken[2] == 77, "a byte beside the readings taken was written");
    expect(got_taken[1] == taken, "the readings taken are not those expected");
    return got;
}

static int try_forecasts_on(const uint8_t *bytes, size_t length, const struct calendar *on, uint32_t horizon, size_t room) {
    int64_t expected[MOST_CELLS];
    const uint8_t *at = lend(groups, bytes, length), *theirs = lend(reference_groups, bytes, length);
    const uint64_t *skipped = lend(skip_cells, on->skipped, on->skips * sizeof *skipped);
    const uint64_t *repeated = lend(repeat_cells, on->repeated, on->repeats * sizeof *repeated);
    int64_t *cells = untouched(expected, room);
    uint8_t code = ref_forecasts_on(theirs, length, on->skipped, on->skips, on->repeated, on->repeats, horizon, expected, room);
    int got = answered(FORECASTS_ON, bench_forecasts_on(at, length, skipped, on->skips, repeated, on->repeats, horizon, cells, room), code);
    expect_bytes(at, bytes, length);
    expect_bytes(skipped, on->skipped, on->skips * sizeof *skipped);
    expect_bytes(repeated, on->repeated, on->repeats * sizeof *repeated);
    expect_bytes(cells, expected, room * sizeof *expected);
    return got;
}

/* all calls on bytes that each must refuse by the same number, and leave as they are */
static void all_refuse(const uint8_t *bytes, size_t length, int code) {
    uint8_t copy[MOST];
    memcpy(copy, bytes, length);
    expect(try_step(copy, length, 5) == code, "a step was not refused by this number");
    expect(try_missing(copy, length) == code, "a missing reading was not refused by this number");
    expect(try_switch(copy, length) == code, "a switch was not refused by this number");
    expect(try_forecast(copy, length, 1) == code, "a forecast was not refused by this number");
    expect(memcmp(copy, bytes, length) == 0, "a refused call wrote into the group");
    const int32_t readings[] = {5, 6};
    expect(try_batch(bytes, length, readings, 2, 2) == code, "a batch was not refused by this number");
    expect(try_forecasts(bytes, length, 2, 2) == code, "a call for all horizons was not refused by this number");
    expect(try_weight(bytes, length, 1) == code, "a weight was not refused by this number");
    expect(try_groups(bytes, length, 1, 48) == code, "the groups of a weight were not refused by this number");
    expect(try_relative(bytes, length, 1, 0, 1) == code, "a relative variance was not refused by this number");
    expect(try_batch_on(bytes, length, &no_changes, readings, 2, 2) == code, "a batch on a calendar was not refused by this number");
    expect(try_forecasts_on(bytes, length, &no_changes, 2, 2) == code, "all horizons on a calendar were not refused by this number");
}

/* the calls for a horizon, on a group that each must take, but for the variance that its errors do not have (W-205) */
static void all_foresee(const uint8_t *bytes, size_t length) {
    expect(try_forecast(bytes, length, 7) == 0, "a forecast was refused");
    expect(try_forecasts(bytes, length, 7, 7) == 0, "a call for all horizons was refused");
    int relative = bytes[1] & RELATIVE, other = FORECASTER_OUT_OF_PLACE;
    expect(try_weight(bytes, length, 7) == (relative ? other : 0), "a weight was refused, or given of relative errors");
    expect(try_groups(bytes, length, 7, 48) == (relative ? other : 0), "the groups of a weight were refused, or given of relative errors");
    expect(try_relative(bytes, length, 7, HALF, 7) == (relative ? 0 : other), "a relative variance was refused, or given of other errors");
}

/* the calls that only read a group */
static void all_read(const uint8_t *bytes, size_t length) {
    const int32_t readings[] = {5, INT32_MIN, 6};
    all_foresee(bytes, length);
    expect(try_batch(bytes, length, readings, 3, 3) == 0, "a batch was refused");
}

/* one of the calls that write the group */
static int rewrite(enum call call, uint8_t *bytes, size_t length, int32_t reading) {
    return call == STEP ? try_step(bytes, length, reading) : call == MISSING ? try_missing(bytes, length) : try_switch(bytes, length);
}

/* ---- groups */
static int trend_of(int model) {
    return model % 4;
}

static int seasonal(int model) {
    return model >> 2 & 1;
}

/* the model without its rounding rule and the kind of its errors */
static int shape(int model) {
    return model & ~(EVEN | RELATIVE);
}

static struct ref_state plain(int model, int m) {
    struct ref_state st = {.model = model, .m = m, .A = 16384};
    int trend = trend_of(model);
    st.B = trend ? 4096 : 0;
    st.G = seasonal(model) ? 8192 : 0;
    st.F = trend == 0 ? 0 : trend == 1 ? 65536 : 58982;
    for (int k = 0; k < m; k++)
        st.s[k] = 65536 * (k % 7 - 3);
    return st;
}

/* Gains outside the usual region, for command 18: A + G of 65537 with a season, else B above A. */
static struct ref_state moved_outside(struct ref_state st) {
    if (st.m)
        st.G = 65537 - st.A;
    else
        st.A = st.B - 1;
    st.outside = 1;
    return st;
}

/* the group in the new form or the old one */
static size_t in_form(int old, const struct ref_state *st, uint8_t *bytes) {
    return old ? ref_old_group(st, bytes) : ref_group(st, bytes);
}

#define EACH(bits) (bits), (bits) + 1, (bits) + 2, (bits) + 4, (bits) + 5, (bits) + 6
static const int models[] = {EACH(0), EACH(EVEN), EACH(RELATIVE), EACH(EVEN + RELATIVE)};
enum { MODELS = sizeof models / sizeof *models };
static const int periods[] = {2, 3, 24, 48};

/* ---- document 01's listing and station cases, by the numbers that stand there */
static void expect_state(const uint8_t *at, struct ref_state st) {
    uint8_t bytes[MOST];
    size_t n = ref_group(&st, bytes);
    expect_bytes(at, bytes, n);
}

static void listed_cases(void) {
    uint8_t bytes[MOST];
    struct ref_state st;
    what = "T2";
    st = plain(0, 0), st.A = 32768;
    size_t n = ref_group(&st, bytes);
    uint8_t *at = lend(groups, bytes, n);
    expect(forecaster_step(at, n, 10, &number) == 0 && number == 655360, "e of the listing's step");
    st.l = 327680, st.count = 1, st.readings = 1, st.low = 100;
    expect_state(at, st);
    expect(forecaster_forecast(at, n, 2, &number) == 0 && number == 327680, "the listing's forecast");
    what = "T3";
    st = plain(1, 0), st.A = 32768, st.B = 16384, st.b = 65536;
    n = ref_group(&st, bytes);
    at = lend(groups, bytes, n);
    uint64_t weight = 0;
    expect(bench_weight(at, n, 3, &weight) == 0 && weight == UINT64_C(11005853696), "T7: the weight of 3");
    expect(forecaster_step(at, n, 3, &number) == 0, "the step");
    st.l = 131072, st.b = 98304, st.count = 1, st.readings = 1, st.low = 4;
    expect_state(at, st);
    expect(forecaster_forecast(at, n, 3, &number) == 0 && number == 425984, "forecast 3");
    what = "T4";
    st = plain(2, 0), st.A = 0, st.B = 0, st.F = 32768, st.b = 3;
    n = ref_group(&st, bytes);
    at = lend(groups, bytes, n);
    expect(forecaster_step(at, n, 0, &number) == 0, "the step");
    st.l = 2, st.b = 2, st.count = 1, st.readings = 1;
    expect_state(at, st);
    expect(forecaster_forecast(at, n, 2, &number) == 0 && number == 4, "forecast 2");
    what = "T5 and T6";
    st = plain(4, 2), st.G = 32768, st.s[0] = 65536, st.s[1] = -65536;
    n = ref_group(&st, bytes);
    at = lend(groups, bytes, n);
    expect(bench_weight(at, n, 3, &weight) == 0 && weight == UINT64_C(6979321856), "T8: the weight of 3");
    uint64_t by_index[3] = {7, 7, 7};
    expect(bench_weight_groups(at, n, 3, by_index, 3) == 0 && by_index[0] == UINT64_C(2415919104) && by_index[1] == 268435456 && by_index[2] == 7,
           "T8: the groups of its weight");
    expect(forecaster_step(at, n, 5, &number) == 0, "the step");
    st.l = 65536, st.s[0] = 196608, st.p = 1, st.count = 1, st.readings = 1, st.low = 16;
    expect_state(at, st);
    const int64_t forecasts[] = {0, 262144, 0};
    for (uint32_t h = 1; h <= 3; h++)
        expect(forecaster_forecast(at, n, h, &number) == 0 && number == forecasts[h - 1], "forecasts 1, 2, 3");
    expect(forecaster_missing(at, n) == 0, "the missing reading");
    st.p = 0, st.count = 2;
    expect_state(at, st);
    what = "W-202: a missing reading in a warming room, straight and damped";
    st = plain(5, 2), st.l = 655360, st.b = 65536, st.p = 1;
    n = ref_group(&st, bytes);
    at = lend(groups, bytes, n);
    expect(forecaster_forecast(at, n, 3, &number) == 0 && number == 655360 + 3 * 65536 - 2 * 65536, "forecast 3 before it");
    expect(forecaster_missing(at, n) == 0, "the missing reading");
    st.l = 720896, st.p = 0, st.count = 1;
    expect_state(at, st);
    expect(forecaster_forecast(at, n, 2, &number) == 0 && number == 655360 + 3 * 65536 - 2 * 65536, "forecast 2 after it is forecast 3 before");
    st = plain(2, 0), st.F = 32768, st.b = 3;
    n = ref_group(&st, bytes);
    at = lend(groups, bytes, n);
    expect(forecaster_missing(at, n) == 0, "the missing reading");
    st.l = 2, st.b = 2, st.count = 1;
    expect_state(at, st);
    what = "W-211: T1's numbers by both rules";
    const int64_t numbers[] = {32767, 32768, -32768, -32769, 98304, -98304};
    const int64_t up[] = {0, 1, 0, -1, 2, -1}, even[] = {0, 0, 0, -1, 2, -2};
    for (int i = 0; i < 6; i++)
        for (int rule = 0; rule < 2; rule++) {
            st = plain(0, 0), st.A = 1, st.l = -numbers[i]; /* e is the number, and the level moves by R(e) */
            n = ref_group(&st, bytes);
            at = lend(groups, bytes, n);
            if (rule) {
                expect(forecaster_switch_to_even(at, n) == 0, "the switch");
                st.model = EVEN;
                expect_state(at, st);
                expect(forecaster_switch_to_even(at, n) == 0, "a second switch");
                expect_state(at, st);
            }
            expect(forecaster_step(at, n, 0, &number) == 0 && number == numbers[i], "e");
            int64_t rounded = rule ? even[i] : up[i];
            st.l += rounded, st.count = 1, st.readings = 1, st.low = (uint64_t)(rounded * rounded);
            expect_state(at, st);
        }
    what = "W-204: the listing's step on an old group, a missing reading and a switch after it";
    st = plain(0, 0), st.A = 32768;
    memset(bytes, 0x77, sizeof bytes);
    n = ref_old_group(&st, bytes);
    expect(n == 46 && n == FORECASTER_OLD_GROUP_LENGTH(0), "the old group's length");
    at = lend(groups, bytes, n);
    expect(forecaster_step(at, n, 10, &number) == FORECASTER_SHORT_SLICE, "a step without room");
    expect_bytes(at, bytes, n);
    expect(forecaster_forecast(at, n, 1, &number) == 0 && number == 0, "a forecast without room");
    n = 71;
    at = lend(groups, bytes, n);
    expect(forecaster_step(at, n, 10, &number) == 0 && number == 655360, "a step with room");
    st.l = 327680, st.count = 1, st.readings = 1, st.low = 100;
    expect_state(at, st);
    expect(forecaster_missing(at, n) == 0 && forecaster_switch_to_even(at, n) == 0, "a missing reading and a switch");
    st.model = EVEN, st.count = 2;
    expect_state(at, st);
    expect(forecaster_step(at, n, 2, &number) == 0 && number == -196608, "another step");
    st.l = 229376, st.count = 3, st.readings = 2, st.low = 109;
    expect_state(at, st);
    what = "W-205: T3 and T5 with relative errors, no operation of which is rounded";
    double value = 0, thetas[4] = {7, 7, 7, 7};
    st = plain(9, 0), st.A = 32768, st.B = 16384, st.b = 65536;
    n = ref_group(&st, bytes);
    at = lend(groups, bytes, n);
    expect(forecaster_step(at, n, 3, &number) == 0, "T3's step");
    st.l = 131072, st.b = 98304, st.count = 1, st.readings = 1, st.low = 4;
    expect_state(at, st);
    expect(bench_relative_variance(at, n, 3, HALF, &value, thetas, 4) == 0 && value == 42.3128662109375, "T3: the variance of 3");
    expect(thetas[0] == 12.25 && thetas[1] == 28.4453125 && thetas[2] == 56.375244140625 && thetas[3] == 7, "T3: theta of 1, 2, 3");
    expect(bench_weight(at, n, 3, &weight) == FORECASTER_OUT_OF_PLACE, "T3: a weight");
    st = plain(12, 2), st.G = 32768, st.s[0] = 65536, st.s[1] = -65536;
    n = ref_group(&st, bytes);
    at = lend(groups, bytes, n);
    expect(forecaster_step(at, n, 5, &number) == 0, "T5's step");
    expect(bench_relative_variance(at, n, 3, HALF, &value, thetas, 3) == 0 && value == 0.75, "T5: the variance of 3");
    expect(thetas[0] == 0 && thetas[1] == 16 && thetas[2] == 0.5, "T5: theta of 1, 2, 3");
    expect(bench_relative_variance(at, n, 3, ONE + 1, &value, thetas, 3) == FORECASTER_BAD_SIGMA2 && value == 0.75, "18");
    what = "W-208: the value at a place is its number in units, and the level 0";
    const uint64_t seven[] = {7};
    const int32_t five[] = {5};
    int64_t cells[4] = {7, 7, 7, 7};
    size_t taken = 0;
    st = plain(4, 24), st.G = 32768, st.p = 2, st.count = 7;
    for (int k = 0; k < 24; k++)
        st.s[k] = 65536 * k;
    n = ref_group(&st, bytes);
    at = lend(groups, bytes, n);
    for (size_t k = 0; k < 2; k++) { /* 7 in the first list, then in the second */
        const int64_t skip[] = {3, 4, 5}, again[] = {2, 2, 3}, *places = k ? again : skip;
        expect(bench_forecasts_on(at, n, seven, 1 - k, seven, k, 3, cells, 4) == 0 && cells[3] == 7, "forecasts 1, 2, 3");
        for (int j = 0; j < 3; j++)
            expect(cells[j] == 65536 * places[j], "the forecasts are not those of their places");
        expect(bench_batch_on(at, n, seven, 1 - k, seven, k, five, 1, cells, 1, &taken) == 0 && taken == 1, "a batch of one reading");
        expect(cells[0] == (k ? 49152 : 32768), "the level is not that of its place");
    }
    expect(bench_batch_on(at, n, seven, 1, seven, 1, five, 1, cells, 1, &taken) == FORECASTER_BAD_CALENDAR && taken == 0, "20");
    calls += 16 + 24 + 6 + 6 + 5;
}

/* ---- refusals 2, 3 and 4 at every place of every kind of group */
static void cuts_and_commands(int outside, int old) {
    for (int i = 0; i < MODELS; i++)
        for (size_t j = 0; j < sizeof periods / sizeof *periods; j++) {
            if ((!seasonal(models[i]) && j > 0) || (outside && shape(models[i]) == 0))
                continue;
            if (models[i] != shape(models[i]) && j > 1)
                continue; /* the rounding rule and the kind of errors move nothing here */
            struct ref_state st = plain(models[i], seasonal(models[i]) ? periods[j] : 0);
            if (outside)
                st = moved_outside(st);
            uint8_t bytes[MOST];
            size_t n = in_form(old, &st, bytes), more = old ? ROOM + 1 : 1;
            what = "a cut group";
            for (size_t cut = 0; cut < n; cut++)
                all_refuse(bytes, cut, FORECASTER_TRUNCATED);
            what = "bytes after the group";
            for (int after = 0; after < 256; after++) {
                memset(bytes + n, after, more);
                all_refuse(bytes, n + more, FORECASTER_OUT_OF_PLACE);
            }
            what = "a first byte";
            for (size_t at = 0; at < n; at = at == 0 ? 19 : at == 19 ? 36 : at == 36 && !old ? 61 : at + 10)
                for (int first = 0; first < 256; first++) {
                    uint8_t due = bytes[at];
                    if (first == due)
                        continue;
                    bytes[at] = (uint8_t)first;
                    int low = first & 15, high = first >> 4;
                    int known = (high == 1 && (low < 6 || low == 8)) || ((high == 2 || high == 5) && low < 2) || (high == 3 && low < 3) || first == 0x40;
                    int code = known ? FORECASTER_OUT_OF_PLACE : FORECASTER_UNKNOWN_COMMAND;
                    int other = 0; /* the other command that is due there as well */
                    if (at == 0 && first == (st.outside ? 0x10 : 0x18))
                        other = 1, code = st.outside ? FORECASTER_UNUSUAL_GAINS : FORECASTER_BAD_PARAMETER;
                    /* after 11 the other form's: with a season, the byte where its next command would be is none */
                    if (at == 36 && first == (old ? 0x15 : st.m ? 0x12 : 0x13))
                        other = 1, code = st.m ? FORECASTER_UNKNOWN_COMMAND : old ? FORECASTER_TRUNCATED : 0;
                    if (code)
                        all_refuse(bytes, n, code);
                    else
                        all_read(bytes, n); /* 13 in place of 15 makes an old group, with 25 bytes after it */
                    /* out of place is told before cut */
                    if (known)
                        all_refuse(bytes, at + 1, other ? FORECASTER_TRUNCATED : FORECASTER_OUT_OF_PLACE);
                    bytes[at] = due;
                }
        }
}

/* ---- 16, and 7 of 18, at both edges of the usual region; all the calls on a group that 18 opens, which keeps its first byte */
static void region(void) {
    uint8_t bytes[MOST];
    what = "the usual region";
    for (int i = 0; i < MODELS; i++)
        for (int edge = 0; edge < 2; edge++)
            for (int over = -1; over <= 1; over++)
                for (int outside = 0; outside < 2; outside++) {
                    struct ref_state st = plain(models[i], seasonal(models[i]) ? 3 : 0);
                    if (edge == 0 ? !trend_of(models[i]) : !st.m)
                        continue;
                    if (edge == 0)
                        st.B = (uint32_t)((int)st.A + over);
                    else
                        st.G = (uint32_t)(65536 - (int)st.A + over);
                    st.outside = outside;
                    size_t n = ref_group(&st, bytes);
                    if (outside != (over > 0)) {
                        all_refuse(bytes, n, outside ? FORECASTER_BAD_PARAMETER : FORECASTER_UNUSUAL_GAINS);
                        st.F = 65537; /* 7 comes before 16 */
                        n = ref_group(&st, bytes);
                        all_refuse(bytes, n, FORECASTER_BAD_PARAMETER);
                        bytes[2] = 49; /* and 6 before both */
                        all_refuse(bytes, n, FORECASTER_BAD_PERIOD);
                        continue;
                    }
                    all_read(bytes, n);
                    expect(try_step(bytes, n, 7) == 0, "a step was refused");
                    expect(try_missing(bytes, n) == 0, "a missing reading was refused");
                    expect(bytes[0] == (outside ? 0x18 : 0x10), "the group begins with another command");
                }
}

/* ---- random numbers */
static uint64_t seed = 0x9E3779B97F4A7C15;

static uint64_t random64(void) {
    seed ^= seed << 13;
    seed ^= seed >> 7;
    seed ^= seed << 17;
    return seed;
}

static int64_t pick(int64_t low, int64_t high) {
    return low + (int64_t)(random64() % (uint64_t)(high - low + 1));
}

/* ---- old groups of every season length, with up to 27 bytes of any kind after them */
static void old_group(struct ref_state st) {
    uint8_t bytes[MOST], copy[MOST], other[MOST]; /* the old form, and the new one of the same state */
    size_t n = ref_old_group(&st, bytes), full = ref_group(&st, other);
    expect(n == FORECASTER_OLD_GROUP_LENGTH(st.m) && full == FORECASTER_GROUP_LENGTH(st.m), "the lengths of the two forms");
    try_forecast(other, full, 7);
    int64_t forecast = number;
    for (size_t after = 0; after <= ROOM + 2; after++) {
        int commands = (int)pick(0, 1); /* or bytes of any kind */
        for (size_t k = 0; k < after; k++)
            bytes[n + k] = (uint8_t)(commands ? 0x15 - k % 6 : random64());
        if (after > ROOM) {
            all_refuse(bytes, n + after, FORECASTER_OUT_OF_PLACE);
            continue;
        }
        all_read(bytes, n + after);
        expect(try_forecast(bytes, n + after, 7) == 0 && number == forecast, "the forecast is not that of the new form");
        expect(try_forecast(bytes, n + after, 513) == FORECASTER_BAD_HORIZON, "11 of an old group");
        for (int call = STEP; call <= SWITCH; call++) {
            memcpy(copy, bytes, n + after);
            int code = rewrite(call, copy, n + after, -3);
            expect(code == (after < ROOM ? FORECASTER_SHORT_SLICE : 0), "an old group was not rewritten where it has room");
            if (code)
                continue;
            ref_group(&st, other);
            expect(rewrite(call, other, full, -3) == 0 && memcmp(copy, other, full) == 0, "the new form goes another way");
            all_read(copy, full);
        }
    }
    memset(bytes + n, 0, MOST - n);
    all_refuse(bytes, MOST, FORECASTER_OUT_OF_PLACE);
}

static void old_groups(void) {
    what = "an old group";
    for (int i = 0; i < MODELS; i++)
        for (int m = seasonal(models[i]) ? 2 : 0; m == 0 || m <= 48; m++) {
            struct ref_state st = plain(models[i], m);
            st.l = (int64_t)(random64() % 4000000) - 2000000, st.b = trend_of(models[i]) ? st.l / 7 : 0;
            st.p = m ? (int)(random64() % (unsigned)m) : 0, st.count = random64() >> 20;
            old_group(st);
            if (shape(models[i]) != 0 && m % 5 == 0)
                old_group(moved_outside(st));
            if (m == 0)
                break;
        }
    what = "12 among the other refusals";
    const int64_t range = INT64_C(1) << 40;
    const uint64_t full = UINT64_C(1) << 48;
    uint8_t bytes[MOST] = {0};
    for (size_t after = 0; after <= ROOM + 1; after++) {
        int room = after == ROOM, none = after > ROOM ? FORECASTER_OUT_OF_PLACE : FORECASTER_SHORT_SLICE;
        struct ref_state st = plain(5, 3);
        size_t n = ref_old_group(&st, bytes) + after;
        expect(try_step(bytes, n, 1000001) == (room ? FORECASTER_BAD_READING : none), "12 comes before 13");
        st.count = full;
        ref_old_group(&st, bytes);
        expect(try_step(bytes, n, 0) == (room ? FORECASTER_COUNT_FULL : none), "12 comes before 14");
        expect(try_missing(bytes, n) == (room ? FORECASTER_COUNT_FULL : none), "12 comes before 14");
        st.count = 0, st.l = st.b = range;
        ref_old_group(&st, bytes);
        expect(try_step(bytes, n, 0) == (room ? FORECASTER_LEAVES_RANGE : none), "12 comes before 15");
        expect(try_missing(bytes, n) == (room ? FORECASTER_LEAVES_RANGE : none), "12 comes before 15");
        expect(try_switch(bytes, n) == (room ? 0 : none), "a switch of an old group");
        st.count = full + 1;
        ref_old_group(&st, bytes);
        all_refuse(bytes, n, FORECASTER_BAD_POSITION); /* the group's own come before 3 and 12 */
    }
}

/* ---- the score: 17 at its edges and among the other refusals, and the sum carried into its high word */
static void scores(void) {
    const uint64_t full = UINT64_C(1) << 48, top = UINT64_MAX, unit = UINT64_C(1) << 52;
    const struct {
        uint64_t readings, count, high, low;
        int code;
    } edges[] = {
        {0, 0, 0, 0, 0}, {1, 0, 0, 0, 17}, {0, 0, 0, 1, 17}, {0, 9, 0, 1, 17}, {0, 9, 1, 0, 17}, {1, 1, 0, unit, 0},
        {1, 1, 0, unit + 1, 17}, {1, 1, 1, 0, 17}, {9, 9, 0, 9 * unit, 0}, {9, 9, 0, 9 * unit + 1, 17}, {10, 9, 0, 0, 17},
        {4095, 4095, 0, 4095 * unit, 0}, {4095, 4095, 0, 4095 * unit + 1, 17}, {4095, 5000, 0, top, 17}, {4095, 5000, 1, 0, 17},
        {4096, 4096, 0, top, 0}, {4096, 4096, 1, 0, 0}, {4096, 4096, 1, 1, 17}, {4096, 5000, 2, 0, 17}, {4097, 5000, 1, unit, 0},
        {4097, 5000, 1, unit + 1, 17}, {4097, 5000, 2, 0, 17}, {8192, 8192, 1, top, 0}, {8192, 8192, 2, 0, 0}, {8192, 8192, 2, 1, 17},
        {full - 1, full, full >> 12, 0, 17}, {full - 1, full, (full >> 12) - 1, 4095 * unit, 0},
        {full - 1, full, (full >> 12) - 1, 4095 * unit + 1, 17}, {full, full, full >> 12, 0, 0}, {full, full, full >> 12, 1, 17},
        {full, full, (full >> 12) + 1, 0, 17}, {full, full, (full >> 12) - 1, top, 0}, {full, full - 1, 0, 0, 17},
        {full + 1, full, 0, 0, 17}, {top, full, 0, 0, 17}, {0, full, top, top, 17}, {full, full, top, 0, 17}, {UINT64_C(1) << 63, full, 0, 0, 17},
        {full + 1, full + 1, 0, 0, 10}, {top, top, top, top, 10},
    };
    uint8_t bytes[MOST];
    what = "a score at the edge";
    for (size_t k = 0; k < sizeof edges / sizeof *edges; k++)
        for (int i = 0; i < MODELS; i++) {
            struct ref_state st = plain(models[i], seasonal(models[i]) ? 3 : 0);
            st.readings = edges[k].readings, st.count = edges[k].count, st.high = edges[k].high, st.low = edges[k].low;
            size_t n = ref_group(&st, bytes);
            if (edges[k].code == 0) {
                const int32_t none[1] = {0};
                all_foresee(bytes, n);
                expect(try_batch(bytes, n, none, 0, 0) == 0, "a valid score was refused");
                expect(try_switch(bytes, n) == 0, "a valid score was refused");
                expect(try_missing(bytes, n) == (st.count < full ? 0 : FORECASTER_COUNT_FULL), "a missing reading beside this score");
                expect(try_step(bytes, n, 1000000) == (st.count + 1 < full ? 0 : FORECASTER_COUNT_FULL), "a step beside this score");
                continue;
            }
            all_refuse(bytes, n, edges[k].code);
            bytes[n] = 0x40;
            all_refuse(bytes, n + 1, edges[k].code); /* 17 comes before 3 */
            expect(try_step(bytes, n, 1000001) == edges[k].code, "17 comes before 13");
            expect(try_forecast(bytes, n, 0) == edges[k].code, "17 comes before 11");
            expect(try_forecasts(bytes, n, 1, 0) == edges[k].code, "17 comes before a short slice");
            all_refuse(bytes, n - 1, FORECASTER_TRUNCATED); /* it is told of command 13 alone, so all of these come before it */
            bytes[n - 10] = 0x15;
            all_refuse(bytes, n, FORECASTER_OUT_OF_PLACE);
            bytes[n - 10] = 0x13, bytes[n - 9] = 48;
            all_refuse(bytes, n, FORECASTER_BAD_POSITION);
            if (st.m) {
                bytes[n - 11] = 0x55;
                all_refuse(bytes, n, FORECASTER_BAD_VALUE);
            }
        }
    what = "a sum that is carried";
    const int32_t readings[] = {0, 1, -1, 2, 1000000, -1000000};
    for (int i = 0; i < 6; i++)
        for (uint64_t less = 0; less <= 4; less++)
            for (uint64_t high = 0; high < 3; high++) {
                struct ref_state st = {.readings = 12288, .count = 12290, .high = high, .low = top - less}; /* A is 0: e is the reading */
                size_t n = ref_group(&st, bytes);
                expect(try_step(bytes, n, readings[i]) == 0, "the step");
                uint64_t square = (uint64_t)((int64_t)readings[i] * readings[i]);
                st.high += square > less, st.low += square, st.readings++, st.count++;
                expect_state(lend(groups, bytes, n), st);
            }
    what = "the greatest residual";
    for (int sign = -1; sign <= 1; sign += 2)
        for (uint64_t many = 4090; many <= 4100; many++) {
            int64_t far = sign * (INT64_C(1) << 40);
            struct ref_state st = {.model = 5, .m = 2, .A = 32768, .B = 16384, .G = 16384, .F = 65536, .l = far, .b = far, .s = {far, far}};
            st.readings = st.count = many, st.high = many >> 12, st.low = many << 52;
            size_t n = ref_group(&st, bytes);
            expect(try_step(bytes, n, -sign * 1000000) == 0, "the step");
            expect(number == -sign * (INT64_C(65536000000) + 3 * (INT64_C(1) << 40)), "e");
            all_read(bytes, n); /* the sum is at its limit before the step, and still passes after it */
        }
}

/* ---- refusals 5 to 11 and 13 to 15, at the edges of each range */
static void operands(void) {
    const int64_t range = INT64_C(1) << 40;
    const uint64_t full = UINT64_C(1) << 48;
    uint8_t bytes[MOST];
    struct ref_state st;
    size_t n;
#define REFUSED(code)                         \
    do {                                      \
        for (int old = 0; old < 2; old++) {   \
            n = in_form(old, &st, bytes);     \
            all_refuse(bytes, n, code);       \
        }                                     \
    } while (0)
#define TAKEN()                                                                  \
    do {                                                                         \
        for (int old = 0; old < 2; old++) {                                      \
            n = in_form(old, &st, bytes);                                        \
            expect(try_forecast(bytes, n, 1) == 0, "a valid group was refused"); \
        }                                                                        \
    } while (0)
    what = "model byte";
    for (int model = 0; model < 256; model++) {
        st = plain(0, 0);
        n = ref_group(&st, bytes);
        bytes[1] = (uint8_t)model;
        if (shape(model) > 6 || shape(model) == 3)
            all_refuse(bytes, n, FORECASTER_BAD_MODEL);
    }
    what = "season length";
    for (int m = 1; m < 256; m++) {
        st = plain(0, 0);
        n = ref_group(&st, bytes);
        bytes[2] = (uint8_t)m;
        all_refuse(bytes, n, FORECASTER_BAD_PERIOD);
    }
    for (int m = 0; m < 256; m++) {
        st = plain(4, m >= 2 && m <= 48 ? m : 2);
        if (m >= 2 && m <= 48) {
            TAKEN();
            continue;
        }
        n = ref_group(&st, bytes);
        bytes[2] = (uint8_t)m;
        all_refuse(bytes, n, FORECASTER_BAD_PERIOD);
    }
    what = "parameters";
    for (int i = 0; i < MODELS; i++) {
        int m = seasonal(models[i]) ? 2 : 0, trend = trend_of(models[i]);
        st = plain(models[i], m), st.A = 65536, st.outside = m != 0;
        TAKEN();
        st.A = 65537;
        REFUSED(FORECASTER_BAD_PARAMETER);
        st.A = UINT32_MAX;
        REFUSED(FORECASTER_BAD_PARAMETER);
        st = plain(models[i], m), st.B = trend ? 65537 : 1;
        REFUSED(FORECASTER_BAD_PARAMETER);
        st = plain(models[i], m), st.G = m ? 65537 : 1;
        REFUSED(FORECASTER_BAD_PARAMETER);
        st = plain(models[i], m), st.F = trend == 0 ? 1 : trend == 1 ? 65535 : 65536;
        REFUSED(FORECASTER_BAD_PARAMETER);
        st.F = trend == 0 ? 65536 : trend == 1 ? 65537 : 0;
        REFUSED(FORECASTER_BAD_PARAMETER);
    }
    what = "values";
    for (int sign = -1; sign <= 1; sign += 2) {
        st = plain(6, 3), st.l = sign * range;
        TAKEN();
        st.l = sign * (range + 1);
        REFUSED(FORECASTER_BAD_VALUE);
        st = plain(6, 3), st.b = sign * range;
        TAKEN();
        st.b = sign * (range + 1);
        REFUSED(FORECASTER_BAD_VALUE);
        for (int k = 0; k < 3; k++) {
            st = plain(6, 3), st.s[k] = sign * range;
            TAKEN();
            st.s[k] = sign * (range + 1);
            REFUSED(FORECASTER_BAD_VALUE);
            st.s[k] = sign < 0 ? INT64_MIN : INT64_MAX;
            REFUSED(FORECASTER_BAD_VALUE);
        }
        st = plain(4, 3), st.b = sign;
        REFUSED(FORECASTER_BAD_VALUE);
    }
    what = "season's place";
    for (int k = 0; k < 3; k++)
        for (int place = 0; place < 256; place++)
            for (int old = 0; old < 2 && place != k; old++) {
                st = plain(4, 3);
                n = in_form(old, &st, bytes);
                bytes[(old ? 37 : 62) + 10 * k] = (uint8_t)place;
                all_refuse(bytes, n, FORECASTER_WRONG_INDEX);
            }
    what = "place and count";
    for (int p = 0; p < 256; p++) {
        st = plain(4, 3), st.p = p;
        if (p < 3)
            TAKEN();
        else
            REFUSED(FORECASTER_BAD_POSITION);
        st = plain(0, 0), st.p = p;
        if (p == 0)
            TAKEN();
        else
            REFUSED(FORECASTER_BAD_POSITION);
    }
    st = plain(0, 0), st.count = full + 1;
    REFUSED(FORECASTER_BAD_POSITION);
    st.count = UINT64_MAX;
    REFUSED(FORECASTER_BAD_POSITION);
    what = "full count";
    st = plain(5, 2), st.count = full;
    n = ref_group(&st, bytes);
    expect(try_step(bytes, n, 0) == FORECASTER_COUNT_FULL, "a step was taken");
    expect(try_step(bytes, n, 1000001) == FORECASTER_BAD_READING, "13 comes before 14");
    expect(try_missing(bytes, n) == FORECASTER_COUNT_FULL, "a missing reading was taken");
    expect(try_forecast(bytes, n, 1) == 0, "a forecast was refused");
    st.count = full - 1;
    n = ref_group(&st, bytes);
    expect(try_step(bytes, n, 0) == 0, "the last step was refused");
    st.count = full - 1;
    n = ref_group(&st, bytes);
    expect(try_missing(bytes, n) == 0, "the last missing reading was refused");
    what = "readings";
    const int32_t readings[] = {1000000, -1000000, 1000001, -1000001, INT32_MAX, INT32_MIN};
    for (int i = 0; i < 6; i++) {
        st = plain(6, 2);
        n = ref_group(&st, bytes);
        expect(try_step(bytes, n, readings[i]) == (i < 2 ? 0 : FORECASTER_BAD_READING), "a reading at the edge");
    }
    what = "horizons";
    const uint32_t horizons[] = {1, 512, 0, 513, UINT32_MAX};
    for (int i = 0; i < 5; i++) {
        st = plain(6, 2);
        n = ref_group(&st, bytes);
        expect(try_forecast(bytes, n, horizons[i]) == (i < 2 ? 0 : FORECASTER_BAD_HORIZON), "a horizon at the edge");
    }
    what = "all horizons";
    for (uint32_t h = 0; h <= 514; h++)
        for (uint32_t less = 0; less <= 2; less++) {
            size_t room = h + 1 > less ? h + 1 - less : 0;
            int code = h == 0 || h > 512 ? FORECASTER_BAD_HORIZON : room < h ? 12 : 0;
            st = plain(6, 3);
            n = ref_group(&st, bytes);
            expect(try_forecasts(bytes, n, h, room) == code, "horizon and room");
            expect(try_weight(bytes, n, h) == (code == 12 ? 0 : code), "a weight's horizon");
        }
    what = "the variance of relative errors";
    const uint32_t distances[] = {0, 1, 2, 3, 24, 60, 200, 512, 513};
    const uint64_t sigma2s[] = {0, 1, UINT64_C(0x3FA47AE147AE147B), ONE - 1, ONE, ONE + 1, 2 * ONE, UINT64_C(0x7FF0000000000000),
                                UINT64_C(0x7FF8000000000000), UINT64_C(0x8000000000000000), UINT64_MAX};
    for (int i = 0; i < MODELS; i++)
        for (size_t j = 0; j < (seasonal(models[i]) ? sizeof periods / sizeof *periods : 1); j++)
            for (size_t far = 0; far < sizeof distances / sizeof *distances; far++)
                for (size_t k = 0; k < sizeof sigma2s / sizeof *sigma2s; k++)
                    for (size_t less = 0; less <= 2; less++) {
                        uint32_t h = distances[far];
                        size_t room = h + 1 > less ? h + 1 - less : 0;
                        int code = h == 0 || h > 512 ? FORECASTER_BAD_HORIZON : sigma2s[k] > ONE ? FORECASTER_BAD_SIGMA2 : room < h ? 12 : 0;
                        st = plain(models[i], seasonal(models[i]) ? periods[j] : 0), st.l = -7654321;
                        n = ref_group(&st, bytes);
                        expect(try_relative(bytes, n, h, sigma2s[k], room) == (models[i] & RELATIVE ? code : FORECASTER_OUT_OF_PLACE),
                               "horizon, variance and room");
                    }
    what = "a variance that is not finite";
    for (int sign = -1; sign <= 1; sign += 2)
        for (uint32_t over = 0; over <= 1; over++) {
            int code = over ? FORECASTER_NOT_FINITE : 0;
            st = (struct ref_state){.model = 9, .A = 65536, .B = 65536, .F = 65536, .l = sign * range, .b = sign * range};
            n = ref_group(&st, bytes);
            expect(try_relative(bytes, n, 375 + over, ONE, 512) == code, "S and theta leave the doubles");
            expect(try_relative(bytes, n, 376, ONE, 375) == 12, "12 comes before 19");
            st.l = st.b = sign * INT64_C(640000000000);
            n = ref_group(&st, bytes);
            expect(try_relative(bytes, n, 491 + over, HALF, 512) == code, "S leaves the doubles");
            st = (struct ref_state){.outside = 1, .model = 13, .m = 2, .A = 65536, .B = 65536, .G = 65536, .F = 65536};
            st.l = st.b = st.s[0] = st.s[1] = sign * range;
            n = ref_group(&st, bytes);
            expect(try_relative(bytes, n, 351 + over, ONE, 352) == code, "the answer leaves the doubles");
        }
    what = "a weight of relative errors";
    for (int i = 0; i < MODELS; i++) {
        st = plain(models[i], seasonal(models[i]) ? 3 : 0);
        n = ref_group(&st, bytes);
        int other = models[i] & RELATIVE ? FORECASTER_OUT_OF_PLACE : FORECASTER_BAD_HORIZON;
        expect(try_weight(bytes, n, 0) == other && try_groups(bytes, n, 513, 0) == other, "3 comes before 11 and 12");
    }
    what = "the groups of a weight";
    for (int i = 0; i < MODELS; i++)
        for (int m = seasonal(models[i]) ? 2 : 0; m <= (seasonal(models[i]) ? 48 : 0); m++)
            for (uint32_t h = 0; h <= 514; h += h < 100 ? 1 : 23)
                for (size_t room = (size_t)(m > 2 ? m - 2 : 0); room <= (size_t)m + 2; room++) {
                    int code = h == 0 || h > 512 ? FORECASTER_BAD_HORIZON : room < (size_t)(m ? m : 1) ? 12 : 0;
                    if (models[i] & RELATIVE)
                        code = FORECASTER_OUT_OF_PLACE;
                    st = plain(models[i], m);
                    n = ref_group(&st, bytes);
                    expect(try_groups(bytes, n, h, room) == code, "horizon and room");
                }
    what = "a batch";
    const int32_t mark = INT32_MIN;
    const int32_t batch[] = {5, mark, -7, 1000000, 1000001, 3, mark};
    for (size_t m = 0; m < 7; m++)
        for (size_t room = 0; room < 9; room++) {
            st = plain(6, 3);
            n = ref_group(&st, bytes);
            expect(try_batch(bytes, n, batch, m, room) == (room < m ? 12 : m > 4 ? FORECASTER_BAD_READING : 0), "readings and room");
        }
    st = plain(5, 2), st.count = full;
    n = ref_group(&st, bytes);
    expect(try_batch(bytes, n, batch, 0, 0) == 0, "a batch of no readings was refused");
    expect(try_batch(bytes, n, batch, 1, 1) == FORECASTER_COUNT_FULL, "a reading was taken");
    expect(try_batch(bytes, n, batch + 1, 1, 1) == FORECASTER_COUNT_FULL, "a missing reading was taken");
    expect(try_batch(bytes, n, batch + 4, 1, 1) == FORECASTER_BAD_READING, "13 comes before 14");
    st.count = full - 2;
    n = ref_group(&st, bytes);
    expect(try_batch(bytes, n, batch, 2, 2) == 0, "the last readings were refused");
    expect(try_batch(bytes, n, batch, 3, 3) == FORECASTER_COUNT_FULL, "one reading too many was taken");
    what = "T12";
    st = plain(1, 0), st.A = 0, st.B = 0, st.l = range, st.b = range;
    n = ref_group(&st, bytes);
    expect(try_step(bytes, n, 1000000) == FORECASTER_LEAVES_RANGE, "a level left its range");
    expect(try_batch(bytes, n, batch + 3, 1, 1) == FORECASTER_LEAVES_RANGE, "a level left its range");
    expect(try_missing(bytes, n) == FORECASTER_LEAVES_RANGE, "a level left its range");
    expect(try_batch(bytes, n, batch + 1, 1, 1) == FORECASTER_LEAVES_RANGE, "a level left its range");
    st.b = 0;
    n = ref_group(&st, bytes);
    expect(try_missing(bytes, n) == 0, "a level at the end of its range was refused");
    st.count = full, st.b = 1;
    n = ref_group(&st, bytes);
    expect(try_missing(bytes, n) == FORECASTER_COUNT_FULL, "14 comes before 15");
    expect(try_batch(bytes, n, batch + 1, 1, 1) == FORECASTER_COUNT_FULL, "14 comes before 15");
    what = "a batch that a missing reading halts";
    const int32_t rising[] = {mark, mark, mark, 0};
    st = plain(1, 0), st.A = 0, st.B = 0, st.l = range - 2000, st.b = 1000;
    n = ref_group(&st, bytes);
    expect(try_batch(bytes, n, rising, 4, 5) == FORECASTER_LEAVES_RANGE, "a level left its range");
    what = "a new trend or season value";
    st = plain(1, 0), st.A = 0, st.B = 65536, st.l = -range, st.outside = 1;
    n = ref_group(&st, bytes);
    expect(try_step(bytes, n, 1000000) == FORECASTER_LEAVES_RANGE, "a trend left its range");
    st = plain(4, 2), st.A = 0, st.G = 65536, st.l = -range, st.s[0] = range;
    n = ref_group(&st, bytes);
    expect(try_step(bytes, n, 1000000) == FORECASTER_LEAVES_RANGE, "a season value left its range");
#undef REFUSED
#undef TAKEN
}

/* ---- a calendar of clock changes (W-208): one count at every distance from the state's, from every place; 20 at each place of a
 * list, for every season length, and among the other refusals */
static void calendars(void) {
    uint8_t bytes[MOST];
    struct ref_state st;
    size_t n;
    int32_t readings[60];
    for (int k = 0; k < 60; k++)
        readings[k] = k % 9 == 4 ? INT32_MIN : k * k % 31 - 9;
    what = "a clock change";
    for (int i = 0; i < MODELS; i++)
        for (int p = 0; p < 24 && seasonal(models[i]); p++)
            for (int64_t from = -2; from < 60; from++) {
                struct calendar on = {{0}, {0}, 0, 0};
                st = plain(models[i], 24), st.p = p, st.count = from % 7 ? 5000 : (UINT64_C(1) << 48) - (uint64_t)(p % 3) - 25;
                st.l = 1234567, st.b = trend_of(models[i]) ? -4321 : 0;
                n = ref_group(&st, bytes);
                on.skipped[0] = st.count + (uint64_t)from, on.skips = 1; /* from -2 on, modulo 2^64 */
                on.repeated[0] = on.skipped[0] + 1, on.repeats = (size_t)(p % 2);
                try_batch_on(bytes, n, &on, readings, 60, 60);
                expect(try_forecasts_on(bytes, n, &on, 60, 60) == 0, "forecasts were refused");
                on.repeats = 1, on.skips = (size_t)(p % 2);
                try_batch_on(bytes, n, &on, readings, 60, 60);
                expect(try_forecasts_on(bytes, n, &on, 60, 60) == 0, "forecasts were refused");
            }
    what = "a list that does not rise, or a count in both";
    st = plain(6, 24), st.p = 2;
    n = ref_group(&st, bytes);
    for (size_t skips = 0; skips <= 6; skips++)
        for (size_t repeats = 0; repeats <= 6; repeats++)
            for (uint64_t from = 0; from <= 6; from++) {
                struct calendar on = {{0}, {0}, skips, repeats};
                for (size_t k = 0; k < skips; k++)
                    on.skipped[k] = k == skips - 1 && from == 6 ? UINT64_MAX - 1 : 2 * k + 2 * from + 2;
                for (size_t k = 0; k < repeats; k++)
                    on.repeated[k] = k == repeats - 1 && from == 6 ? UINT64_MAX : 2 * k + 5;
                expect(try_batch_on(bytes, n, &on, readings, 0, 0) == 0, "rising lists were refused");
                expect(try_forecasts_on(bytes, n, &on, 30, 30) == 0, "rising lists were refused");
                for (size_t k = 0; k < skips + repeats; k++) {
                    uint64_t *count = k < skips ? &on.skipped[k] : &on.repeated[k - skips], kept = *count;
                    if (k != 0 && k != skips) { /* the count before it, and one below */
                        *count = count[-1];
                        expect(try_batch_on(bytes, n, &on, readings, 0, 0) == 20, "equal neighbours were taken");
                        *count = count[-1] - 1;
                        expect(try_forecasts_on(bytes, n, &on, 1, 1) == 20, "a count below the one before it was taken");
                        *count = kept;
                    }
                    for (size_t j = 0; j < repeats && k < skips; j++) {
                        uint64_t both = on.repeated[j];
                        on.repeated[j] = kept;
                        expect(try_batch_on(bytes, n, &on, readings, 0, 0) == 20, "a count in both was taken");
                        on.repeated[j] = both;
                    }
                }
            }
    what = "a season that has no calendar";
    for (int i = 0; i < MODELS; i++)
        for (int m = seasonal(models[i]) ? 2 : 0; m <= (seasonal(models[i]) ? 48 : 0); m++) {
            int code = m == 24 ? 0 : FORECASTER_BAD_CALENDAR;
            st = plain(models[i], m);
            n = ref_group(&st, bytes);
            expect(try_batch_on(bytes, n, &no_changes, readings, 3, 3) == code, "a batch on a calendar");
            expect(try_batch_on(bytes, n, &no_changes, readings, 3, 2) == FORECASTER_SHORT_SLICE, "12 comes before 20");
            expect(try_forecasts_on(bytes, n, &no_changes, 3, 3) == code, "forecasts on a calendar");
            expect(try_forecasts_on(bytes, n, &no_changes, 3, 2) == FORECASTER_SHORT_SLICE, "12 comes before 20");
            expect(try_forecasts_on(bytes, n, &no_changes, 513, 0) == FORECASTER_BAD_HORIZON, "11 comes before 12 and 20");
            st.count = UINT64_C(1) << 48;
            n = ref_group(&st, bytes);
            const int32_t out[] = {1000001};
            expect(try_batch_on(bytes, n, &no_changes, out, 1, 1) == (code ? code : FORECASTER_BAD_READING), "20 comes before 13");
            expect(try_batch_on(bytes, n, &no_changes, readings, 1, 1) == (code ? code : FORECASTER_COUNT_FULL), "20 comes before 14");
        }
    what = "a change that leaves the range";
    for (int place = 2; place <= 3; place++)
        for (int skip = 0; skip < 2; skip++) {
            const int64_t range = INT64_C(1) << 40;
            const int32_t one[] = {1};
            struct calendar on = {{0}, {0}, (size_t)skip, (size_t)!skip};
            st = plain(4, 24), st.A = 0, st.G = 32768, st.l = -range, st.p = 2; /* the season value becomes its half and more than range / 2 */
            for (int k = 0; k < 24; k++)
                st.s[k] = k == place ? range : 0;
            n = ref_group(&st, bytes);
            expect(try_batch_on(bytes, n, &on, one, 1, 1) == (place == 2 + skip ? FORECASTER_LEAVES_RANGE : 0), "the place of a season value");
        }
}

/* ---- random groups, whole and damaged */
static struct ref_state random_state(void) {
    int model = models[random64() % MODELS];
    struct ref_state st = plain(model, seasonal(model) ? (int)pick(2, 48) : 0);
    const int64_t range = pick(0, 3) == 0 ? INT64_C(1) << 40 : INT64_C(1) << 30;
    st.A = (uint32_t)pick(0, 65536);
    if (trend_of(model))
        st.B = (uint32_t)pick(0, 65536), st.b = pick(-range, range);
    if (trend_of(model) == 2)
        st.F = (uint32_t)pick(1, 65535);
    if (st.m)
        st.G = (uint32_t)pick(0, 65536), st.p = (int)pick(0, st.m - 1);
    st.l = pick(-range, range);
    for (int k = 0; k < st.m; k++)
        st.s[k] = pick(-range, range);
    st.outside = (st.B > st.A || st.A + st.G > 65536) != (pick(0, 19) == 0);
    st.count = pick(0, 9) == 0 ? (UINT64_C(1) << 48) - (uint64_t)pick(0, 2) : (uint64_t)pick(0, 1000000);
    st.readings = pick(0, 3) == 0 ? st.count + (pick(0, 9) == 0) : random64() % (st.count + 1);
    st.high = st.readings >> 12, st.low = st.readings << 52; /* the greatest sum, or beside it, or any below it */
    switch (pick(0, 9)) {
    case 0:
        st.low++;
        break;
    case 1:
        st.high -= st.high > 0, st.low--;
        break;
    case 2:
        break;
    default:
        st.low = st.high ? pick(0, 1) ? random64() : UINT64_MAX - (uint64_t)pick(0, 1000) : st.low ? random64() % st.low : 0;
        st.high = st.high ? random64() % st.high : 0;
    }
    return st;
}

static void damaged_groups(int rounds) {
    what = "a random group";
    for (int i = 0; i < rounds; i++) {
        struct ref_state st = random_state();
        uint8_t bytes[MOST];
        int old = pick(0, 2) == 0;
        size_t n = in_form(old, &st, bytes);
        for (int after = !old ? 0 : pick(0, 3) ? ROOM : (int)pick(0, ROOM + 2); after > 0; after--)
            bytes[n++] = (uint8_t)random64();
        for (int damage = (int)pick(0, 3); damage > 0; damage--)
            switch (pick(0, 3)) {
            case 0:
                bytes[random64() % n] = (uint8_t)random64();
                break;
            case 1:
                bytes[random64() % n] ^= (uint8_t)(1 << pick(0, 7));
                break;
            case 2:
                n = (size_t)pick(1, (int64_t)n);
                break;
            default:
                if (n < MOST)
                    bytes[n++] = (uint8_t)random64();
            }
        try_forecast(bytes, n, (uint32_t)pick(0, 600));
        if (i % 4 == 0) {
            int32_t readings[40];
            size_t many = (size_t)pick(0, 40), room = pick(0, 9) == 0 ? (size_t)pick(0, 40) : many + (size_t)pick(0, 3);
            int32_t limit = pick(0, 1) ? 1000000 : 30;
            for (size_t k = 0; k < many; k++)
                readings[k] = (int32_t)(pick(0, 19) == 0 ? INT32_MIN : pick(0, 99) == 0 ? pick(INT32_MIN, INT32_MAX) : pick(-limit, limit));
            try_batch(bytes, n, readings, many, room);
            uint32_t horizon = (uint32_t)(pick(0, 9) == 0 ? pick(0, 600) : pick(1, 60));
            try_forecasts(bytes, n, horizon, pick(0, 9) == 0 ? (size_t)pick(0, 600) : horizon);
            try_weight(bytes, n, (uint32_t)pick(0, 600));
            try_groups(bytes, n, (uint32_t)pick(0, 600), pick(0, 9) == 0 ? (size_t)pick(0, 50) : 48);
            horizon = (uint32_t)(pick(0, 99) == 0 ? pick(0, 600) : pick(1, 60));
            uint64_t sigma2 = pick(0, 19) == 0 ? random64() : random64() % (ONE + 1); /* the bits of a double of any size */
            if (pick(0, 1))
                sigma2 = ONE - random64() % (UINT64_C(1) << 56); /* or of one that is not small */
            try_relative(bytes, n, horizon, sigma2, pick(0, 9) == 0 ? (size_t)pick(0, 600) : horizon);
        }
        switch (pick(0, 4)) {
        case 0:
            try_switch(bytes, n);
            break;
        case 1:
        case 2:
            try_step(bytes, n, (int32_t)(pick(0, 9) == 0 ? pick(INT32_MIN, INT32_MAX) : pick(-1000000, 1000000)));
            break;
        default:
            try_missing(bytes, n);
        }
    }
}

/* ---- random groups of 24 places, with lists whose counts are often due, and now and then spoilt */
static size_t random_list(uint64_t count, uint64_t *list) {
    size_t n = (size_t)(pick(0, 3) ? pick(0, 6) : pick(0, MOST_CHANGES));
    uint64_t at = pick(0, 4) ? count + (uint64_t)pick(0, 30) : (uint64_t)pick(0, 1000000);
    for (size_t k = 0; k < n; k++) {
        list[k] = at;
        at += (uint64_t)(pick(0, 2) ? pick(1, 30) : 24 - pick(0, 1));
    }
    if (n > 0 && pick(0, 19) == 0)
        list[random64() % n] = pick(0, 1) ? list[random64() % n] : random64();
    return n;
}

static void random_calendars(int rounds) {
    what = "random clock changes";
    unsigned long taken = given[BATCH_ON][0] + given[FORECASTS_ON][0];
    for (int i = 0; i < rounds; i++) {
        struct ref_state st = random_state();
        if (seasonal(st.model))
            st.m = pick(0, 19) ? 24 : st.m;
        if (st.m == 24)
            st.p = (int)(pick(0, 1) ? 2 : pick(0, 23));
        for (int k = 0; k < st.m; k++)
            st.s[k] = pick(-1000000000, 1000000000);
        uint8_t bytes[MOST];
        size_t n = in_form(pick(0, 3) == 0, &st, bytes), many = (size_t)pick(0, 60);
        struct calendar on = {{0}, {0}, 0, 0};
        on.skips = random_list(st.count, on.skipped);
        on.repeats = random_list(st.count, on.repeated);
        int32_t readings[60];
        for (size_t k = 0; k < many; k++)
            readings[k] = (int32_t)(pick(0, 9) == 0 ? INT32_MIN : pick(0, 99) == 0 ? pick(INT32_MIN, INT32_MAX) : pick(-30, 30));
        try_batch_on(bytes, n, &on, readings, many, pick(0, 9) == 0 ? (size_t)pick(0, 60) : many);
        uint32_t horizon = (uint32_t)(pick(0, 9) == 0 ? pick(0, 600) : pick(1, 60));
        try_forecasts_on(bytes, n, &on, horizon, pick(0, 9) == 0 ? (size_t)pick(0, 600) : horizon);
    }
    expect(given[BATCH_ON][0] + given[FORECASTS_ON][0] - taken > (unsigned long)rounds / 4, "most calls were refused");
}

/* ---- relative errors (W-205): every call of the station on a group with bit 3 does what it does on the one without */
static void same_numbers(int rounds) {
    what = "a group with relative errors";
    for (int i = 0; i < rounds; i++) {
        struct ref_state st = random_state();
        uint8_t bytes[MOST], other[MOST];
        st.model &= ~RELATIVE;
        size_t n = ref_group(&st, bytes);
        st.model |= RELATIVE;
        ref_group(&st, other);
        uint32_t horizon = (uint32_t)pick(1, 512);
        int32_t reading = (int32_t)pick(-1000000, 1000000);
        int code = try_forecast(bytes, n, horizon);
        int64_t forecast = number;
        expect(try_forecast(other, n, horizon) == code && number == forecast, "another forecast");
        for (int call = STEP; call <= SWITCH; call++) {
            code = rewrite(call, bytes, n, reading);
            int64_t e = number;
            expect(rewrite(call, other, n, reading) == code && (call != STEP || number == e), "another answer");
            expect(other[1] == (bytes[1] | RELATIVE), "another model");
            other[1] = bytes[1];
            expect(memcmp(bytes, other, n) == 0, "other numbers");
            other[1] |= RELATIVE;
        }
    }
}

/* v / 65536 to the nearest whole number, a tie up or to the even one, in the plainest way */
static int64_t nearest(int64_t v, int even) {
    int64_t whole = v >= 0 ? v / 65536 : -((-v + 65535) / 65536), left = v - 65536 * whole;
    return whole + (left > 32768 || (left == 32768 && !(even && whole % 2 == 0)));
}

/* ---- one group for a long time: readings, missing ones, refused ones and forecasts. An old one ends as a new one; a new one
 * has a score already, whose sum is soon carried into the high word */
static void long_run(int model, int m, int old, int steps) {
    uint8_t bytes[MOST];
    struct ref_state st = plain(model, m);
    if (trend_of(model))
        st.B = 256; /* with a long season a larger one is unstable, and most steps end in refusal 15 */
    if (!old)
        st.readings = st.count = 1 << 20, st.high = 5, st.low = UINT64_MAX - 5000;
    size_t n = ref_group(&st, bytes);
    if (old)
        ref_old_group(&st, bytes); /* what is left of the new form stands after it */
    uint64_t accepted = st.count, readings = st.readings, high = st.high, low = st.low;
    for (int i = 0; i < steps; i++) {
        int32_t reading = (int32_t)pick(-40, 40) + 300 * (m ? i % m : 0) - i % 5000;
        switch (pick(0, 19)) {
        case 0:
            accepted += try_missing(bytes, n) == 0;
            break;
        case 1:
            expect(try_step(bytes, n, reading < 0 ? -1000001 : 1000001) != 0, "a reading out of range was taken");
            break;
        case 2:
            expect(try_forecast(bytes, n, (uint32_t)pick(1, 512)) == 0, "a forecast was refused");
            break;
        case 3:
            if (i > steps / 2)
                expect(try_switch(bytes, n) == 0 && bytes[1] == (model | EVEN), "a switch was refused, or left another model");
            break;
        default:
            if (try_step(bytes, n, reading) == 0) {
                int64_t r = nearest(number, bytes[1] & EVEN);
                uint64_t square = (uint64_t)(r * r);
                accepted++, readings++, high += low > UINT64_MAX - square, low += square;
            }
        }
    }
    uint64_t count, score[3];
    memcpy(&count, bytes + n - 8, sizeof count);
    memcpy(score, bytes + 37, sizeof score);
    expect(count == accepted, "the count is not that of the calls accepted");
    expect(bytes[36] == 0x15 && score[0] == readings, "the readings are not those accepted");
    expect(score[1] == high && score[2] == low && (old || high > 5), "the sum is not that of the squares");
    expect(readings - st.readings > (uint64_t)steps / 2, "most calls were refused");
}

int main(void) {
    groups = map_pages(MOST);
    reference_groups = map_pages(MOST);
    number_cells = map_pages(MOST_CELLS * sizeof(int64_t));
    reading_cells = map_pages(MOST_CELLS * sizeof(int32_t));
    skip_cells = map_pages(MOST_CHANGES * sizeof(uint64_t));
    repeat_cells = map_pages(MOST_CHANGES * sizeof(uint64_t));
    listed_cases();
    for (int old = 0; old < 2; old++) {
        cuts_and_commands(0, old);
        cuts_and_commands(1, old);
    }
    region();
    old_groups();
    scores();
    operands();
    calendars();
    damaged_groups(200000);
    random_calendars(50000);
    same_numbers(20000);
    what = "a long run";
    for (int i = 0; i < MODELS; i++)
        if (!seasonal(models[i]))
            long_run(models[i], 0, i % 2, 200000);
        else
            for (size_t j = 0; j < sizeof periods / sizeof *periods; j++)
                long_run(models[i], periods[j], (i + (int)j) % 2, 100000);
    all_given();
    printf("station: %lu calls, %lu failures\n", calls, failures);
    return failures != 0;
}
