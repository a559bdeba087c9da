/* bench time                 each row's name and ns a call: the proved library, then each build of the reference; the least
 *                            of many rounds, in each of which all of them take their turn
 * bench count ROW WHO N      N calls of one row by one of them, and nothing else: for an instruction counter
 * bench function ROW WHO     the name of the C function that this calls
 * bench rows, bench builds   the names of the rows, of the builds */
#include "bench_api.h"
#include "calls.h"
#include "forecaster.h"
#include "reference.h"
#include <stdio.h>
#include <stdlib.h>
#include <string.h>
#include <time.h>

static const struct calls proved = {"proved",     forecaster_step,     forecaster_missing,      forecaster_forecast, bench_forecasts,
                                    bench_weight, bench_weight_groups, bench_relative_variance, bench_batch,
                                    bench_batch_on, bench_forecasts_on};

/* BUILDS is BUILD(gcc_O2) BUILD(gcc_O3) .., as bench/run has it */
#define BUILD(name) extern const struct calls name##_calls;
BUILDS
#undef BUILD
#define BUILD(name) &name##_calls,
static const struct calls *const versions[] = {&proved, BUILDS};
enum { VERSIONS = sizeof versions / sizeof *versions, READINGS = 4096, ROUNDS = 400 };

enum call { STEP, MISSING, FORECAST, FORECASTS, WEIGHT, WEIGHT_GROUPS, RELATIVE_VARIANCE, BATCH, BATCH_ON, FORECASTS_ON };
static const char *const ours[] = {"forecaster_step", "forecaster_missing",  "forecaster_forecast",     "bench_forecasts",
                                   "bench_weight",    "bench_weight_groups", "bench_relative_variance", "bench_batch",
                                   "bench_batch_on",  "bench_forecasts_on"};
static const char *const theirs[] = {"step",          "missing",           "forecast", "forecasts", "weight",
                                     "weight_groups", "relative_variance", "batch",    "batch_on",  "forecasts_on"};

struct row {
    const char *name;
    enum call call;
    int model, m;
    uint32_t horizon;
    int refused; /* by which number, 0 where the call is accepted */
};

#define EACH(name, call, h)                                                                           \
    {name " 0", call, 0, 0, h, 0}, {name " 2", call, 2, 0, h, 0}, {name " 4-24", call, 4, 24, h, 0}, \
    {name " 4-48", call, 4, 48, h, 0}, {name " 6-24", call, 6, 24, h, 0}, {name " 6-48", call, 6, 48, h, 0}

/* with ties to even (W-211): the model byte has bit 6 */
#define EVEN(name, call, h) {name "-even 2", call, 0x42, 0, h, 0}, {name "-even 6-24", call, 0x46, 24, h, 0}

/* with relative errors (W-205): bit 3 */
#define RELATIVE(name, h) {name " 8", RELATIVE_VARIANCE, 8, 0, h, 0}, {name " 14-24", RELATIVE_VARIANCE, 14, 24, h, 0}
#define SIGMA2 UINT64_C(0x3FA47AE147AE147B) /* the bits of 0.04 */

static const struct row rows[] = {
    EACH("step", STEP, 0),
    EACH("missing", MISSING, 0),
    EACH("forecast-1", FORECAST, 1),
    EACH("forecast-512", FORECAST, 512),
    EACH("all-512", FORECASTS, 512),
    {"all-on-512 6-24", FORECASTS_ON, 6, 24, 512, 0},
    EACH("weight-512", WEIGHT, 512),
    EACH("groups-512", WEIGHT_GROUPS, 512),
    EACH("batch", BATCH, 0),
    {"batch-on 4-24", BATCH_ON, 4, 24, 0, 0},
    {"batch-on 6-24", BATCH_ON, 6, 24, 0, 0},
    EVEN("step", STEP, 0),
    EVEN("forecast-512", FORECAST, 512),
    EVEN("all-512", FORECASTS, 512),
    EVEN("weight-512", WEIGHT, 512),
    EVEN("groups-512", WEIGHT_GROUPS, 512),
    EVEN("batch", BATCH, 0),
    RELATIVE("relative-1", 1),
    RELATIVE("relative-24", 24),
    RELATIVE("relative-512", 512),
    {"step-refused-5 0", STEP, 0, 0, 0, 5},
    {"step-refused-13 0", STEP, 0, 0, 0, 13},
    {"step-refused-13 6-48", STEP, 6, 48, 0, 13},
    {"step-refused-3 6-48", STEP, 6, 48, 0, 3},
    {"forecast-refused-11 6-24", FORECAST, 6, 24, 513, 11},
    {"batch-refused-3 6-48", BATCH, 6, 48, 0, 3},
};
enum { ROWS = sizeof rows / sizeof *rows };

struct lent {
    uint8_t bytes[REF_GROUP_MOST + 1];
    size_t length;
};

static int32_t readings[READINGS];

/* The calendar of the -on rows (W-208), from count 0 and place 0 over a batch. Of ten days, which have 240 steps, place 2 is
 * skipped on the fifth and used again on the tenth; the counts of the second and of the seventh are of place 12, without effect. */
enum { CHANGES = 36 };
static uint64_t skipped[CHANGES], repeated[CHANGES];

static void make_calendar(void) {
    for (int k = 0; k < CHANGES; k += 2) {
        uint64_t from = 240 * (uint64_t)k / 2;
        skipped[k] = from + 1 * 24 + 12, skipped[k + 1] = from + 4 * 24 + 2;
        repeated[k] = from + 6 * 24 + 12 - 1, repeated[k + 1] = from + 9 * 24 + 2 - 1;
    }
}

static struct lent make(const struct row *r) {
    int trend = r->model & 3;
    struct ref_state st = {.model = r->model, .m = r->m, .A = 9830, .B = trend ? 1638 : 0, .G = r->m ? 6553 : 0,
                           .F = trend == 0 ? 0 : trend == 1 ? 65536 : 62259, .l = 1376256, .b = trend ? 6553 : 0};
    for (int k = 0; k < r->m; k++)
        st.s[k] = (k % 7 - 3) * 65536;
    struct lent g = {{0}, 0};
    g.length = ref_group(&st, g.bytes);
    if (r->refused == 5)
        g.bytes[1] = 3;
    if (r->refused == 3)
        g.length++;
    return g;
}

/* what a call answered and wrote */
struct answer {
    uint8_t code;
    int64_t number;
    uint64_t weight, groups[48];
    double value, thetas[REF_MOST_HORIZON];
    size_t taken;
    int64_t cells[READINGS];
};

static inline void call(const struct row *r, const struct calls *who, struct lent *g, unsigned i, struct answer *a) {
    switch (r->call) {
    case STEP:
        a->code = who->step(g->bytes, g->length, r->refused == 13 ? 1000001 : readings[i % READINGS], &a->number);
        break;
    case MISSING:
        a->code = who->missing(g->bytes, g->length);
        break;
    case FORECAST:
        a->code = who->forecast(g->bytes, g->length, r->horizon, &a->number);
        break;
    case FORECASTS:
        a->code = who->forecasts(g->bytes, g->length, r->horizon, a->cells, READINGS);
        break;
    case WEIGHT:
        a->code = who->weight(g->bytes, g->length, r->horizon, &a->weight);
        break;
    case WEIGHT_GROUPS:
        a->code = who->weight_groups(g->bytes, g->length, r->horizon, a->groups, 48);
        break;
    case RELATIVE_VARIANCE:
        a->code = who->relative_variance(g->bytes, g->length, r->horizon, SIGMA2, &a->value, a->thetas, REF_MOST_HORIZON);
        break;
    case BATCH:
        a->code = who->batch(g->bytes, g->length, readings, READINGS, a->cells, READINGS, &a->taken);
        break;
    case BATCH_ON:
        a->code = who->batch_on(g->bytes, g->length, skipped, CHANGES, repeated, CHANGES, readings, READINGS, a->cells, READINGS,
                                &a->taken);
        break;
    case FORECASTS_ON:
        a->code = who->forecasts_on(g->bytes, g->length, skipped, CHANGES, repeated, CHANGES, r->horizon, a->cells, READINGS);
        break;
    }
}

static double now(void) {
    struct timespec t;
    clock_gettime(CLOCK_MONOTONIC, &t);
    return (double)t.tv_sec * 1e9 + (double)t.tv_nsec;
}

/* all must answer and write the same before a figure counts */
static void compare(const struct row *r) {
    static struct answer first, other;
    int many = r->call < FORECASTS ? 5000 : 3;
    for (int v = 1; v < VERSIONS; v++) {
        struct lent a = make(r), b = a;
        memset(&first, 0, sizeof first);
        memset(&other, 0, sizeof other);
        for (int i = 0; i < many; i++) {
            call(r, &proved, &a, (unsigned)i, &first);
            call(r, versions[v], &b, (unsigned)i, &other);
            if (memcmp(&first, &other, sizeof first) || memcmp(&a, &b, sizeof a) || first.code != r->refused) {
                fprintf(stderr, "%s: %s differs from the proved library at call %d\n", r->name, versions[v]->name, i);
                exit(1);
            }
        }
    }
}

static void times(const struct row *r, double *least) {
    static struct answer a;
    int batch = r->call == BATCH || r->call == BATCH_ON;
    unsigned calls = r->refused ? 1000 : batch ? 4 : r->horizon == 512 ? r->call == RELATIVE_VARIANCE ? 1 : 50 : 1000;
    for (int v = 0; v < VERSIONS; v++)
        least[v] = 1e300;
    for (int round = 0; round < ROUNDS; round++)
        for (int v = 0; v < VERSIONS; v++) {
            struct lent g = make(r);
            double from = now();
            for (unsigned i = 0; i < calls; i++)
                call(r, versions[v], &g, i, &a);
            double took = (now() - from) / calls;
            if (took < least[v])
                least[v] = took;
        }
}

static const struct row *row_named(const char *name) {
    for (int i = 0; i < ROWS; i++)
        if (!strcmp(name, rows[i].name))
            return &rows[i];
    fprintf(stderr, "no row %s\n", name);
    exit(2);
}

static const struct calls *build_named(const char *name) {
    for (int v = 0; v < VERSIONS; v++)
        if (!strcmp(name, versions[v]->name))
            return versions[v];
    fprintf(stderr, "no build %s\n", name);
    exit(2);
}

int main(int argc, char **argv) {
    uint32_t x = 12345;
    for (int i = 0; i < READINGS; i++) {
        x = x * 1664525u + 1013904223u;
        readings[i] = 15 + (int32_t)(x >> 28);
    }
    make_calendar();
    if (argc == 2 && !strcmp(argv[1], "rows")) {
        for (int i = 0; i < ROWS; i++)
            puts(rows[i].name);
        return 0;
    }
    if (argc == 2 && !strcmp(argv[1], "builds")) {
        for (int v = 0; v < VERSIONS; v++)
            puts(versions[v]->name);
        return 0;
    }
    if (argc == 4 && !strcmp(argv[1], "function")) {
        const struct row *r = row_named(argv[2]);
        const struct calls *who = build_named(argv[3]);
        if (who == &proved)
            puts(ours[r->call]);
        else
            printf("%s_%s\n", who->name, theirs[r->call]);
        return 0;
    }
    if (argc == 5 && !strcmp(argv[1], "count")) {
        static struct answer a;
        const struct row *r = row_named(argv[2]);
        const struct calls *who = build_named(argv[3]);
        struct lent g = make(r);
        for (unsigned i = 0, n = (unsigned)atoi(argv[4]); i < n; i++)
            call(r, who, &g, i, &a);
        return 0;
    }
    if (argc == 2 && !strcmp(argv[1], "time")) {
        for (int i = 0; i < ROWS; i++)
            compare(&rows[i]);
        for (int i = 0; i < ROWS; i++) {
            double least[VERSIONS];
            times(&rows[i], least);
            printf("%s", rows[i].name);
            for (int v = 0; v < VERSIONS; v++)
                printf(" %.1f", least[v]);
            puts("");
            fflush(stdout);
        }
        return 0;
    }
    fputs("usage: bench time | rows | builds | function ROW WHO | count ROW WHO N\n", stderr);
    return 2;
}
