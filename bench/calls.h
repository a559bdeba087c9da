/* The calls that are measured, as one table for each build of them. */
#ifndef CALLS_H
#define CALLS_H

#include <stddef.h>
#include <stdint.h>

struct calls {
    const char *name;
    uint8_t (*step)(uint8_t *group, size_t length, int32_t reading, int64_t *residual);
    uint8_t (*missing)(uint8_t *group, size_t length);
    uint8_t (*forecast)(const uint8_t *group, size_t length, uint32_t horizon, int64_t *value);
    uint8_t (*forecasts)(const uint8_t *group, size_t length, uint32_t horizon, int64_t *values, size_t room);
    uint8_t (*weight)(const uint8_t *group, size_t length, uint32_t horizon, uint64_t *weight);
    uint8_t (*weight_groups)(const uint8_t *group, size_t length, uint32_t horizon, uint64_t *cells, size_t room);
    uint8_t (*relative_variance)(const uint8_t *group, size_t length, uint32_t horizon, uint64_t sigma2, double *value, double *thetas,
                                 size_t room);
    uint8_t (*batch)(const uint8_t *group, size_t length, const int32_t *readings, size_t n, int64_t *levels, size_t room,
                     size_t *taken);
    uint8_t (*batch_on)(const uint8_t *group, size_t length, const uint64_t *skipped, size_t skips, const uint64_t *repeated,
                        size_t repeats, const int32_t *readings, size_t n, int64_t *levels, size_t room, size_t *taken);
    uint8_t (*forecasts_on)(const uint8_t *group, size_t length, const uint64_t *skipped, size_t skips, const uint64_t *repeated,
                            size_t repeats, uint32_t horizon, int64_t *values, size_t room);
};

#endif
