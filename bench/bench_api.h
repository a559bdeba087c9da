/* The benchmark's entry points, of crates/bench_api: calls that the station's C interface does not have, on a slice that
 * holds one group. Each returns 0 or the refusal's number: 2 to 10, 16 and 17 of the group, 3 for any byte after it (for more
 * than 25 after an old one, without command 15), then its own. */
#ifndef BENCH_CALLS_H
#define BENCH_CALLS_H

#include <stddef.h>
#include <stdint.h>

/* A batch from the group's state: cell k gets the level after reading k, *taken the readings taken, 0 where a check before
 * the first stops it. 12, then each reading's 13, 14, 15, at the first of which it halts. The group is not written. */
uint8_t bench_batch(const uint8_t *snapshot, size_t length, const int32_t *readings, size_t n, int64_t *levels, size_t room,
                    size_t *taken);

/* The same on a calendar of clock changes (W-208): `skipped` and `repeated` are two lists of step counts, each rising, with none
 * in both; where place 2 is due at a count of the first it is skipped, at one of the second it is used again. 12, 20, then each
 * reading's. */
uint8_t bench_batch_on(const uint8_t *snapshot, size_t length, const uint64_t *skipped, size_t skips, const uint64_t *repeated,
                       size_t repeats, const int32_t *readings, size_t n, int64_t *levels, size_t room, size_t *taken);

/* The forecasts for 1 to the horizon into the first cells; nothing is written where refused. 11, 12. */
uint8_t bench_forecasts(const uint8_t *snapshot, size_t length, uint32_t horizon, int64_t *values, size_t room);

/* The same on a calendar of clock changes (W-208). 11, 12, 20. */
uint8_t bench_forecasts_on(const uint8_t *snapshot, size_t length, const uint64_t *skipped, size_t skips, const uint64_t *repeated,
                           size_t repeats, uint32_t horizon, int64_t *values, size_t room);

/* The weight of a horizon into *weight, which stays as it was where refused. 3 for a model with relative errors (W-205), 11. */
uint8_t bench_weight(const uint8_t *snapshot, size_t length, uint32_t horizon, uint64_t *weight);

/* The squares of C that a weight is made of, by j modulo m (W-210), into the first m cells, or the first without season;
 * nothing is written where refused. 3 as above, 11, 12. */
uint8_t bench_weight_groups(const uint8_t *snapshot, size_t length, uint32_t horizon, uint64_t *cells, size_t room);

/* The variance of relative errors (W-205) into *value, and theta of 1 to the horizon into the first cells; sigma2 is the bits
 * of a double. Nothing is written where refused. 3 for a model with other errors, 11, 18, 12, 19. */
uint8_t bench_relative_variance(const uint8_t *snapshot, size_t length, uint32_t horizon, uint64_t sigma2, double *value,
                                double *thetas, size_t room);

#endif
