/* Documents 01 and 02 in C, written from those papers and not from the proved code: the station's calls, and those for a
 * batch and all horizons, both on a calendar too, the weight and the variance of relative errors, on a slice that holds one
 * group. The group is checked where it lies and only what a call moves is written. The tests compare the proved calls with
 * these, and the benchmark measures both.
 *
 * An old group, without command 15 (W-204), may have up to 25 bytes after it, which are not looked at. The calls that write
 * the group, a reading, a missing reading and the switch, need those 25, else they are refusal 12, and leave the new form.
 *
 * Each call returns 0 or the number of the first refusal in checking order: 2 to 10, 16 and 17 of the group, 3 for any byte
 * after it, or more than 25 after an old one, 12 as above, then the call's own. A refused call writes nothing, but for a
 * batch: see there. */
#ifndef REFERENCE_H
#define REFERENCE_H

#include <stddef.h>
#include <stdint.h>

enum { REF_MOST_SEASON = 48, REF_MOST_HORIZON = 512, REF_GROUP_MOST = 71 + 10 * REF_MOST_SEASON };

/* The numbers of a state, in document 01's letters. */
struct ref_state {
    int outside; /* 1 where command 18 opens it and not 10 (W-201) */
    int model, m;
    uint32_t A, B, G, F;
    int64_t l, b, s[REF_MOST_SEASON];
    int p;
    uint64_t count;
    uint64_t readings, high, low; /* the score (W-204): real readings, and the words of the sum of R(e)^2 over them */
};

/* Writes the group of any numbers, with season values for places 0 to m - 1; how many bytes. Nothing is checked. */
size_t ref_group(const struct ref_state *numbers, uint8_t *bytes);

/* The same in the old form, which has no score. */
size_t ref_old_group(const struct ref_state *numbers, uint8_t *bytes);

/* A reading: e into *residual. 13, 14, 15. */
uint8_t ref_step(uint8_t *group, size_t length, int32_t reading, int64_t *residual);

/* A missing reading. 14, 15. */
uint8_t ref_missing(uint8_t *group, size_t length);

/* Ties to even from here on (W-211): bit 6 of the model byte is set, and no value changes. */
uint8_t ref_switch_to_even(uint8_t *group, size_t length);

/* The forecast for one horizon into *value. 11. */
uint8_t ref_forecast(const uint8_t *group, size_t length, uint32_t horizon, int64_t *value);

/* The forecasts for 1 to the horizon into the first cells. 11, 12. */
uint8_t ref_forecasts(const uint8_t *group, size_t length, uint32_t horizon, int64_t *values, size_t room);

/* The same on a calendar of clock changes (W-208): two lists of step counts, at which place 2, where it is due, is skipped and
 * used again. 11, 12, 20. */
uint8_t ref_forecasts_on(const uint8_t *group, size_t length, const uint64_t *skipped, size_t skips, const uint64_t *repeated,
                         size_t repeats, uint32_t horizon, int64_t *values, size_t room);

/* The weight of a horizon into *weight. 3 for a model with relative errors (W-205), 11. */
uint8_t ref_weight(const uint8_t *group, size_t length, uint32_t horizon, uint64_t *weight);

/* The squares of C that a weight is made of, by j modulo m (W-210), into the first m cells, or the first. 3 as above, 11, 12. */
uint8_t ref_weight_groups(const uint8_t *group, size_t length, uint32_t horizon, uint64_t *cells, size_t room);

/* The variance of a model with relative errors (W-205) into *value, and theta of 1 to the horizon into the first cells;
 * sigma2 is the bits of a double. 3 for the other models, 11, 18, 12, 19. Compiled without fused operations
 * (-ffp-contract=off), it rounds as the paper says. */
uint8_t ref_relative_variance(const uint8_t *group, size_t length, uint32_t horizon, uint64_t sigma2, double *value,
                              double *thetas, size_t room);

/* A batch from the group's state, which stays as it is: cell k gets the level after reading k. 12, then each reading's
 * 13, 14, 15, at the first of which it halts. *taken gets the readings taken, 0 where it was refused before the first. */
uint8_t ref_batch(const uint8_t *group, size_t length, const int32_t *readings, size_t n, int64_t *levels, size_t room,
                  size_t *taken);

/* The same on a calendar. 12, 20, then each reading's. */
uint8_t ref_batch_on(const uint8_t *group, size_t length, const uint64_t *skipped, size_t skips, const uint64_t *repeated,
                     size_t repeats, const int32_t *readings, size_t n, int64_t *levels, size_t room, size_t *taken);

#endif
