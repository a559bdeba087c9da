/* One build of tests/c/reference.c under names of its own: compiled once by each compiler at each level, -DVERSION=gcc_O2
 * say, so that all builds stand in one program. */
#include "calls.h"

#define PASTE(a, b) a##_##b
#define NAME(a, b) PASTE(a, b)
#define TEXT(a) #a
#define QUOTED(a) TEXT(a)

#define ref_step NAME(VERSION, step)
#define ref_missing NAME(VERSION, missing)
#define ref_forecast NAME(VERSION, forecast)
#define ref_forecasts NAME(VERSION, forecasts)
#define ref_weight NAME(VERSION, weight)
#define ref_weight_groups NAME(VERSION, weight_groups)
#define ref_relative_variance NAME(VERSION, relative_variance)
#define ref_batch NAME(VERSION, batch)
#define ref_batch_on NAME(VERSION, batch_on)
#define ref_forecasts_on NAME(VERSION, forecasts_on)
#define ref_switch_to_even NAME(VERSION, switch_to_even)
#define ref_group NAME(VERSION, group)
#define ref_old_group NAME(VERSION, old_group)
#include "reference.c"

const struct calls NAME(VERSION, calls) = {QUOTED(VERSION), ref_step,          ref_missing,           ref_forecast, ref_forecasts,
                                           ref_weight,      ref_weight_groups, ref_relative_variance, ref_batch,
                                           ref_batch_on,    ref_forecasts_on};
