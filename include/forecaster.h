/* The room forecaster's calls for the station's C code, on numbers and on a lent slice that holds one group.
 *
 * A group is what saving a state writes: the commands 10 or 18 (model byte, m byte, A, B, G, F of 32 bits), 11 (l, b of
 * 64 bits), 15 (readings, high, low of 64 bits), 12 for places 0 to m - 1 rising (place byte, value of 64 bits) and 13
 * (p byte, count of 64 bits), operands low byte first, signed ones in two's complement: 71 + 10 * m bytes,
 * FORECASTER_GROUP_LENGTH(m). Level, trend and season values are whole grains; a grain is 1/65536 of a reading unit. Bit 6
 * of the model byte (0x40) is the rounding rule: what is not a whole number of grains is rounded to the nearest one, and a
 * tie goes up where the bit is 0, to the even number where it is 1. Groups saved before there was such a rule have 0 there.
 * Bit 3 (0x08) says that the errors are relative, in proportion to the forecast: valid model bytes are 0, 1, 2, 4, 5 and 6,
 * each with either bit, both or none. It chooses the variance that the program gives of the group, by command 32 and not 31;
 * every call here does the same whole numbers with it as without, and keeps it.
 *
 * Command 15 is the score, how close the forecasts were: `readings` real readings were taken, missing ones not among them,
 * and high * 2^64 + low is the sum of the squares of their e, each rounded to a whole reading unit by the state's rule. The
 * root of sum / readings is their root mean square.
 *
 * An old group, saved before there was a score, has no command 15: 46 + 10 * m bytes, FORECASTER_OLD_GROUP_LENGTH(m). It
 * is a group with a score of 0 and may be lent in a slice of FORECASTER_GROUP_LENGTH(m) bytes: the 25 bytes after it are
 * not looked at, and the first accepted step, missing reading or switch fills the slice with the new group. With fewer
 * bytes after it these three are refusal 12; a forecast takes it with 0 to 25.
 *
 * 10 opens gains inside the usual region, B at most A and A + G at most 65536, and refuses others by 16. 18 opens those,
 * which make the curve swing, and refuses gains inside by 7. A group that was saved with such gains before there was an 18
 * is taken once its first byte is changed from 0x10 to 0x18. An accepted call leaves that byte as it is.
 *
 * The slice is `length` bytes at `group`, and holds one group and nothing after it, or an old one as above. Any bytes may
 * be lent, of any length, and any numbers: what is not valid is refused. The pointers are not null, and the numbers lent do
 * not overlap the group.
 *
 * Each call returns 0, or the number of the first refusal in checking order. Those of the group come first and are the
 * same in every call: 2 to 10, 16 and 17, then 3 for any byte after it, or for more than 25 bytes after an old one. A
 * refused call leaves the group and the lent number as found. The calls keep nothing between them and may run at the same
 * time on different groups.
 */
#ifndef FORECASTER_H
#define FORECASTER_H

#include <stddef.h>
#include <stdint.h>

#ifdef __cplusplus
extern "C" {
#endif

/* The length of the group of a state with m season values, m from 0 to 48, and that of an old group. */
#define FORECASTER_GROUP_LENGTH(m) (71 + 10 * (size_t)(m))
#define FORECASTER_OLD_GROUP_LENGTH(m) (46 + 10 * (size_t)(m))

/* The refusals that a call can return; 18 and 19 are of the variance of relative errors, 20 of calls on a calendar of clock
 * changes, 21 of the program's commands 50 and 51 and of the calls that keep a state, and no call here returns them. */
enum {
    FORECASTER_ACCEPTED = 0,
    FORECASTER_UNKNOWN_COMMAND = 2, /* The first byte of a command is none of the commands. */
    FORECASTER_OUT_OF_PLACE = 3,    /* The command isn't one due, or a byte follows the group, or more than 25 an old one. */
    FORECASTER_TRUNCATED = 4,       /* The bytes end inside a command, or before the group is finished. */
    FORECASTER_BAD_MODEL = 5,       /* The model byte is not valid. */
    FORECASTER_BAD_PERIOD = 6,      /* The season length is not one the model allows. */
    FORECASTER_BAD_PARAMETER = 7,   /* A parameter is not one the model allows; or 18, and the gains are inside the region. */
    FORECASTER_WRONG_INDEX = 8,     /* A season's place is not the one due. */
    FORECASTER_BAD_VALUE = 9,       /* A level, trend or season value is out of range, or not 0 where the model has none. */
    FORECASTER_BAD_POSITION = 10,   /* The place is out of range, or the count is above 2^48. */
    FORECASTER_BAD_HORIZON = 11,    /* The horizon is outside 1 to 512. */
    FORECASTER_SHORT_SLICE = 12,    /* An old group is to be rewritten, and the slice has no room for the new form. */
    FORECASTER_BAD_READING = 13,    /* The reading is out of range. */
    FORECASTER_COUNT_FULL = 14,     /* The count already stands at 2^48. */
    FORECASTER_LEAVES_RANGE = 15,   /* A new level, trend or season value would leave its range. */
    FORECASTER_UNUSUAL_GAINS = 16,  /* 10, and the gains are outside the usual region. Checked right after 7. */
    FORECASTER_BAD_SCORE = 17,      /* The readings exceed the count, or the sum readings * 2^52. Checked right after 10. */
    FORECASTER_BAD_SIGMA2 = 18,     /* The bits of sigma^2 exceed those of 1.0. Checked right after 11. */
    FORECASTER_NOT_FINITE = 19,     /* A theta, an S or the variance is not finite. Checked last. */
    FORECASTER_BAD_CALENDAR = 20,   /* A list doesn't rise or shares a count, a window isn't valid, or m isn't 24. */
    FORECASTER_NO_CHECKPOINT = 21   /* The name is above 3, or holds no state to bring back. Checked right after 17. */
};

/* One step: takes the reading, a whole number from -1,000,000 to 1,000,000, into the group's state. An accepted step
 * rewrites the group (l, b, the score, the season value at place p, p and the count; an old one whole) and puts
 * e = 65536 * y - q, in grains, into *residual. Refusals: those of the group, then 12, 13, 14, 15. */
uint8_t forecaster_step(uint8_t *group, size_t length, int32_t reading, int64_t *residual);

/* A missing reading: a model with trend goes on as its own forecast does, so that the forecast for h after it is the one
 * for h + 1 before it: l becomes l + d and b becomes d, which is F * b / 65536 to the nearest grain. Without
 * trend l and b stay. The season values and the score stay, p moves on and the count rises by one. An accepted one rewrites
 * the group. Refusals: those of the group, then 12, 14, 15. */
uint8_t forecaster_missing(uint8_t *group, size_t length);

/* Switches the group's state to rounding with ties to even: sets bit 6 of its model byte. No value changes, and a second
 * switch changes nothing. There is no way back. An accepted one leaves an old group in the new form. Refusals:
 * those of the group, then 12. */
uint8_t forecaster_switch_to_even(uint8_t *group, size_t length);

/* The forecast for horizon h, 1 to 512, in grains, into *value. The group is not written, so an old one needs no room.
 * Refusals: those of the group, then 11. */
uint8_t forecaster_forecast(const uint8_t *group, size_t length, uint32_t horizon, int64_t *value);

#ifdef __cplusplus
}
#endif

#endif
