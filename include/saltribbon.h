/*
 * saltribbon.h: durations of whole seconds and nanoseconds, for C99 and C++.
 *
 * A duration is a pair: secs, any uint64_t, and nanos, 0 to 999999999. It goes
 * in as two numbers and means secs * 10^9 + nanos nanoseconds.
 *
 * Result.  Every function but salt_fmt returns 0, or the number of the refusal.
 *
 * Answer.  `out` points to `len` bytes that the caller lends. The answer is
 * SALT_ANSWER_BYTES bytes at the front of `out`, little-endian on every machine.
 * The bytes after them stay as they were.  (salt_fmt writes its text and no more.)
 *
 *     duration               seconds in 8 bytes, nanoseconds in 4, 4 zeros
 *     wide count             low word in 8 bytes, high word in 8
 *     whole seconds          8 bytes, 8 zeros
 *     part below a second    4 bytes, 12 zeros
 *     double, float          its IEEE 754 bits in 8 or 4 bytes, zeros after
 *     zero or not            1 or 0 in the first byte, 15 zeros
 *     order                  0 less, 1 equal, 2 greater in the first byte, 15 zeros
 *
 * List.  Rows lie in two runs of bytes: the seconds, 8 bytes a row, and the
 * nanoseconds, 4 bytes a row, both little-endian and at any address. The lengths
 * are in bytes; `first` and `end` count rows, and the row `end` is left out.
 *
 * Refusal.  A refused call changes nothing: no byte of `out` is written.
 *
 * Input.  Any numbers and any length are answered. No call traps, allocates or
 * keeps a pointer. A buffer that is too short is refused.
 *
 * Where several refusals apply, the first of this order is returned:
 * SALT_BAD_DURATION, SALT_BAD_UNIT, SALT_BAD_OPTIONS, SALT_BAD_RANGE,
 * SALT_BAD_ROW, then the numbers 1 to 5, and SALT_NO_ROOM last.
 */
#ifndef SALTRIBBON_H
#define SALTRIBBON_H

#include <stddef.h>
#include <stdint.h>
#include <string.h>

#ifdef __cplusplus
extern "C" {
#endif

/* The bytes that an answer takes; with a shorter `out` a call is SALT_NO_ROOM. */
#define SALT_ANSWER_BYTES 16

/* The number in the first eight bytes of an answer, and in four: salt_read_u32(out + 8) reads the nanoseconds. */
static inline uint32_t salt_read_u32(const uint8_t *at)
{
    return (uint32_t)at[0] | (uint32_t)at[1] << 8 | (uint32_t)at[2] << 16 | (uint32_t)at[3] << 24;
}

static inline uint64_t salt_read_u64(const uint8_t *at)
{
    return (uint64_t)salt_read_u32(at) | (uint64_t)salt_read_u32(at + 4) << 32;
}

/* The float in the first bytes of an answer, where the machine's floats are those of IEEE 754. */
static inline double salt_read_f64(const uint8_t *at)
{
    uint64_t bits = salt_read_u64(at);
    double value;
    memcpy(&value, &bits, sizeof value);
    return value;
}

static inline float salt_read_f32(const uint8_t *at)
{
    uint32_t bits = salt_read_u32(at);
    float value;
    memcpy(&value, &bits, sizeof value);
    return value;
}

/* The refusals. */
enum salt_refusal {
    SALT_NEGATIVE = 1,        /* a float to be converted is below zero */
    SALT_OVERFLOW_OR_NAN = 2, /* a float to be converted is NaN, or 2^64 or more */
    SALT_OVERFLOW = 3,        /* the exact result is above the largest duration */
    SALT_UNDERFLOW = 4,       /* a subtraction goes below zero */
    SALT_ZERO_DIVISOR = 5,    /* a divisor is zero */
    SALT_BAD_ROW = 6,         /* a row of a list has nanos of 10^9 or more */
    SALT_BAD_RANGE = 7,       /* a range of rows does not fit its list */
    SALT_BAD_OPTIONS = 8,     /* a printing option is not allowed */
    SALT_NO_ROOM = 9,         /* len is less than the bytes needed */
    SALT_BAD_DURATION = 10,   /* a duration handed in has nanos of 10^9 or more */
    SALT_BAD_UNIT = 11        /* a unit number is above 7 */
};

/* The units of salt_from_unit. */
enum salt_unit {
    SALT_UNIT_NANOSECONDS = 0,
    SALT_UNIT_MICROSECONDS = 1,
    SALT_UNIT_MILLISECONDS = 2,
    SALT_UNIT_SECONDS = 3,
    SALT_UNIT_MINUTES = 4,
    SALT_UNIT_HOURS = 5,
    SALT_UNIT_DAYS = 6,
    SALT_UNIT_WEEKS = 7
};

/* The printing options of salt_fmt that are left out: no precision, no width. */
#define SALT_NONE (-1)

/* The longest text of salt_fmt; a buffer of that many bytes is never too short for it. */
#define SALT_TEXT_BYTES 278

/* Where salt_fmt puts the text in its width. */
enum salt_align {
    SALT_ALIGN_NONE = 0, /* left, too */
    SALT_ALIGN_LEFT = 1,
    SALT_ALIGN_CENTRE = 2, /* the smaller half of the fill in front */
    SALT_ALIGN_RIGHT = 3
};

/* ---- Constructors: the answer is a duration. ---- */

/* secs seconds and nanos nanoseconds; nanos of 10^9 and more are carried into the seconds. */
uint32_t salt_new(uint64_t secs, uint32_t nanos, uint8_t *out, size_t len);

/* count times the unit of that number (enum salt_unit). */
uint32_t salt_from_unit(uint64_t count, uint32_t unit, uint8_t *out, size_t len);

/* high * 2^64 + low nanoseconds. */
uint32_t salt_from_nanos_u128(uint64_t low, uint64_t high, uint8_t *out, size_t len);

/* ---- Constants: the answer is a duration. ---- */

/* One second. */
uint32_t salt_second(uint8_t *out, size_t len);

/* One millisecond. */
uint32_t salt_millisecond(uint8_t *out, size_t len);

/* One microsecond. */
uint32_t salt_microsecond(uint8_t *out, size_t len);

/* One nanosecond. */
uint32_t salt_nanosecond(uint8_t *out, size_t len);

/* The shortest duration: 0 s. */
uint32_t salt_zero(uint8_t *out, size_t len);

/* The longest duration: 18446744073709551615 s and 999999999 ns. */
uint32_t salt_max(uint8_t *out, size_t len);

/* ---- Whole seconds, and the part below a second. ---- */

/* The whole seconds (8 bytes). */
uint32_t salt_as_secs(uint64_t secs, uint32_t nanos, uint8_t *out, size_t len);

/* The part below a second in milliseconds, floored: 0 to 999 (4 bytes). */
uint32_t salt_subsec_millis(uint64_t secs, uint32_t nanos, uint8_t *out, size_t len);

/* The part below a second in microseconds, floored: 0 to 999999 (4 bytes). */
uint32_t salt_subsec_micros(uint64_t secs, uint32_t nanos, uint8_t *out, size_t len);

/* The part below a second in nanoseconds: 0 to 999999999 (4 bytes). */
uint32_t salt_subsec_nanos(uint64_t secs, uint32_t nanos, uint8_t *out, size_t len);

/* ---- The whole duration in one unit: the answer is a wide count. ---- */

/* The duration in milliseconds, floored. */
uint32_t salt_as_millis(uint64_t secs, uint32_t nanos, uint8_t *out, size_t len);

/* The duration in microseconds, floored. */
uint32_t salt_as_micros(uint64_t secs, uint32_t nanos, uint8_t *out, size_t len);

/* The duration in nanoseconds. */
uint32_t salt_as_nanos(uint64_t secs, uint32_t nanos, uint8_t *out, size_t len);

/* ---- Zero and order. ---- */

/* 1 where the duration is zero, 0 otherwise (first byte). */
uint32_t salt_is_zero(uint64_t secs, uint32_t nanos, uint8_t *out, size_t len);

/* The first duration against the second: 0 less, 1 equal, 2 greater (first byte). */
uint32_t salt_cmp(uint64_t secs, uint32_t nanos, uint64_t secs2, uint32_t nanos2, uint8_t *out, size_t len);

/* ---- Arithmetic: the answer is a duration. ---- */

/* The first and the second together; SALT_OVERFLOW above the longest duration. */
uint32_t salt_checked_add(uint64_t secs, uint32_t nanos, uint64_t secs2, uint32_t nanos2, uint8_t *out, size_t len);

/* The first and the second together, at most the longest duration. */
uint32_t salt_saturating_add(uint64_t secs, uint32_t nanos, uint64_t secs2, uint32_t nanos2, uint8_t *out, size_t len);

/* The first less the second; SALT_UNDERFLOW below zero. */
uint32_t salt_checked_sub(uint64_t secs, uint32_t nanos, uint64_t secs2, uint32_t nanos2, uint8_t *out, size_t len);

/* The first less the second, at least zero. */
uint32_t salt_saturating_sub(uint64_t secs, uint32_t nanos, uint64_t secs2, uint32_t nanos2, uint8_t *out, size_t len);

/* The longer of the two less the shorter. */
uint32_t salt_abs_diff(uint64_t secs, uint32_t nanos, uint64_t secs2, uint32_t nanos2, uint8_t *out, size_t len);

/* The duration times the factor; SALT_OVERFLOW above the longest duration. */
uint32_t salt_checked_mul(uint64_t secs, uint32_t nanos, uint32_t factor, uint8_t *out, size_t len);

/* The duration times the factor, at most the longest duration. */
uint32_t salt_saturating_mul(uint64_t secs, uint32_t nanos, uint32_t factor, uint8_t *out, size_t len);

/* The duration over the divisor, floored to a nanosecond; SALT_ZERO_DIVISOR for 0. */
uint32_t salt_checked_div(uint64_t secs, uint32_t nanos, uint32_t divisor, uint8_t *out, size_t len);

/* ---- One duration over another: the answer is a wide count. ---- */

/* How often the second goes into the first, floored; SALT_ZERO_DIVISOR where the second is zero. */
uint32_t salt_div_duration_floor(uint64_t secs, uint32_t nanos, uint64_t secs2, uint32_t nanos2, uint8_t *out, size_t len);

/* The same, rounded up to the next whole number. */
uint32_t salt_div_duration_ceil(uint64_t secs, uint32_t nanos, uint64_t secs2, uint32_t nanos2, uint8_t *out, size_t len);

/* ---- The sum of a list: the answer is a duration. ---- */

/* The rows from first up to end together, exactly; zero for an empty range. SALT_BAD_RANGE, then SALT_BAD_ROW anywhere in the range, then SALT_OVERFLOW. */
uint32_t salt_sum(const uint8_t *secs, size_t secs_len, const uint8_t *nanos, size_t nanos_len, uint64_t first, uint64_t end, uint8_t *out, size_t len);

/* ---- Floats out: each operation rounds once, to nearest, half to even. ---- */

/* The seconds: secs + nanos / 10^9 (8 bytes). */
uint32_t salt_as_secs_f64(uint64_t secs, uint32_t nanos, uint8_t *out, size_t len);

/* The seconds: secs + nanos / 10^9 (4 bytes). */
uint32_t salt_as_secs_f32(uint64_t secs, uint32_t nanos, uint8_t *out, size_t len);

/* The milliseconds: secs * 1000 + nanos / 10^6 (8 bytes). */
uint32_t salt_as_millis_f64(uint64_t secs, uint32_t nanos, uint8_t *out, size_t len);

/* The milliseconds: secs * 1000 + nanos / 10^6 (4 bytes). */
uint32_t salt_as_millis_f32(uint64_t secs, uint32_t nanos, uint8_t *out, size_t len);

/* The first over the second, each as secs * 10^9 + nanos; infinity over zero, and for zero over zero the NaN 0x7FF8000000000000 (8 bytes). */
uint32_t salt_div_duration_f64(uint64_t secs, uint32_t nanos, uint64_t secs2, uint32_t nanos2, uint8_t *out, size_t len);

/* The same as a float; the NaN is 0x7FC00000 (4 bytes). */
uint32_t salt_div_duration_f32(uint64_t secs, uint32_t nanos, uint64_t secs2, uint32_t nanos2, uint8_t *out, size_t len);

/* ---- Floats in: the answer is a duration; SALT_NEGATIVE below zero (-0.0 is zero), SALT_OVERFLOW_OR_NAN for NaN and from 2^64 on. ---- */

/* That many seconds, exactly, then rounded to the nearest nanosecond, half to even. */
uint32_t salt_try_from_secs_f64(double seconds, uint8_t *out, size_t len);

/* The same from a float. */
uint32_t salt_try_from_secs_f32(float seconds, uint8_t *out, size_t len);

/* The seconds as a double, times the factor, as salt_try_from_secs_f64 has it. */
uint32_t salt_mul_f64(uint64_t secs, uint32_t nanos, double factor, uint8_t *out, size_t len);

/* The seconds as a double, over the divisor, as salt_try_from_secs_f64 has it; a divisor of zero gives infinity or NaN. */
uint32_t salt_div_f64(uint64_t secs, uint32_t nanos, double divisor, uint8_t *out, size_t len);

/* salt_mul_f64 of the factor as a double. */
uint32_t salt_mul_f32(uint64_t secs, uint32_t nanos, float factor, uint8_t *out, size_t len);

/* salt_div_f64 of the divisor as a double. */
uint32_t salt_div_f32(uint64_t secs, uint32_t nanos, float divisor, uint8_t *out, size_t len);

/* ---- Text: the length in bytes comes back, or the refusal's number negated. ---- */

/*
 * The options of salt_fmt; any other number is SALT_BAD_OPTIONS.
 *
 *     plus         1 for a '+' in front, else 0
 *     precision    0 to 255 digits behind the point, half to even; SALT_NONE: as many as there are
 *     width        0 to 255 characters at least; SALT_NONE: as many as there are
 *     align        enum salt_align
 *     fill         the byte that fills the width, 0x20 to 0x7E
 */

/* The duration in s, ms, \xC2\xB5s or ns, such as 1.5s, in UTF-8 without a zero at its end; the bytes behind it stay. */
int64_t salt_fmt(uint64_t secs, uint32_t nanos, int64_t plus, int64_t precision, int64_t width, int64_t align, int64_t fill, uint8_t *out, size_t len);

#ifdef __cplusplus
}
#endif

#endif
