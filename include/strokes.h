/* Strokes and their spectra: what a driver of a pad calls. docs/DRIVERS.md says how to build, link and use it.
 *
 * Every call works in memory that its caller lends, and keeps none of it. A list is a pointer and then how many
 * elements it has. No pointer may be null, also not that of a list of none; each list must have so many elements; and
 * what a call may write must not overlap anything else that the call is given. Nothing more is asked: whatever the
 * numbers are, a call answers or refuses.
 *
 * A call that is refused changes nothing: every list and every answer is as it was. A call that is granted makes what is
 * said of it, leaves zeros in all of `work`, and leaves every other list as it was. `work` has at least N +
 * STROKES_SCRATCH elements, where N is the length of the plan. */
#ifndef STROKES_H
#define STROKES_H

#include <stddef.h>
#include <stdint.h>

#ifdef __cplusplus
extern "C" {
#endif

enum {
    STROKES_MOST_BYTES = 65536, /* of a stroke file */
    STROKES_MOST_SAMPLES = 512, /* of a stroke, and of a plan */
    STROKES_MOST_RADICES = 9,   /* of a plan */
    STROKES_SCRATCH = 8         /* what `work` has beside N */
};

/* What a call came to: all zero where it is granted; else the number of the refusal, its layer (1 the file, 2 the length
 * or the plan, 3 the memory and the calls on it) and its place. docs/REFUSALS.md has the numbers. In the order of their
 * tests, the numbers that a call can give are listed with it. */
typedef struct {
    uint32_t number;
    uint32_t layer;
    size_t place;
} strokes_status;

/* ---- Strokes: samples in whole counts, x and y from -1023 to 1023; pressures from 0 to 1023, as many as there are
 * samples, or a list of none. */

typedef struct {
    int16_t x, y;
} strokes_counts;

typedef struct {
    size_t samples;
    size_t pressures; /* as many, or 0 */
} strokes_heading;

/* The pair R of a lag, in whole counts. */
typedef struct {
    int64_t x, y;
} strokes_sum;

/* The least lags of the largest sums. Where either stroke has no pressures, `pressed` and `pressure` are 0. */
typedef struct {
    size_t path;
    size_t pressed;
    size_t pressure;
} strokes_lags;

/* Reads the stroke in a file to the front of `path` and of `pressure`; what lies behind stays. Lists of
 * STROKES_MOST_SAMPLES always suffice. 11, 12, 13, 14, 15, 16; 31 a list is too short. */
strokes_status strokes_read(const uint8_t *bytes, size_t bytes_len, strokes_counts *path, size_t path_len,
                            uint16_t *pressure, size_t pressure_len, strokes_heading *heading);

/* Writes the file of a stroke, without notes, to the front of `out`; what lies behind stays. `length` is its bytes, at
 * most 6 for each sample and 8. 31, 33, 34. */
strokes_status strokes_write(const strokes_counts *path, size_t path_len, const uint16_t *pressure, size_t pressure_len,
                             uint8_t *out, size_t out_len, size_t *length);

/* Matches the stroke (a, p) with the stroke (b, q): `out`, as long as both, takes the sum of every lag. 24, 31, 33. */
strokes_status strokes_match(const strokes_counts *a, size_t a_len, const uint16_t *p, size_t p_len,
                             const strokes_counts *b, size_t b_len, const uint16_t *q, size_t q_len, strokes_sum *out,
                             size_t out_len, strokes_lags *best);

/* ---- Elements: plain words, of which any are an element. */

typedef struct {
    int32_t x, y; /* in 1/1024 of a count */
} strokes_fixed;

typedef struct {
    uint32_t word; /* modulo 2013265921 */
} strokes_pressure;

typedef struct {
    uint32_t u, v; /* modulo 2147483647 */
} strokes_path;

/* Counts as they enter the arithmetics. */
strokes_fixed strokes_sample_fixed(int16_t x, int16_t y);
strokes_path strokes_sample_path(int16_t x, int16_t y);
strokes_pressure strokes_sample_pressure(uint16_t count);

/* ---- Plans: lists of radices. N is their product. */

/* The standard plan of the length n, at the front of `radices`; what lies behind stays. STROKES_MOST_RADICES always
 * suffice. 25; 31 the list is too short. */
strokes_status strokes_standard_plan(size_t n, uint8_t *radices, size_t radices_len, size_t *count);

/* ---- Spectra. ELEMENT stands for fixed, path or pressure. */

/* The tones of the N samples in `buf`, in their place; `turns` is how many turns were made. 21, 22, 23, 24, 31, 32. */
#define STROKES_TRANSFORM(ELEMENT)                                                                                      \
    strokes_status strokes_transform_##ELEMENT(const uint8_t *radices, size_t radices_len, strokes_##ELEMENT *buf,      \
                                               size_t buf_len, strokes_##ELEMENT *work, size_t work_len, size_t *turns)
STROKES_TRANSFORM(fixed);
STROKES_TRANSFORM(path);
STROKES_TRANSFORM(pressure);

/* The samples of the N tones in `buf`, in their place. 21, 22, 23, 24, 31, 32. */
#define STROKES_INVERSE(ELEMENT)                                                                                        \
    strokes_status strokes_inverse_##ELEMENT(const uint8_t *radices, size_t radices_len, strokes_##ELEMENT *buf,        \
                                             size_t buf_len, strokes_##ELEMENT *work, size_t work_len)
STROKES_INVERSE(path);
STROKES_INVERSE(pressure);

/* The cyclic convolution of the N elements of `a` and of `b`, in the N of `out`. 21, 22, 23, 24, 31, 32. */
#define STROKES_CONVOLVE(ELEMENT)                                                                                       \
    strokes_status strokes_convolve_##ELEMENT(const uint8_t *radices, size_t radices_len, const strokes_##ELEMENT *a,   \
                                              size_t a_len, const strokes_##ELEMENT *b, size_t b_len,                   \
                                              strokes_##ELEMENT *out, size_t out_len, strokes_##ELEMENT *work,          \
                                              size_t work_len)
STROKES_CONVOLVE(path);
STROKES_CONVOLVE(pressure);

/* ---- Runs: a transform one stage at a time. A run is its radices and how many stages are done, which the caller counts:
 * deal, then stage with done = 0, 1, .., then finish. Whoever stops before the end gives up. */

/* The N samples of `buf`, in dealt order. 21, 22, 23, 24, 31, 32. */
#define STROKES_DEAL(ELEMENT)                                                                                           \
    strokes_status strokes_deal_##ELEMENT(const uint8_t *radices, size_t radices_len, strokes_##ELEMENT *buf,           \
                                          size_t buf_len, strokes_##ELEMENT *work, size_t work_len)
STROKES_DEAL(fixed);
STROKES_DEAL(path);
STROKES_DEAL(pressure);

/* The next stage after `done` of them, on what `buf` holds. 21, 22, 23, 24, 31, 32, 51. */
#define STROKES_STAGE(ELEMENT)                                                                                          \
    strokes_status strokes_stage_##ELEMENT(const uint8_t *radices, size_t radices_len, size_t done,                     \
                                           strokes_##ELEMENT *buf, size_t buf_len, strokes_##ELEMENT *work,             \
                                           size_t work_len)
STROKES_STAGE(fixed);
STROKES_STAGE(path);
STROKES_STAGE(pressure);

/* The turns that the stages made. 21, 22, 23, 52. */
strokes_status strokes_finish(const uint8_t *radices, size_t radices_len, size_t done, size_t *turns);

/* Zeros in all of `buf`, of whatever length. Never refused. */
#define STROKES_GIVE_UP(ELEMENT) void strokes_give_up_##ELEMENT(strokes_##ELEMENT *buf, size_t buf_len)
STROKES_GIVE_UP(fixed);
STROKES_GIVE_UP(path);
STROKES_GIVE_UP(pressure);

/* ---- Sheets: n samples and then their n tones in 2n cells, kept together. A sheet is its cells and n, which `open`
 * tells. ELEMENT stands for path or pressure. */

/* The tones of the first half of the cells, in the second half. 21, 22, 23, 24, 31, 32. */
#define STROKES_SHEET_OPEN(ELEMENT)                                                                                     \
    strokes_status strokes_sheet_open_##ELEMENT(const uint8_t *radices, size_t radices_len, strokes_##ELEMENT *cells,   \
                                                size_t cells_len, strokes_##ELEMENT *work, size_t work_len, size_t *n)
STROKES_SHEET_OPEN(path);
STROKES_SHEET_OPEN(pressure);

/* Sample i becomes v. 24, 31, 41. */
#define STROKES_SHEET_EDIT(ELEMENT)                                                                                     \
    strokes_status strokes_sheet_edit_##ELEMENT(strokes_##ELEMENT *cells, size_t cells_len, size_t n, size_t i,         \
                                                strokes_##ELEMENT v)
STROKES_SHEET_EDIT(path);
STROKES_SHEET_EDIT(pressure);

/* Sample t becomes the old sample (t + h) mod n. 24, 31, 41. */
#define STROKES_SHEET_SHIFT(ELEMENT)                                                                                    \
    strokes_status strokes_sheet_shift_##ELEMENT(strokes_##ELEMENT *cells, size_t cells_len, size_t n, size_t h)
STROKES_SHEET_SHIFT(path);
STROKES_SHEET_SHIFT(pressure);

/* Sample t becomes the old sample (n - t) mod n. 24, 31. */
#define STROKES_SHEET_MIRROR(ELEMENT)                                                                                   \
    strokes_status strokes_sheet_mirror_##ELEMENT(strokes_##ELEMENT *cells, size_t cells_len, size_t n)
STROKES_SHEET_MIRROR(path);
STROKES_SHEET_MIRROR(pressure);

/* n further samples are added, place by place. 24, 31. */
#define STROKES_SHEET_LAY(ELEMENT)                                                                                      \
    strokes_status strokes_sheet_lay_##ELEMENT(strokes_##ELEMENT *cells, size_t cells_len, size_t n,                    \
                                               const strokes_##ELEMENT *laid, size_t laid_len)
STROKES_SHEET_LAY(path);
STROKES_SHEET_LAY(pressure);

/* Tone k, read: reduced. The cells stay. 24, 31, 41. */
strokes_status strokes_sheet_tone_path(strokes_path *cells, size_t cells_len, size_t n, size_t k, strokes_path *tone);
strokes_status strokes_sheet_tone_pressure(strokes_pressure *cells, size_t cells_len, size_t n, size_t k,
                                           uint32_t *tone);

#ifdef __cplusplus
}
#endif

#endif
