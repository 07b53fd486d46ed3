/* The library's calls in plain C. It is built more than once: EXPORT names the build, and ONE_TABLE, where it is
 * defined, reads every power of a root from one table in place of the product of two. */
#include <string.h>

#include "baseline.h"
#include "tables.h"

/* Refuses radices that are no plan, or are for another length. */
static int planned(const uint8_t *radices, size_t count, size_t n) {
    size_t size = 1;
    if (count > STROKES_MOST_RADICES)
        return 21;
    for (size_t i = 0; i < count; i++) {
        if (radices[i] < 2 || radices[i] > 8)
            return 22;
        size *= radices[i];
        if (size > STROKES_MOST_SAMPLES)
            return 23;
    }
    return size == n ? 0 : 31;
}

/* The fixed arithmetic. */

static inline strokes_fixed sum_fixed(strokes_fixed a, strokes_fixed b) {
    return (strokes_fixed){(int32_t)((uint32_t)a.x + (uint32_t)b.x), (int32_t)((uint32_t)a.y + (uint32_t)b.y)};
}

static inline int32_t rounded(int64_t z) {
    return (int32_t)((z + (1 << 29)) >> 30);
}

static inline strokes_fixed turn_fixed(strokes_fixed a, uint32_t e) {
    strokes_fixed d = directions[e];
    return (strokes_fixed){rounded((int64_t)a.x * d.x + (int64_t)a.y * d.y),
                           rounded((int64_t)a.y * d.x - (int64_t)a.x * d.y)};
}

#define ELEMENT strokes_fixed
#define SPAN 512u
#define OF(name) name##_fixed
#include "spectra.inc"

/* The pressure arithmetic. */

enum { PRESSURE_SPAN = 7680 };
static const uint32_t P = 2013265921, PRESSURE_SPAN_INVERSE = 2013003777;

static inline uint32_t times(uint32_t a, uint32_t b) {
    return (uint32_t)((uint64_t)a * b % P);
}

static inline uint32_t pressure_power(uint32_t e) {
#ifdef ONE_TABLE
    return pressure_powers[e];
#else
    return times(pressure_high[e / 64], pressure_low[e % 64]);
#endif
}

/* What n leaves by m. Sums of reduced words need no division. */
static inline uint32_t small_remainder(uint64_t n, uint32_t m) {
    uint64_t less = n < m ? n : n - m;
    return (uint32_t)(less < m ? less : less % m);
}

static inline strokes_pressure sum_pressure(strokes_pressure a, strokes_pressure b) {
    return (strokes_pressure){small_remainder((uint64_t)a.word + b.word, P)};
}

static inline strokes_pressure difference_pressure(strokes_pressure a, strokes_pressure b) {
    return (strokes_pressure){(uint32_t)(((uint64_t)a.word + P - b.word % P) % P)};
}

static inline strokes_pressure product_pressure(strokes_pressure a, strokes_pressure b) {
    return (strokes_pressure){times(a.word, b.word)};
}

static inline strokes_pressure turn_pressure(strokes_pressure a, uint32_t e) {
    return (strokes_pressure){times(a.word, pressure_power(e))};
}

static uint32_t inverse_of_pressure(uint32_t n) {
    return times(PRESSURE_SPAN / n, PRESSURE_SPAN_INVERSE);
}

static inline strokes_pressure scaled_pressure(strokes_pressure a, uint32_t factor) {
    return (strokes_pressure){times(a.word, factor)};
}

#define ELEMENT strokes_pressure
#define SPAN ((size_t)PRESSURE_SPAN)
#define OF(name) name##_pressure
#define FULL
#include "spectra.inc"

/* The path arithmetic. */

enum { PATH_SPAN = 4608 };
static const uint32_t M = 2147483647, PATH_SPAN_INVERSE = 477684622;

/* The product of a with b, whose words are reduced so that the sums fit. */
static inline strokes_path path_times(strokes_path a, strokes_path b) {
    return (strokes_path){(uint32_t)(((uint64_t)a.u * b.u + (uint64_t)a.v * (M - b.v)) % M),
                          (uint32_t)(((uint64_t)a.u * b.v + (uint64_t)a.v * b.u) % M)};
}

static inline strokes_path path_power(uint32_t e) {
#ifdef ONE_TABLE
    return path_powers[e];
#else
    return path_times(path_high[e / 64], path_low[e % 64]);
#endif
}

static inline strokes_path sum_path(strokes_path a, strokes_path b) {
    return (strokes_path){small_remainder((uint64_t)a.u + b.u, M), small_remainder((uint64_t)a.v + b.v, M)};
}

static inline strokes_path difference_path(strokes_path a, strokes_path b) {
    return (strokes_path){(uint32_t)(((uint64_t)a.u + M - b.u % M) % M),
                          (uint32_t)(((uint64_t)a.v + M - b.v % M) % M)};
}

static inline strokes_path product_path(strokes_path a, strokes_path b) {
    return path_times(a, (strokes_path){small_remainder(b.u, M), small_remainder(b.v, M)});
}

static inline strokes_path turn_path(strokes_path a, uint32_t e) {
    return path_times(a, path_power(e));
}

static uint32_t inverse_of_path(uint32_t n) {
    return (uint32_t)((uint64_t)(PATH_SPAN / n) * PATH_SPAN_INVERSE % M);
}

static inline strokes_path scaled_path(strokes_path a, uint32_t factor) {
    return (strokes_path){(uint32_t)((uint64_t)a.u * factor % M), (uint32_t)((uint64_t)a.v * factor % M)};
}

#define ELEMENT strokes_path
#define SPAN ((size_t)PATH_SPAN)
#define OF(name) name##_path
#define FULL
#include "spectra.inc"

/* Matching, in whole numbers. */

/* The sum over t of conj(a_t) times b at (t + lag) mod n for every lag; answers the least lag of the largest first part. */
static size_t match_path(const strokes_counts *a, const strokes_counts *b, strokes_sum *out, size_t n) {
    size_t best = 0;
    for (size_t lag = 0; lag < n; lag++) {
        int64_t x = 0, y = 0;
        size_t at = lag;
        for (size_t t = 0; t < n; t++) {
            x += a[t].x * b[at].x + a[t].y * b[at].y;
            y += a[t].x * b[at].y - a[t].y * b[at].x;
            if (++at == n)
                at = 0;
        }
        out[lag] = (strokes_sum){x, y};
        if (out[lag].x > out[best].x)
            best = lag;
    }
    return best;
}

static size_t match_pressure(const uint16_t *a, const uint16_t *b, size_t n) {
    size_t best = 0;
    int64_t most = -1;
    for (size_t lag = 0; lag < n; lag++) {
        int64_t sum = 0;
        size_t at = lag;
        for (size_t t = 0; t < n; t++) {
            sum += a[t] * b[at];
            if (++at == n)
                at = 0;
        }
        if (sum > most) {
            most = sum;
            best = lag;
        }
    }
    return best;
}

/* Files and plans. */

static uint16_t half(const uint8_t *bytes) {
    return (uint16_t)(bytes[0] | bytes[1] << 8);
}

static int beyond(int16_t x) {
    return x < -1023 || x > 1023;
}

static int read_file(const uint8_t *bytes, size_t length, strokes_counts *path, uint16_t *pressure,
                     strokes_heading *heading) {
    if (length < 8 || length > STROKES_MOST_BYTES)
        return 11;
    const uint8_t *trailer = bytes + length - 8;
    size_t distance = half(trailer) | (size_t)half(trailer + 2) << 16;
    size_t n = half(trailer + 4);
    int pressed = trailer[6];
    if (trailer[7] != 1 || pressed > 1)
        return 12;
    if (n == 0 || n > STROKES_MOST_SAMPLES)
        return 13;
    size_t size = pressed ? 6 : 4;
    if (distance != n * size)
        return 14;
    if (distance > length - 8)
        return 15;
    const uint8_t *sample = trailer - distance;
    for (size_t i = 0; i < n; i++, sample += size)
        if (beyond((int16_t)half(sample)) || beyond((int16_t)half(sample + 2)) || (pressed && half(sample + 4) > 1023))
            return 16;
    sample = trailer - distance;
    for (size_t i = 0; i < n; i++, sample += size) {
        path[i] = (strokes_counts){(int16_t)half(sample), (int16_t)half(sample + 2)};
        if (pressed)
            pressure[i] = half(sample + 4);
    }
    *heading = (strokes_heading){n, pressed ? n : 0};
    return 0;
}

static int standard_plan(size_t n, uint8_t *radices, size_t *count) {
    static const uint8_t order[] = {4, 2, 3, 5, 7};
    size_t made = 0;
    if (n == 0 || n > STROKES_MOST_SAMPLES)
        return 25;
    for (size_t i = 0; i < sizeof order; i++)
        for (; n % order[i] == 0; n /= order[i])
            radices[made++] = order[i];
    *count = made;
    return n == 1 ? 0 : 25;
}

const baseline EXPORT = {
    transform_fixed,   transform_pressure, transform_path,           inverse_pressure,     inverse_path,
    convolve_pressure, convolve_path,      convolve_direct_pressure, convolve_direct_path, edit_pressure,
    edit_path,         match_path,         match_pressure,           read_file,            standard_plan,
};
