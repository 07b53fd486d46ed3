/* The library's calls in plain C, as one would write them by hand: what the benchmark compares the library with. */
#ifndef BASELINE_H
#define BASELINE_H

#include "strokes.h"

/* The calls as one build of baseline.c has them. Each answers 0, or the number of its refusal. */
typedef struct {
    int (*transform_fixed)(const uint8_t *radices, size_t count, strokes_fixed *buf, size_t n, strokes_fixed *work,
                           size_t room, size_t *turns);
    int (*transform_pressure)(const uint8_t *radices, size_t count, strokes_pressure *buf, size_t n,
                              strokes_pressure *work, size_t room, size_t *turns);
    int (*transform_path)(const uint8_t *radices, size_t count, strokes_path *buf, size_t n, strokes_path *work,
                          size_t room, size_t *turns);
    int (*inverse_pressure)(const uint8_t *radices, size_t count, strokes_pressure *buf, size_t n,
                            strokes_pressure *work, size_t room);
    int (*inverse_path)(const uint8_t *radices, size_t count, strokes_path *buf, size_t n, strokes_path *work,
                        size_t room);
    int (*convolve_pressure)(const uint8_t *radices, size_t count, const strokes_pressure *a, const strokes_pressure *b,
                             strokes_pressure *out, size_t n, strokes_pressure *work, size_t room);
    int (*convolve_path)(const uint8_t *radices, size_t count, const strokes_path *a, const strokes_path *b,
                         strokes_path *out, size_t n, strokes_path *work, size_t room);
    void (*convolve_direct_pressure)(const strokes_pressure *a, const strokes_pressure *b, strokes_pressure *out,
                                     size_t n);
    void (*convolve_direct_path)(const strokes_path *a, const strokes_path *b, strokes_path *out, size_t n);
    int (*edit_pressure)(strokes_pressure *cells, size_t n, size_t i, strokes_pressure v);
    int (*edit_path)(strokes_path *cells, size_t n, size_t i, strokes_path v);
    size_t (*match_path)(const strokes_counts *a, const strokes_counts *b, strokes_sum *out, size_t n);
    size_t (*match_pressure)(const uint16_t *a, const uint16_t *b, size_t n);
    int (*read)(const uint8_t *bytes, size_t length, strokes_counts *path, uint16_t *pressure,
                strokes_heading *heading);
    int (*standard_plan)(size_t n, uint8_t *radices, size_t *count);
} baseline;

#endif
