/* The program `tones` in plain C: the spectrum of the stroke file on standard input. The transform is that of
 * baseline.c. */
#include <stdio.h>

#include "baseline.c"

static uint8_t bytes[STROKES_MOST_BYTES + 1];
static strokes_counts path[STROKES_MOST_SAMPLES];
static uint16_t pressure[STROKES_MOST_SAMPLES];
static strokes_fixed tones[STROKES_MOST_SAMPLES];
static strokes_fixed work[STROKES_MOST_SAMPLES + STROKES_SCRATCH];

static int refused(int number) {
    printf("refused %d\n", number);
    return 1;
}

int main(void) {
    size_t length = fread(bytes, 1, sizeof bytes, stdin);
    strokes_heading heading;
    uint8_t radices[STROKES_MOST_RADICES];
    size_t count, turns;
    int refusal = read_file(bytes, length, path, pressure, &heading);
    if (refusal == 0)
        refusal = standard_plan(heading.samples, radices, &count);
    if (refusal != 0)
        return refused(refusal);

    size_t n = heading.samples;
    for (size_t t = 0; t < n; t++)
        tones[t] = (strokes_fixed){1024 * path[t].x, 1024 * path[t].y};
    refusal = transform_fixed(radices, count, tones, n, work, n + STROKES_SCRATCH, &turns);
    if (refusal != 0)
        return refused(refusal);

    printf("tones %zu turns %zu\n", n, turns);
    for (size_t k = 0; k < n; k++)
        printf("%zu %d %d\n", k, tones[k].x, tones[k].y);
    return 0;
}
