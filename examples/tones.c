/* Prints the spectrum of the stroke file on standard input, as the program `tones` does. */
#include <stdio.h>

#include "strokes.h"

/* One byte more than a file may have, so that a longer one is seen to be. */
static uint8_t bytes[STROKES_MOST_BYTES + 1];
static strokes_counts path[STROKES_MOST_SAMPLES];
static uint16_t pressure[STROKES_MOST_SAMPLES];
static strokes_fixed tones[STROKES_MOST_SAMPLES];
static strokes_fixed work[STROKES_MOST_SAMPLES + STROKES_SCRATCH];

static int refused(strokes_status status) {
    printf("refused %u %u %zu\n", status.number, status.layer, status.place);
    return 1;
}

int main(void) {
    size_t length = fread(bytes, 1, sizeof bytes, stdin);
    strokes_heading heading;
    strokes_status status = strokes_read(bytes, length, path, STROKES_MOST_SAMPLES, pressure, STROKES_MOST_SAMPLES, &heading);
    if (status.number != 0)
        return refused(status);

    uint8_t radices[STROKES_MOST_RADICES];
    size_t count;
    status = strokes_standard_plan(heading.samples, radices, STROKES_MOST_RADICES, &count);
    if (status.number != 0)
        return refused(status);

    for (size_t t = 0; t < heading.samples; t++)
        tones[t] = strokes_sample_fixed(path[t].x, path[t].y);
    size_t turns;
    status = strokes_transform_fixed(radices, count, tones, heading.samples, work, heading.samples + STROKES_SCRATCH, &turns);
    if (status.number != 0)
        return refused(status);

    printf("tones %zu turns %zu\n", heading.samples, turns);
    for (size_t k = 0; k < heading.samples; k++)
        printf("%zu %d %d\n", k, tones[k].x, tones[k].y);
    return 0;
}
