/* Makes calls of every kind on small data, and prints what each comes to. tools/compare.py says what is expected. */
#include <stdio.h>

#include "strokes.h"

enum { N = 12, LONG = STROKES_MOST_SAMPLES + 1 };

static const uint8_t plan[] = {2, 6};
static strokes_path path_work[N + STROKES_SCRATCH];
static strokes_pressure pressure_work[N + STROKES_SCRATCH];
static strokes_fixed fixed_work[N + STROKES_SCRATCH];

static int told(const char *call, strokes_status status) {
    if (status.number == 0)
        printf("%s\n", call);
    else
        printf("%s: refused %u %u %zu\n", call, status.number, status.layer, status.place);
    return status.number == 0;
}

static void show_fixed(const strokes_fixed *list, size_t n) {
    for (size_t i = 0; i < n; i++)
        printf(" %d,%d", list[i].x, list[i].y);
    printf("\n");
}

static void show_path(const strokes_path *list, size_t n) {
    for (size_t i = 0; i < n; i++)
        printf(" %u,%u", list[i].u, list[i].v);
    printf("\n");
}

static void show_pressure(const strokes_pressure *list, size_t n) {
    for (size_t i = 0; i < n; i++)
        printf(" %u", list[i].word);
    printf("\n");
}

/* Words all over 32 bits, many of them not reduced. */
static uint32_t word(uint32_t i) { return 2654435761u * (i + 1); }

static void spectra(void) {
    strokes_pressure a[N], b[N], c[N];
    strokes_path p[N], q[N], r[N];
    for (uint32_t i = 0; i < N; i++) {
        a[i].word = word(i);
        b[i].word = word(100 + i);
        p[i] = (strokes_path){word(200 + i), word(300 + i)};
        q[i] = (strokes_path){word(400 + i), word(500 + i)};
    }
    size_t turns = 0;
    told("convolve pressure", strokes_convolve_pressure(plan, 2, a, N, b, N, c, N, pressure_work, N + 8));
    show_pressure(c, N);
    told("transform pressure", strokes_transform_pressure(plan, 2, a, N, pressure_work, N + 8, &turns));
    printf("turns %zu\n", turns);
    show_pressure(a, N);
    told("inverse pressure", strokes_inverse_pressure(plan, 2, a, N, pressure_work, N + 8));
    show_pressure(a, N);
    told("convolve path", strokes_convolve_path(plan, 2, p, N, q, N, r, N, path_work, N + 8));
    show_path(r, N);
    told("transform path", strokes_transform_path(plan, 2, p, N, path_work, N + 8, &turns));
    show_path(p, N);
    told("inverse path", strokes_inverse_path(plan, 2, p, N, path_work, N + 8));
    show_path(p, N);
    told("short work", strokes_inverse_path(plan, 2, p, N, path_work, N + 7));
    told("short list", strokes_convolve_path(plan, 2, p, N, q, N - 1, r, N, path_work, N + 8));
    show_path(p, N);
}

static void run_in_steps(void) {
    static const uint8_t radices[] = {4, 2}, ten[10] = {2, 2, 2, 2, 2, 2, 2, 2, 2, 2}, nine[] = {2, 9};
    static const uint8_t long_plan[] = {8, 8, 8, 2}, three[] = {3};
    strokes_fixed buf[8];
    for (int i = 0; i < 8; i++)
        buf[i] = strokes_sample_fixed((int16_t)(100 * i - 300), (int16_t)(1023 - 50 * i * i));
    size_t turns = 77;
    told("deal", strokes_deal_fixed(radices, 2, buf, 8, fixed_work, 16));
    show_fixed(buf, 8);
    for (size_t done = 0; done <= 2; done++) {
        if (told("finish", strokes_finish(radices, 2, done, &turns)))
            break;
        told("stage", strokes_stage_fixed(radices, 2, done, buf, 8, fixed_work, 16));
        show_fixed(buf, 8);
    }
    printf("turns %zu\n", turns);
    told("stage past the last", strokes_stage_fixed(radices, 2, 2, buf, 8, fixed_work, 16));
    told("stage far past it", strokes_stage_fixed(radices, 2, SIZE_MAX, buf, 8, fixed_work, 16));
    told("stage of too many", strokes_stage_fixed(ten, 10, 0, buf, 8, fixed_work, 16));
    told("finish outside", strokes_finish(nine, 2, 0, &turns));
    told("deal too long", strokes_deal_fixed(long_plan, 4, buf, 8, fixed_work, 16));
    told("deal in no part", strokes_deal_fixed(three, 1, buf, 3, fixed_work, 16));
    told("stage on fewer", strokes_stage_fixed(radices, 2, 0, buf, 7, fixed_work, 16));
    show_fixed(buf, 8);
    strokes_give_up_fixed(buf, 5);
    show_fixed(buf, 8);
}

static void show_tones(strokes_pressure *cells, size_t n) {
    for (size_t k = 0; k <= n; k++) {
        uint32_t tone = 77;
        if (told("tone", strokes_sheet_tone_pressure(cells, 2 * n, n, k, &tone)))
            printf(" %u\n", tone);
    }
}

static void sheets(void) {
    static const uint8_t two[] = {2};
    strokes_pressure cells[4] = {{3}, {5}, {0}, {0}}, laid[2] = {{10}, {2013265920}};
    size_t n = 77;
    told("open", strokes_sheet_open_pressure(two, 1, cells, 3, pressure_work, 10, &n));
    told("open", strokes_sheet_open_pressure(two, 1, cells, 4, pressure_work, 10, &n));
    printf("n %zu\n", n);
    show_tones(cells, n);
    told("edit", strokes_sheet_edit_pressure(cells, 4, n, 1, (strokes_pressure){6}));
    show_tones(cells, n);
    told("shift", strokes_sheet_shift_pressure(cells, 4, n, 1));
    show_tones(cells, n);
    told("lay", strokes_sheet_lay_pressure(cells, 4, n, laid, 1));
    told("lay", strokes_sheet_lay_pressure(cells, 4, n, laid, 2));
    told("mirror", strokes_sheet_mirror_pressure(cells, 4, n));
    show_tones(cells, n);

    static const uint8_t three[] = {3};
    strokes_path sheet[6] = {{1, 2}, {3, 4}, {5, 6}}, more[3] = {{word(0), 1}, {2, word(1)}, {0, 0}}, tone;
    told("open path", strokes_sheet_open_path(three, 1, sheet, 6, path_work, 11, &n));
    told("edit path", strokes_sheet_edit_path(sheet, 6, n, 2, strokes_sample_path(-1, 1023)));
    told("shift path", strokes_sheet_shift_path(sheet, 6, n, 2));
    told("mirror path", strokes_sheet_mirror_path(sheet, 6, n));
    told("lay path", strokes_sheet_lay_path(sheet, 6, n, more, 3));
    told("shift path", strokes_sheet_shift_path(sheet, 6, n, 3));
    for (size_t k = 0; k < n; k++)
        if (told("tone path", strokes_sheet_tone_path(sheet, 6, n, k, &tone)))
            show_path(&tone, 1);
    show_path(sheet, 3);
}

static void lent_strokes(void) {
    static const strokes_counts first[] = {{0, 1}}, second[] = {{1, 0}}, far[] = {{1, 2}, {3, -1024}};
    static strokes_counts a[6], b[6], many[LONG];
    static uint16_t p[6], q[6], none[1];
    static strokes_sum sums[LONG];
    static uint8_t out[64];
    for (int i = 0; i < 6; i++) {
        a[i] = (strokes_counts){(int16_t)(300 * i - 700), (int16_t)(60 * i * i - 1000)};
        b[i] = (strokes_counts){(int16_t)(211 * i - 1000), (int16_t)(1023 - 400 * i + 7 * i * i)};
        p[i] = (uint16_t)(7 * i * i + 3 * i);
        q[i] = (uint16_t)(900 - 31 * i * i);
    }
    strokes_lags best = {77, 77, 77};
    told("match", strokes_match(first, 1, none, 0, second, 1, none, 0, sums, 1, &best));
    printf("lags %zu %zu %zu sum %lld %lld\n", best.path, best.pressed, best.pressure, (long long)sums[0].x, (long long)sums[0].y);
    told("match", strokes_match(a, 6, p, 6, b, 6, q, 6, sums, 6, &best));
    printf("lags %zu %zu %zu\n", best.path, best.pressed, best.pressure);
    for (int i = 0; i < 6; i++)
        printf("sum %lld %lld\n", (long long)sums[i].x, (long long)sums[i].y);
    told("match 5", strokes_match(a, 5, p, 5, b, 5, q, 5, sums, 5, &best));
    told("match room", strokes_match(a, 6, p, 6, b, 6, none, 0, sums, LONG, &best));
    told("match long", strokes_match(many, LONG, none, 0, b, 6, none, 0, sums, 6, &best));
    told("match far", strokes_match(a, 2, none, 0, far, 2, none, 0, sums, 2, &best));

    size_t length = 77;
    told("write", strokes_write(a, 6, p, 6, out, 64, &length));
    for (size_t i = 0; i < length; i++)
        printf("%02x", out[i]);
    printf(" %zu\n", length);
    told("write room", strokes_write(a, 6, none, 0, out, 31, &length));
    told("write far", strokes_write(far, 2, none, 0, out, 64, &length));
    told("write long", strokes_write(many, LONG, none, 0, out, 64, &length));
    told("write pressures", strokes_write(a, 6, p, 5, out, 64, &length));
    strokes_heading heading = {77, 77};
    told("read", strokes_read(out, 44, b, 5, q, 6, &heading));
    told("read", strokes_read(out, 44, b, 6, q, 6, &heading));
    printf("heading %zu %zu\n", heading.samples, heading.pressures);
    for (int i = 0; i < 6; i++)
        printf("%d %d %u\n", b[i].x, b[i].y, q[i]);
}

int main(void) {
    spectra();
    run_in_steps();
    sheets();
    lent_strokes();
    printf("pressure %u\n", strokes_sample_pressure(1023).word);
    return 0;
}
