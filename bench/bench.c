/* Times the library's calls beside the same in plain C, in one run, and prints the tables. It first compares what both
 * make of the same inputs, and stops where they differ. */
#include <pthread.h>
#include <stdio.h>
#include <stdlib.h>
#include <string.h>
#include <time.h>

#include "baseline.h"

#ifdef HAVE_KISSFFT
#include <kissfft/kiss_fft.h>
#endif
#ifdef HAVE_FFTW
#include <fftw3.h>
#endif

/* BUILDS lists the builds of baseline.c as BUILD(compiler, level): each has the powers of a root as products from two
 * tables, as the library has, and in one table. */
#define BUILD(compiler, level) extern const baseline two_##compiler##_##level, one_##compiler##_##level;
BUILDS
#undef BUILD

typedef struct {
    const char *name;
    const baseline *two_tables, *one_table;
} build;

#define BUILD(compiler, level) {#compiler " -" #level, &two_##compiler##_##level, &one_##compiler##_##level},
static const build builds[] = {BUILDS};
#undef BUILD

enum {
    MOST = STROKES_MOST_SAMPLES,
    ROOM = MOST + STROKES_SCRATCH,
    BUILD_COUNT = sizeof builds / sizeof *builds,
    MOST_CONTENDERS = 3 + BUILD_COUNT,
    CHECKS = 50
};

/* What goes in. It is made anew for each comparison, and stays while times are taken. */
static struct {
    size_t n, count;
    uint8_t radices[STROKES_MOST_RADICES];
    strokes_fixed fixed[MOST];
    strokes_pressure pressure[2 * MOST], other_pressure[MOST];
    strokes_path path[2 * MOST], other_path[MOST];
    strokes_counts counts[MOST], other_counts[MOST];
    uint16_t presses[MOST], other_presses[MOST];
    uint8_t file[8 + 6 * MOST];
    size_t file_length;
} in;

/* What the calls work in and leave behind. */
typedef struct {
    strokes_fixed fixed[MOST], fixed_work[ROOM];
    strokes_pressure pressure[2 * MOST], pressure_work[ROOM];
    strokes_path path[2 * MOST], path_work[ROOM];
    strokes_counts counts[MOST];
    uint16_t presses[MOST];
    strokes_heading heading;
    strokes_sum sums[MOST];
    size_t turns, lag, pressure_lag;
} room;

static room out;

static void stop(const char *what) {
    fprintf(stderr, "bench: %s\n", what);
    exit(1);
}

static void granted(strokes_status status) {
    if (status.number != 0)
        stop("the library refused a call");
}

static void done(int refusal) {
    if (refusal != 0)
        stop("the plain C refused a call");
}

/* Inputs. */

static uint32_t seed = 1;

static uint32_t word(void) {
    seed ^= seed << 13;
    seed ^= seed >> 17;
    seed ^= seed << 5;
    return seed;
}

static int16_t count_of_pad(void) {
    return (int16_t)(word() % 2047) - 1023;
}

static void put_half(uint8_t **at, uint16_t value) {
    *(*at)++ = (uint8_t)value;
    *(*at)++ = (uint8_t)(value >> 8);
}

static void write_input_file(void) {
    uint8_t *at = in.file;
    for (size_t t = 0; t < in.n; t++) {
        put_half(&at, (uint16_t)in.counts[t].x);
        put_half(&at, (uint16_t)in.counts[t].y);
        put_half(&at, in.presses[t]);
    }
    put_half(&at, (uint16_t)(6 * in.n));
    put_half(&at, 0);
    put_half(&at, (uint16_t)in.n);
    *at++ = 1;
    *at++ = 1;
    in.file_length = (size_t)(at - in.file);
}

/* Counts within a pad's limits, and for the exact arithmetics any words whatever. */
static void make_inputs(size_t n) {
    in.n = n;
    for (size_t t = 0; t < n; t++) {
        in.counts[t] = (strokes_counts){count_of_pad(), count_of_pad()};
        in.other_counts[t] = (strokes_counts){count_of_pad(), count_of_pad()};
        in.presses[t] = word() % 1024;
        in.other_presses[t] = word() % 1024;
        in.fixed[t] = (strokes_fixed){1024 * in.counts[t].x, 1024 * in.counts[t].y};
        in.other_pressure[t] = (strokes_pressure){word()};
        in.other_path[t] = (strokes_path){word(), word()};
    }
    for (size_t t = 0; t < 2 * n; t++) {
        in.pressure[t] = (strokes_pressure){word()};
        in.path[t] = (strokes_path){word(), word()};
    }
    write_input_file();
}

/* Before every call: the buffers hold the inputs, and everything else is as it was for every other call. */
static void ready(void) {
    memset(&out, 0x55, sizeof out);
    memcpy(out.fixed, in.fixed, in.n * sizeof *in.fixed);
    memcpy(out.pressure, in.pressure, 2 * in.n * sizeof *in.pressure);
    memcpy(out.path, in.path, 2 * in.n * sizeof *in.path);
}

/* The calls, each by the library and in plain C. */

static void library_transform_fixed(const void *with) {
    (void)with;
    granted(strokes_transform_fixed(in.radices, in.count, out.fixed, in.n, out.fixed_work, in.n + STROKES_SCRATCH,
                                    &out.turns));
}

static void plain_transform_fixed(const void *with) {
    done(((const baseline *)with)
             ->transform_fixed(in.radices, in.count, out.fixed, in.n, out.fixed_work, in.n + STROKES_SCRATCH,
                               &out.turns));
}

static void library_transform_pressure(const void *with) {
    (void)with;
    granted(strokes_transform_pressure(in.radices, in.count, out.pressure, in.n, out.pressure_work,
                                       in.n + STROKES_SCRATCH, &out.turns));
}

static void plain_transform_pressure(const void *with) {
    done(((const baseline *)with)
             ->transform_pressure(in.radices, in.count, out.pressure, in.n, out.pressure_work,
                                  in.n + STROKES_SCRATCH, &out.turns));
}

static void library_transform_path(const void *with) {
    (void)with;
    granted(strokes_transform_path(in.radices, in.count, out.path, in.n, out.path_work, in.n + STROKES_SCRATCH,
                                   &out.turns));
}

static void plain_transform_path(const void *with) {
    done(((const baseline *)with)
             ->transform_path(in.radices, in.count, out.path, in.n, out.path_work, in.n + STROKES_SCRATCH,
                              &out.turns));
}

static void library_inverse_pressure(const void *with) {
    (void)with;
    granted(strokes_inverse_pressure(in.radices, in.count, out.pressure, in.n, out.pressure_work,
                                     in.n + STROKES_SCRATCH));
}

static void plain_inverse_pressure(const void *with) {
    done(((const baseline *)with)
             ->inverse_pressure(in.radices, in.count, out.pressure, in.n, out.pressure_work, in.n + STROKES_SCRATCH));
}

static void library_inverse_path(const void *with) {
    (void)with;
    granted(strokes_inverse_path(in.radices, in.count, out.path, in.n, out.path_work, in.n + STROKES_SCRATCH));
}

static void plain_inverse_path(const void *with) {
    done(((const baseline *)with)
             ->inverse_path(in.radices, in.count, out.path, in.n, out.path_work, in.n + STROKES_SCRATCH));
}

static void library_convolve_pressure(const void *with) {
    (void)with;
    granted(strokes_convolve_pressure(in.radices, in.count, in.pressure, in.n, in.other_pressure, in.n, out.pressure,
                                      in.n, out.pressure_work, in.n + STROKES_SCRATCH));
}

static void plain_convolve_pressure(const void *with) {
    done(((const baseline *)with)
             ->convolve_pressure(in.radices, in.count, in.pressure, in.other_pressure, out.pressure, in.n,
                                 out.pressure_work, in.n + STROKES_SCRATCH));
}

static void direct_convolve_pressure(const void *with) {
    ((const baseline *)with)->convolve_direct_pressure(in.pressure, in.other_pressure, out.pressure, in.n);
    memset(out.pressure_work, 0, (in.n + STROKES_SCRATCH) * sizeof *out.pressure_work);
}

static void library_convolve_path(const void *with) {
    (void)with;
    granted(strokes_convolve_path(in.radices, in.count, in.path, in.n, in.other_path, in.n, out.path, in.n,
                                  out.path_work, in.n + STROKES_SCRATCH));
}

static void plain_convolve_path(const void *with) {
    done(((const baseline *)with)
             ->convolve_path(in.radices, in.count, in.path, in.other_path, out.path, in.n, out.path_work,
                             in.n + STROKES_SCRATCH));
}

static void direct_convolve_path(const void *with) {
    ((const baseline *)with)->convolve_direct_path(in.path, in.other_path, out.path, in.n);
    memset(out.path_work, 0, (in.n + STROKES_SCRATCH) * sizeof *out.path_work);
}

static void library_edit_pressure(const void *with) {
    (void)with;
    granted(strokes_sheet_edit_pressure(out.pressure, 2 * in.n, in.n, in.n / 3, in.other_pressure[0]));
}

static void plain_edit_pressure(const void *with) {
    done(((const baseline *)with)->edit_pressure(out.pressure, in.n, in.n / 3, in.other_pressure[0]));
}

static void library_edit_path(const void *with) {
    (void)with;
    granted(strokes_sheet_edit_path(out.path, 2 * in.n, in.n, in.n / 3, in.other_path[0]));
}

static void plain_edit_path(const void *with) {
    done(((const baseline *)with)->edit_path(out.path, in.n, in.n / 3, in.other_path[0]));
}

static void library_match(const void *with) {
    (void)with;
    strokes_lags best;
    granted(strokes_match(in.counts, in.n, in.presses, in.n, in.other_counts, in.n, in.other_presses, in.n, out.sums,
                          in.n, &best));
    out.lag = best.path;
    out.pressure_lag = best.pressure;
}

static void plain_match(const void *with) {
    const baseline *plain = with;
    out.lag = plain->match_path(in.counts, in.other_counts, out.sums, in.n);
    out.pressure_lag = plain->match_pressure(in.presses, in.other_presses, in.n);
}

static void library_read(const void *with) {
    (void)with;
    granted(strokes_read(in.file, in.file_length, out.counts, MOST, out.presses, MOST, &out.heading));
}

static void plain_read(const void *with) {
    done(((const baseline *)with)->read(in.file, in.file_length, out.counts, out.presses, &out.heading));
}

/* Contenders for one row of a table. */

typedef struct {
    void (*call)(const void *with);
    const void *with;
    double best, median;
} contender;

static double now(void) {
    struct timespec t;
    clock_gettime(CLOCK_MONOTONIC, &t);
    return 1e9 * (double)t.tv_sec + (double)t.tv_nsec;
}

/* All contenders must leave in `out` what the first one does. */
static void compare(size_t n, contender *all, size_t count) {
    static room first;
    for (int i = 0; i < CHECKS; i++) {
        make_inputs(n);
        ready();
        all[0].call(all[0].with);
        first = out;
        for (size_t c = 1; c < count; c++) {
            ready();
            all[c].call(all[c].with);
            if (memcmp(&first, &out, sizeof out) != 0)
                stop("the plain C makes other numbers than the library");
        }
    }
}

static int ascending(const void *a, const void *b) {
    double x = *(const double *)a, y = *(const double *)b;
    return x < y ? -1 : x > y;
}

/* The contenders take turns, so that whatever else the machine does meets all of them alike. */
static void race(contender *all, size_t count, size_t repetitions) {
    double *times[MOST_CONTENDERS];
    for (size_t c = 0; c < count; c++)
        if ((times[c] = malloc(repetitions * sizeof(double))) == NULL)
            stop("no memory");
    for (size_t i = 0; i < repetitions; i++)
        for (size_t c = 0; c < count; c++) {
            ready();
            double from = now();
            all[c].call(all[c].with);
            times[c][i] = now() - from;
        }
    for (size_t c = 0; c < count; c++) {
        qsort(times[c], repetitions, sizeof(double), ascending);
        all[c].best = times[c][0];
        all[c].median = times[c][repetitions / 2];
        free(times[c]);
    }
}

static size_t repetitions = 4000;

static void plan_of(const char *radices) {
    in.count = strlen(radices);
    in.n = 1;
    for (size_t i = 0; i < in.count; i++) {
        in.radices[i] = (uint8_t)(radices[i] - '0');
        in.n *= in.radices[i];
    }
}

static void print_plan(void) {
    for (size_t i = 0; i < in.count; i++)
        printf("%s%d", i == 0 ? "" : "·", in.radices[i]);
}

static void heading(const char *what) {
    printf("\n%s\n\n", what);
}

static void head_of_rows(void) {
    printf("| call | N | plan | library |");
    for (size_t b = 0; b < BUILD_COUNT; b++)
        printf(" %s | ratio |", builds[b].name);
    printf(" to the fastest C |\n|---|---|---|---|");
    for (size_t b = 0; b < BUILD_COUNT; b++)
        printf("---|---|");
    printf("---|\n");
}

typedef struct {
    const char *name;
    void (*library)(const void *), (*plain)(const void *);
} pair;

/* One row: the library against each build of the plain C, for the length and plan that `in` has. */
static void row(pair calls, int one_table, size_t repeated) {
    contender all[1 + BUILD_COUNT] = {{calls.library, NULL, 0, 0}};
    double fastest = 0;
    for (size_t b = 0; b < BUILD_COUNT; b++)
        all[1 + b] = (contender){calls.plain, one_table ? builds[b].one_table : builds[b].two_tables, 0, 0};
    compare(in.n, all, 1 + BUILD_COUNT);
    race(all, 1 + BUILD_COUNT, repeated);
    printf("| %s | %zu | ", calls.name, in.n);
    print_plan();
    printf(" | %.2f (%.2f) |", all[0].best / 1000, all[0].median / 1000);
    for (size_t c = 1; c < 1 + BUILD_COUNT; c++) {
        printf(" %.2f (%.2f) | %.2f |", all[c].best / 1000, all[c].median / 1000, all[0].best / all[c].best);
        if (c == 1 || all[c].best < fastest)
            fastest = all[c].best;
    }
    printf(" **%.2f** |\n", all[0].best / fastest);
    fflush(stdout);
}

/* The plans of each length: the standard one, the one of largest radices, and the one of twos. */
static const char *const PLANS[] = {"44442", "888", "222222222", "4444", "884", "22222222", "444", "88", "222222"};
enum { PLAN_COUNT = sizeof PLANS / sizeof *PLANS };

static void transforms(void) {
    heading("The fixed transform:");
    head_of_rows();
    for (size_t i = 0; i < PLAN_COUNT; i++) {
        plan_of(PLANS[i]);
        row((pair){"transform, fixed", library_transform_fixed, plain_transform_fixed}, 0, repetitions);
    }
}

static void growth(void) {
    heading("How the library's transform grows, in nanoseconds per turn:");
    printf("| N | plan | turns | fixed | pressure | path |\n|---|---|---|---|---|---|\n");
    for (size_t i = 0; i < PLAN_COUNT; i++) {
        void (*const calls[])(const void *) = {library_transform_fixed, library_transform_pressure,
                                               library_transform_path};
        plan_of(PLANS[i]);
        make_inputs(in.n);
        for (size_t c = 0; c < 3; c++) {
            contender alone = {calls[c], NULL, 0, 0};
            race(&alone, 1, repetitions / 2);
            if (c == 0) {
                printf("| %zu | ", in.n);
                print_plan();
                printf(" | %zu |", out.turns);
            }
            printf(" %.2f |", alone.best / (double)out.turns);
        }
        printf("\n");
    }
}

/* The rows of the exact arithmetics against one way to hold the powers of a root. */
static void exact_rows(int one_table) {
    head_of_rows();
    for (size_t i = 0; i < 3; i++) {
        plan_of(PLANS[i]);
        row((pair){"transform, pressure", library_transform_pressure, plain_transform_pressure}, one_table,
            repetitions / 2);
        row((pair){"transform, path", library_transform_path, plain_transform_path}, one_table, repetitions / 2);
    }
    plan_of(PLANS[0]);
    row((pair){"inverse, pressure", library_inverse_pressure, plain_inverse_pressure}, one_table, repetitions / 2);
    row((pair){"inverse, path", library_inverse_path, plain_inverse_path}, one_table, repetitions / 2);
    row((pair){"convolve, pressure", library_convolve_pressure, plain_convolve_pressure}, one_table, repetitions / 4);
    row((pair){"convolve, path", library_convolve_path, plain_convolve_path}, one_table, repetitions / 4);
    in.count = 0;
    row((pair){"edit, pressure", library_edit_pressure, plain_edit_pressure}, one_table, repetitions);
    row((pair){"edit, path", library_edit_path, plain_edit_path}, one_table, repetitions);
}

static void direct_rows(void) {
    heading("Against direct sums, and reading a file:");
    head_of_rows();
    plan_of(PLANS[0]);
    row((pair){"convolve, pressure, against the direct sum", library_convolve_pressure, direct_convolve_pressure}, 0,
        repetitions / 20);
    row((pair){"convolve, path, against the direct sum", library_convolve_path, direct_convolve_path}, 0,
        repetitions / 20);
    in.count = 0;
    row((pair){"match with pressure, against the direct sum in whole numbers", library_match, plain_match}, 0,
        repetitions / 20);
    row((pair){"read with pressure", library_read, plain_read}, 0, repetitions);
}

/* A call on a stack of its own that was filled with a pattern: how much of it has changed. */
enum { PATTERN = 0xa5 };
static _Alignas(4096) unsigned char stack[1 << 18];

typedef struct {
    const char *name;
    void (*call)(const void *);
} named;

static void nothing(const void *with) {
    (void)with;
}

static void *called(void *what) {
    ((const named *)what)->call(NULL);
    return NULL;
}

static size_t stack_changed(const named *what) {
    pthread_attr_t attributes;
    pthread_t thread;
    memset(stack, PATTERN, sizeof stack);
    if (pthread_attr_init(&attributes) != 0 || pthread_attr_setstack(&attributes, stack, sizeof stack) != 0 ||
        pthread_create(&thread, &attributes, called, (void *)what) != 0 || pthread_join(thread, NULL) != 0)
        stop("no thread");
    size_t same = 0;
    while (same < sizeof stack && stack[same] == PATTERN)
        same++;
    return sizeof stack - same;
}

static void stack_rows(void) {
    const named none = {"", nothing};
    const named calls[] = {{"transform, fixed", library_transform_fixed}, {"inverse, path", library_inverse_path},
                           {"convolve, path", library_convolve_path},     {"edit, path", library_edit_path},
                           {"match", library_match},                      {"read", library_read}};
    heading("What the library's calls take of the stack at N = 512, in bytes (they take no heap):");
    printf("| call | stack |\n|---|---|\n");
    plan_of(PLANS[0]);
    make_inputs(in.n);
    size_t thread = stack_changed(&none);
    for (size_t c = 0; c < sizeof calls / sizeof *calls; c++) {
        ready();
        printf("| %s | %zu |\n", calls[c].name, stack_changed(&calls[c]) - thread);
    }
}

/* The others solve an easier problem: they promise no number. */

#ifdef HAVE_KISSFFT
static kiss_fft_cfg kiss;
static kiss_fft_cpx kiss_in[MOST], kiss_out[MOST];

static void kissfft_transform(const void *with) {
    (void)with;
    kiss_fft(kiss, kiss_in, kiss_out);
}
#endif

#ifdef HAVE_FFTW
static fftw_plan fftw;
static fftw_complex *fftw_data;

static void fftw_transform(const void *with) {
    (void)with;
    fftw_execute(fftw);
}
#endif

#if defined(HAVE_KISSFFT) || defined(HAVE_FFTW)
/* Their tones must be near ours, so that they are of the same spectrum. */
static void near(double x, double y, size_t k) {
    if (x - out.fixed[k].x > 2048 || out.fixed[k].x - x > 2048 || y - out.fixed[k].y > 2048 ||
        out.fixed[k].y - y > 2048)
        stop("another library has another spectrum");
}
#endif

static void others(void) {
    heading("The fixed transform under the standard plan, against others that promise no number:");
    printf("| N | library best | KissFFT (float) best | ratio | FFTW (double) best | ratio |\n|---|---|---|---|---|---|\n");
    for (size_t i = 0; i < PLAN_COUNT; i += 3) {
        contender all[3] = {{library_transform_fixed, NULL, 0, 0}};
        size_t count = 1;
        plan_of(PLANS[i]);
        make_inputs(in.n);
        ready();
        library_transform_fixed(NULL);
#ifdef HAVE_KISSFFT
        kiss = kiss_fft_alloc((int)in.n, 0, NULL, NULL);
        for (size_t t = 0; t < in.n; t++)
            kiss_in[t] = (kiss_fft_cpx){(float)in.fixed[t].x, (float)in.fixed[t].y};
        kissfft_transform(NULL);
        for (size_t k = 0; k < in.n; k++)
            near(kiss_out[k].r, kiss_out[k].i, k);
        all[count++] = (contender){kissfft_transform, NULL, 0, 0};
#endif
#ifdef HAVE_FFTW
        fftw_data = fftw_alloc_complex(in.n);
        fftw = fftw_plan_dft_1d((int)in.n, fftw_data, fftw_data, FFTW_FORWARD, FFTW_MEASURE);
        for (size_t t = 0; t < in.n; t++) {
            fftw_data[t][0] = in.fixed[t].x;
            fftw_data[t][1] = in.fixed[t].y;
        }
        fftw_transform(NULL);
        for (size_t k = 0; k < in.n; k++)
            near(fftw_data[k][0], fftw_data[k][1], k);
        memset(fftw_data, 0, in.n * sizeof *fftw_data);
        all[count++] = (contender){fftw_transform, NULL, 0, 0};
#endif
        race(all, count, repetitions);
        printf("| %zu | %.2f |", in.n, all[0].best / 1000);
        size_t c = 1;
#ifdef HAVE_KISSFFT
        printf(" %.2f | %.2f |", all[c].best / 1000, all[0].best / all[c].best);
        c++;
        kiss_fft_free(kiss);
#else
        printf(" missing | |");
#endif
#ifdef HAVE_FFTW
        printf(" %.2f | %.2f |", all[c].best / 1000, all[0].best / all[c].best);
        fftw_destroy_plan(fftw);
        fftw_free(fftw_data);
#else
        printf(" missing | |");
#endif
        (void)c;
        printf("\n");
    }
}

int main(int argc, char **argv) {
    if (argc > 1)
        repetitions = strtoul(argv[1], NULL, 10);
    if (repetitions < 20)
        stop("at least 20 repetitions");
    printf("Times are in microseconds, the best and in brackets the median of %zu repetitions (fewer of the slow "
           "calls); a ratio is of the bests, the library's to the C's.\n",
           repetitions);
    transforms();
    growth();
    others();
    heading("The exact arithmetics, the C with the powers as the library has them, as products from two tables:");
    exact_rows(0);
    heading("The same against C that has every power in one table, of 30 KiB and 36 KiB:");
    exact_rows(1);
    direct_rows();
    stack_rows();
    return 0;
}
