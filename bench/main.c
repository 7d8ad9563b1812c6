/*
 * Levels and order by Melvorash, fribidi and ICU on the same classes, in one process, in turn. Prints the
 * median of many repeats in nanoseconds a position, and how many times the faster peer's time that is.
 * Where the orders do not agree nothing is timed.
 */
#include "bench.h"

#include <stdio.h>
#include <stdlib.h>
#include <time.h>

enum { LIBRARIES = 3, REPEATS = 101, LEAST_POSITIONS = 20000 };

static const library *const libraries[LIBRARIES] = {&melvorash, &fribidi, &icu};

static double now(void)
{
    struct timespec t;
    clock_gettime(CLOCK_MONOTONIC, &t);
    return (double)t.tv_sec * 1e9 + (double)t.tv_nsec;
}

static int is_less(const void *a, const void *b)
{
    double x = *(const double *)a, y = *(const double *)b;
    return (x > y) - (x < y);
}

static double median(double *times)
{
    qsort(times, REPEATS, sizeof *times, is_less);
    return times[REPEATS / 2];
}

static int is_removed(uint8_t class)
{
    return class == MELVORASH_BN || class == MELVORASH_LRE || class == MELVORASH_LRO || class == MELVORASH_RLE ||
           class == MELVORASH_RLO || class == MELVORASH_PDF;
}

/* The peers keep removed positions in their orders; those are passed over. */
static size_t kept_order(const library *l, const workload *w, size_t paragraph, uint16_t *kept)
{
    size_t start = w->starts[paragraph], count = 0;
    size_t places = l->order(start, w->starts[paragraph + 1] - start);
    for (size_t place = 0; place < places; place++) {
        size_t position = l->position(place);
        if (!is_removed(w->classes[start + position]))
            kept[count++] = (uint16_t)position;
    }
    return count;
}

static int agree(const workload *w, size_t paragraph)
{
    static uint16_t first[MELVORASH_LONGEST], other[MELVORASH_LONGEST];
    size_t count = kept_order(libraries[0], w, paragraph, first);
    for (int l = 1; l < LIBRARIES; l++) {
        if (kept_order(libraries[l], w, paragraph, other) != count)
            return 0;
        for (size_t i = 0; i < count; i++)
            if (first[i] != other[i])
                return 0;
    }
    return 1;
}

static void check(const workload *w)
{
    for (int l = 0; l < LIBRARIES; l++)
        libraries[l]->take(w);
    for (size_t i = 0; i < w->paragraphs; i++)
        if (!agree(w, i)) {
            printf("%s: the orders of paragraph %zu do not agree\n", w->name, i);
            exit(1);
        }
}

/* A small workload is gone over several times, so that the clock's own time does not count. */
static double time_of(const library *l, const workload *w)
{
    size_t rounds = LEAST_POSITIONS / positions_of(w) + 1;
    double begun = now();
    for (size_t round = 0; round < rounds; round++)
        for (size_t i = 0; i < w->paragraphs; i++)
            l->order(w->starts[i], w->starts[i + 1] - w->starts[i]);
    return (now() - begun) / (double)(rounds * positions_of(w));
}

static void measure(const workload *w)
{
    static double times[LIBRARIES][REPEATS];
    double result[LIBRARIES];
    check(w);
    for (int r = 0; r < REPEATS; r++)
        for (int l = 0; l < LIBRARIES; l++)
            times[l][r] = time_of(libraries[l], w);
    for (int l = 0; l < LIBRARIES; l++)
        result[l] = median(times[l]);
    double faster = result[1] < result[2] ? result[1] : result[2];
    printf("| %s | %.2f | %.2f | %.2f | %.2f |\n", w->name, faster / result[0], result[0], result[1], result[2]);
}

typedef melvorash_answer job(const workload *w, uint8_t *levels);

static melvorash_answer explicit_levels(const workload *w, uint8_t *levels)
{
    return melvorash_explicit(w->classes, positions_of(w), MELVORASH_BY_TEXT, 0, levels, MELVORASH_LONGEST);
}

/* Every paragraph of the text, the next from where the last one ends. */
static melvorash_answer cut(const workload *w, uint8_t *levels)
{
    melvorash_answer paragraph;
    size_t start = 0, count = positions_of(w);
    (void)levels;
    do {
        paragraph = melvorash_cut(w->classes + start, count - start);
        start += paragraph.value;
    } while (paragraph.value != 0 && start < count);
    return paragraph;
}

/* Refused with 6, the last that Resolve checks. */
static melvorash_answer refusal(const workload *w, uint8_t *levels)
{
    return melvorash_resolve(w->classes, positions_of(w), MELVORASH_BY_TEXT, 0, levels, 0);
}

/* No flag is set. */
static melvorash_answer marks(const workload *w, uint8_t *levels)
{
    static const uint8_t flags[MELVORASH_LONGEST];
    static uint16_t order[MELVORASH_LONGEST];
    (void)levels;
    return melvorash_marks(w->classes, positions_of(w), flags, MELVORASH_LONGEST, order, MELVORASH_LONGEST);
}

static void measure_alone(const char *name, job *call, const workload *w)
{
    static double times[REPEATS];
    static uint8_t levels[MELVORASH_LONGEST];
    size_t rounds = LEAST_POSITIONS / positions_of(w) + 1;
    for (int r = 0; r < REPEATS; r++) {
        double begun = now();
        for (size_t round = 0; round < rounds; round++)
            call(w, levels);
        times[r] = (now() - begun) / (double)(rounds * positions_of(w));
    }
    printf("| %s, %s | %.2f |\n", name, w->name, median(times));
}

int main(void)
{
    static workload made[WORKLOADS], marked[MARKED];
    make_workloads(made);
    make_marked(marked);
    puts("| Levels and order | faster peer : melvorash | melvorash | fribidi | ICU |\n|---|---|---|---|---|");
    for (int i = 0; i < WORKLOADS; i++)
        measure(&made[i]);
    puts("\n| Alone | melvorash |\n|---|---|");
    for (int i = 1; i < 3; i++)
        measure_alone("Explicit", explicit_levels, &made[i]);
    measure_alone("Cut", cut, &made[1]);
    measure_alone("Cut", cut, &made[PAIRED]);
    measure_alone("a refusal", refusal, &made[1]);
    for (int i = 0; i < MARKED; i++)
        measure_alone("Marks", marks, &marked[i]);
    return 0;
}
