/* What the benchmark's parts share: workloads, and a library as the benchmark calls it. */
#ifndef BENCH_H
#define BENCH_H

#include "melvorash.h"

/* Paragraphs one after the other, each ordered as one line. `starts` has one entry more than there are. */
typedef struct {
    const char *name;
    uint8_t *classes;
    size_t *starts;
    size_t paragraphs;
} workload;

/* Levels and order of one paragraph, as a user of the library has them. */
typedef struct {
    const char *name;
    void (*take)(const workload *w);               /* before timing: the input in the library's own form */
    size_t (*order)(size_t start, size_t length);  /* timed: levels, then the order; how many places */
    size_t (*position)(size_t place);              /* after it: what stands at a place */
} library;

extern const library melvorash, fribidi, icu;

enum { WORKLOADS = 10, PAIRED = 6, FIRST_GROWTH = 7, MARKED = 5 };
void make_workloads(workload *made);

/* Texts for the drawing order: there the classes are combining classes. */
void make_marked(workload *made);
size_t positions_of(const workload *w);

void *room(size_t count, size_t size);

#endif
