/* The texts that are measured. All are made the same way on every machine. */
#include "bench.h"

#include <stdio.h>
#include <stdlib.h>
#include <string.h>

enum {
    L = MELVORASH_L, R = MELVORASH_R, AL = MELVORASH_AL, RLE = MELVORASH_RLE, LRE = MELVORASH_LRE,
    PDF = MELVORASH_PDF, EN = MELVORASH_EN, ES = MELVORASH_ES, ET = MELVORASH_ET, AN = MELVORASH_AN,
    CS = MELVORASH_CS, NSM = MELVORASH_NSM, B = MELVORASH_B, WS = MELVORASH_WS, ON = MELVORASH_ON,
    CR = MELVORASH_CR,
    LONGEST = MELVORASH_LONGEST, LABELS = 256, DEEPEST = 61
};

void *room(size_t count, size_t size)
{
    void *made = calloc(count, size);
    if (made == NULL) {
        fputs("there is no memory left\n", stderr);
        exit(1);
    }
    return made;
}

size_t positions_of(const workload *w)
{
    return w->starts[w->paragraphs];
}

static uint32_t state = 1;

static size_t below(size_t bound)
{
    state = state * 1664525u + 1013904223u;
    return (size_t)(state >> 8) % bound;
}

/* A word of Arabic, Hebrew or Latin letters, a number with its separators, or what stands between words. */
static void put_words(uint8_t *classes, size_t length)
{
    static const uint8_t letters[] = {AL, AL, R, L, L}, between[] = {WS, WS, WS, ON, CS, ES, ET};
    size_t i = 0;
    while (i < length) {
        size_t end = i + 1 + below(6);
        uint8_t letter = letters[below(5)];
        int number = below(3) == 0;
        for (; i < end && i < length; i++)
            classes[i] = number ? (below(4) ? EN : between[4 + below(3)]) : (below(12) ? letter : NSM);
        if (i < length)
            classes[i++] = below(10) ? between[below(7)] : AN;
    }
}

/* RLE, LRE and so on up to the deepest level and back, a letter behind each code; the first makes the base 0. */
static void put_nested(uint8_t *classes, size_t length)
{
    for (size_t i = 0; i < length; i += 2) {
        size_t code = i / 2 % (2 * DEEPEST);
        classes[i] = code >= DEEPEST ? PDF : code % 2 ? LRE : RLE;
        if (i + 1 < length)
            classes[i + 1] = code % 3 ? R : L;
    }
}

static void put_all(uint8_t *classes, size_t length, uint8_t class)
{
    for (size_t i = 0; i < length; i++)
        classes[i] = class;
}

static workload empty(const char *name, size_t paragraphs, size_t positions)
{
    workload w = {name, room(positions, 1), room(paragraphs + 1, sizeof(size_t)), paragraphs};
    w.starts[paragraphs] = positions;
    return w;
}

static workload labels(void)
{
    workload w = empty("labels of 8 to 40", LABELS, LABELS * 40);
    for (size_t i = 0; i < LABELS; i++) {
        size_t length = 8 + below(33);
        put_words(w.classes + w.starts[i], length);
        w.starts[i + 1] = w.starts[i] + length;
    }
    return w;
}

/* The same labels, each ended by CR and B. */
static workload paired(const workload *labels)
{
    workload w = empty("labels, then CR B", LABELS, positions_of(labels) + 2 * LABELS);
    for (size_t i = 0; i < LABELS; i++) {
        size_t length = labels->starts[i + 1] - labels->starts[i];
        uint8_t *classes = w.classes + w.starts[i];
        memcpy(classes, labels->classes + labels->starts[i], length);
        classes[length] = CR;
        classes[length + 1] = B;
        w.starts[i + 1] = w.starts[i] + length + 2;
    }
    return w;
}

static workload words(const char *name, size_t length)
{
    workload w = empty(name, 1, length);
    put_words(w.classes, length);
    return w;
}

static workload all(const char *name, uint8_t class)
{
    workload w = empty(name, 1, LONGEST);
    put_all(w.classes, LONGEST, class);
    return w;
}

static workload nested(void)
{
    workload w = empty("nested to level 61", 1, LONGEST);
    put_nested(w.classes, LONGEST);
    return w;
}

static workload ended_by_blanks(void)
{
    workload w = words("label, then blanks", LONGEST);
    put_all(w.classes + 40, LONGEST - 40, WS);
    return w;
}

/* Letters, two in three with a vowel, of which some have a shadda before or behind it. */
static workload vowelled(void)
{
    workload w = empty("vowelled words", 1, LONGEST);
    for (size_t i = 0; i < LONGEST; i++) {
        size_t kind = below(3);
        if (kind == 0 || i + 3 > LONGEST)
            continue;
        size_t shadda = below(8);
        w.classes[++i] = shadda == 0 ? 33 : (uint8_t)(27 + below(6));
        if (shadda < 2)
            w.classes[++i] = shadda == 0 ? (uint8_t)(27 + below(6)) : 33;
    }
    return w;
}

/* Stretches of marks in falling classes, a letter before each: every mark goes before all of its stretch. */
static workload falling(const char *name, size_t stretch)
{
    workload w = empty(name, 1, LONGEST);
    for (size_t i = 0; i < LONGEST; i++)
        w.classes[i] = i % stretch == 0 ? 0 : (uint8_t)(255 - i % stretch * 255 / stretch);
    return w;
}

void make_marked(workload *made)
{
    made[0] = all("letters", 0);
    made[1] = vowelled();
    made[2] = falling("falling, stretches of 16", 16);
    made[3] = falling("falling, stretches of 256", 256);
    made[4] = falling("falling, one stretch", LONGEST);
}

void make_workloads(workload *made)
{
    made[0] = labels();
    made[1] = words("mixed, 4,096", LONGEST);
    made[2] = nested();
    made[3] = all("all L", L);
    made[4] = all("all blanks", WS);
    made[5] = ended_by_blanks();
    made[PAIRED] = paired(&made[0]);
    made[FIRST_GROWTH] = words("mixed, 64", 64);
    made[FIRST_GROWTH + 1] = words("mixed, 256", 256);
    made[FIRST_GROWTH + 2] = words("mixed, 1,024", 1024);
}
