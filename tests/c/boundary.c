/*
 * Calls every exported function on good and bad input, and compares the answer and every byte of every
 * buffer with what is wanted. Prints each call that went wrong, then how many there were; ends with status
 * 1 where any did.
 */
#include "melvorash.h"

#include <stdio.h>
#include <string.h>

enum {
    L = MELVORASH_L, LRE = MELVORASH_LRE, LRO = MELVORASH_LRO, R = MELVORASH_R, AL = MELVORASH_AL,
    RLE = MELVORASH_RLE, RLO = MELVORASH_RLO, PDF = MELVORASH_PDF, EN = MELVORASH_EN, ES = MELVORASH_ES,
    ET = MELVORASH_ET, AN = MELVORASH_AN, CS = MELVORASH_CS, NSM = MELVORASH_NSM, BN = MELVORASH_BN,
    B = MELVORASH_B, S = MELVORASH_S, WS = MELVORASH_WS, ON = MELVORASH_ON, CR = MELVORASH_CR,
    CLASSES, /* the first number that is no class */
    X = MELVORASH_REMOVED,
    TEXT = MELVORASH_BY_TEXT,
    NONE = MELVORASH_NONE_FOUND,
    LONGEST = MELVORASH_LONGEST,
    ROOM = LONGEST + 4, /* more than any call is lent */
    UNTOUCHED = 0xA5
};

/* The functions, each a bit, so that a case can name several. */
enum {
    CUT = 1, BASE = 2, EXPLICIT = 4, RESOLVE = 8, ORDER_LINE = 16, ORDER_LINES = 32, MARKS = 64,
    LEVELS = EXPLICIT | RESOLVE,
    ORDER = ORDER_LINE | ORDER_LINES,
    CHECKED = BASE | LEVELS | ORDER, /* all that check a whole paragraph */
    ALL = CUT | CHECKED /* all that take a paragraph */
};

/* There is no padding, so that comparing the numbers of an answer compares its bytes. */
typedef char answer_is_full[sizeof(melvorash_answer) == 3 * sizeof(size_t) ? 1 : -1];
typedef char order_answer_is_full[sizeof(melvorash_order_answer) == 4 * sizeof(size_t) ? 1 : -1];

typedef struct { const uint8_t *at; size_t count; } bytes;
typedef struct { const uint16_t *at; size_t count; } places;

#define BYTES(...) { (const uint8_t[]){__VA_ARGS__}, sizeof((const uint8_t[]){__VA_ARGS__}) }
#define PLACES(...) { (const uint16_t[]){__VA_ARGS__}, sizeof((const uint16_t[]){__VA_ARGS__}) / 2 }

/* What one call is lent, and what is wanted of it. */
typedef struct {
    const char *name;
    unsigned functions;
    bytes classes; /* directional, or combining for the marks */
    uint8_t base; /* a base request, or the base of an order */
    uint8_t fallback; /* the default that goes with a request */
    bytes levels; /* lent to Order */
    size_t from, to;
    places ends;
    bytes flags;
    size_t room; /* of the buffer that is filled */
    melvorash_answer wanted;
    size_t reversed; /* wanted of Order besides */
    bytes wanted_levels;
    places wanted_order;
} example;

/* Everything that a call can reach; two of these are compared as bytes. */
typedef struct {
    uint8_t classes[ROOM], lent[ROOM], flags[ROOM], levels[ROOM];
    uint16_t ends[ROOM], order[ROOM];
} buffers;

static int calls, failures;

/* Any answer as one of Order: the others have nothing reversed. */
static melvorash_order_answer with(melvorash_answer a, size_t reversed)
{
    melvorash_order_answer full = {a.refusal, a.place, a.value, reversed};
    return full;
}

static melvorash_order_answer call(const example *e, unsigned function, buffers *b)
{
    size_t n = e->classes.count, lent = e->levels.count;
    switch (function) {
    case CUT: return with(melvorash_cut(b->classes, n), 0);
    case BASE: return with(melvorash_base(b->classes, n), 0);
    case EXPLICIT: return with(melvorash_explicit(b->classes, n, e->base, e->fallback, b->levels, e->room), 0);
    case RESOLVE: return with(melvorash_resolve(b->classes, n, e->base, e->fallback, b->levels, e->room), 0);
    case ORDER_LINE:
        return melvorash_order_line(b->classes, n, b->lent, lent, e->base, e->from, e->to, b->order, e->room);
    case ORDER_LINES:
        return melvorash_order_lines(b->classes, n, b->lent, lent, e->base, b->ends, e->ends.count, b->order,
                                     e->room);
    default: return with(melvorash_marks(b->classes, n, b->flags, e->flags.count, b->order, e->room), 0);
    }
}

static const char *name_of(unsigned function)
{
    switch (function) {
    case CUT: return "cut";
    case BASE: return "base";
    case EXPLICIT: return "explicit";
    case RESOLVE: return "resolve";
    case ORDER_LINE: return "order_line";
    case ORDER_LINES: return "order_lines";
    default: return "marks";
    }
}

static void copy(void *to, const void *from, size_t size)
{
    if (size != 0)
        memcpy(to, from, size);
}

static void lend(const example *e, buffers *b)
{
    memset(b, UNTOUCHED, sizeof *b);
    copy(b->classes, e->classes.at, e->classes.count);
    copy(b->lent, e->levels.at, e->levels.count);
    copy(b->ends, e->ends.at, e->ends.count * 2);
    copy(b->flags, e->flags.at, e->flags.count);
}

static void judge(const char *function, const char *name, melvorash_order_answer got,
                  melvorash_order_answer wanted, int buffers_right)
{
    int answer_right = memcmp(&got, &wanted, sizeof got) == 0;
    calls++;
    if (answer_right && buffers_right)
        return;
    failures++;
    printf("failed: %s on %s: answer %zu %zu %zu %zu, wanted %zu %zu %zu %zu%s\n", function, name, got.refusal,
           got.place, got.value, got.reversed, wanted.refusal, wanted.place, wanted.value, wanted.reversed,
           buffers_right ? "" : "; a buffer is not as wanted");
}

/* One call. Beyond what is wanted of the buffer that is filled, every byte has to stay as it was. */
static void try_one(const example *e, unsigned function)
{
    static buffers wanted, lent;
    lend(e, &lent);
    lend(e, &wanted);
    copy(wanted.levels, e->wanted_levels.at, e->wanted_levels.count);
    copy(wanted.order, e->wanted_order.at, e->wanted_order.count * 2);
    melvorash_order_answer got = call(e, function, &lent);
    judge(name_of(function), e->name, got, with(e->wanted, e->reversed), memcmp(&lent, &wanted, sizeof lent) == 0);
}

static void try_all(const example *examples, size_t count)
{
    for (size_t i = 0; i < count; i++)
        for (unsigned function = CUT; function <= MARKS; function *= 2)
            if (examples[i].functions & function)
                try_one(&examples[i], function);
}

#define TRY_ALL(examples) try_all(examples, sizeof(examples) / sizeof *(examples))

/*
 * ---- document 01's table: classes, request, base used, resolved levels, the order of one line; and how many
 * positions that line reverses, which the table does not have
 */
typedef struct {
    const char *name;
    bytes classes;
    uint8_t request, base;
    bytes levels;
    places order;
    size_t reversed;
} row;

static const row rows[] = {
    {"L", BYTES(L), TEXT, 0, BYTES(0), PLACES(0), 0},
    {"AL EN", BYTES(AL, EN), TEXT, 1, BYTES(1, 2), PLACES(1, 0), 3},
    {"L WS EN", BYTES(L, WS, EN), TEXT, 0, BYTES(0, 0, 0), PLACES(0, 1, 2), 0},
    {"EN CS EN", BYTES(EN, CS, EN), 1, 1, BYTES(2, 2, 2), PLACES(0, 1, 2), 0},
    {"EN CS CS EN", BYTES(EN, CS, CS, EN), 1, 1, BYTES(2, 1, 1, 2), PLACES(3, 2, 1, 0), 6},
    {"AN ET EN", BYTES(AN, ET, EN), 1, 1, BYTES(2, 2, 2), PLACES(0, 1, 2), 0},
    {"R WS L at 0", BYTES(R, WS, L), 0, 0, BYTES(1, 0, 0), PLACES(0, 1, 2), 1},
    {"R WS L at 1", BYTES(R, WS, L), 1, 1, BYTES(1, 1, 2), PLACES(2, 1, 0), 4},
    {"RLE L PDF R", BYTES(RLE, L, PDF, R), 0, 0, BYTES(X, 2, X, 1), PLACES(3, 1), 3},
    {"EN BN CS EN", BYTES(EN, BN, CS, EN), 1, 1, BYTES(2, X, 2, 2), PLACES(0, 2, 3), 0},
    {"R S R", BYTES(R, S, R), 0, 0, BYTES(1, 1, 1), PLACES(0, 1, 2), 2},
    {"PDF L", BYTES(PDF, L), 0, 0, BYTES(X, 0), PLACES(1), 0},
    {"NSM", BYTES(NSM), 1, 1, BYTES(1), PLACES(0), 1},
    {"B", BYTES(B), TEXT, 0, BYTES(0), PLACES(0), 0},
    {"R WS R", BYTES(R, WS, R), 0, 0, BYTES(1, 1, 1), PLACES(2, 1, 0), 3},
    {"LRE RLO LRO: no position kept", BYTES(LRE, RLO, LRO), 0, 0, BYTES(X, X, X), {NULL, 0}, 0},
    {"R ES AN ON: no row of the page", BYTES(R, ES, AN, ON), TEXT, 1, BYTES(1, 1, 2, 1), PLACES(3, 2, 1, 0), 5},
};

/* ---- the same for CR, which that table does not have: with its B and without one */
static const row cr_rows[] = {
    {"R WS CR B at 0", BYTES(R, WS, CR, B), 0, 0, BYTES(1, 0, 0, 0), PLACES(0, 1, 2, 3), 1},
    {"R WS CR B at 1", BYTES(R, WS, CR, B), 1, 1, BYTES(1, 1, 1, 1), PLACES(3, 2, 1, 0), 4},
    {"R WS CR at 0", BYTES(R, WS, CR), 0, 0, BYTES(1, 0, 0), PLACES(0, 1, 2), 1},
    {"L WS CR at 1", BYTES(L, WS, CR), 1, 1, BYTES(2, 1, 1), PLACES(2, 1, 0), 4},
    {"EN CR B by the text", BYTES(EN, CR, B), TEXT, 0, BYTES(0, 0, 0), PLACES(0, 1, 2), 0},
    {"RLO L CR B at 0", BYTES(RLO, L, CR, B), 0, 0, BYTES(X, 1, 0, 0), PLACES(1, 2, 3), 1},
    {"RLO L CR B at 1", BYTES(RLO, L, CR, B), 1, 1, BYTES(X, 3, 1, 1), PLACES(3, 2, 1), 5},
    {"LRO R CR at 1", BYTES(LRO, R, CR), 1, 1, BYTES(X, 2, 1), PLACES(2, 1), 3},
    {"CR B", BYTES(CR, B), 1, 1, BYTES(1, 1), PLACES(1, 0), 2},
    {"CR", BYTES(CR), TEXT, 0, BYTES(0), PLACES(0), 0},
};

/* A row goes through Cut, Resolve with default 0 and both forms of Order, with buffers longer than they need be. */
static void try_row(const row *r)
{
    uint16_t end = (uint16_t)r->classes.count;
    const example examples[] = {
        {.name = r->name, .functions = CUT, .classes = r->classes, .wanted = {0, 0, r->classes.count}},
        {.name = r->name, .functions = RESOLVE, .classes = r->classes, .base = r->request,
         .room = r->classes.count + 3, .wanted = {0, 0, r->base}, .wanted_levels = r->levels},
        {.name = r->name, .functions = ORDER, .classes = r->classes, .base = r->base, .levels = r->levels,
         .to = r->classes.count, .ends = {&end, 1}, .room = r->classes.count + 3,
         .wanted = {0, 0, r->order.count}, .reversed = r->reversed, .wanted_order = r->order},
    };
    TRY_ALL(examples);
}

/* ---- what Base finds, the base used by the text with default 0 and 1, and the levels at each base */
typedef struct {
    const char *name;
    bytes classes;
    size_t found;
    uint8_t by_text[2];
    bytes explicit_at[2], resolved_at[2];
} text;

static const text texts[] = {
    {"EN", BYTES(EN), NONE, {0, 1}, {BYTES(0), BYTES(1)}, {BYTES(0), BYTES(2)}},
    {"ON WS", BYTES(ON, WS), NONE, {0, 1}, {BYTES(0, 0), BYTES(1, 1)}, {BYTES(0, 0), BYTES(1, 1)}},
    {"RLE", BYTES(RLE), NONE, {0, 1}, {BYTES(X), BYTES(X)}, {BYTES(X), BYTES(X)}},
    {"RLE EN", BYTES(RLE, EN), NONE, {0, 1}, {BYTES(X, 1), BYTES(X, 3)}, {BYTES(X, 2), BYTES(X, 4)}},
    {"B", BYTES(B), NONE, {0, 1}, {BYTES(0), BYTES(1)}, {BYTES(0), BYTES(1)}},
    {"CR B", BYTES(CR, B), NONE, {0, 1}, {BYTES(0, 0), BYTES(1, 1)}, {BYTES(0, 0), BYTES(1, 1)}},
    {"L", BYTES(L), 0, {0, 0}, {BYTES(0), BYTES(1)}, {BYTES(0), BYTES(2)}},
    {"R", BYTES(R), 1, {1, 1}, {BYTES(0), BYTES(1)}, {BYTES(1), BYTES(1)}},
    {"AL", BYTES(AL), 1, {1, 1}, {BYTES(0), BYTES(1)}, {BYTES(1), BYTES(1)}},
    {"EN L R", BYTES(EN, L, R), 0, {0, 0}, {BYTES(0, 0, 0), BYTES(1, 1, 1)},
     {BYTES(0, 0, 1), BYTES(2, 2, 1)}},
    {"EN AL B", BYTES(EN, AL, B), 1, {1, 1}, {BYTES(0, 0, 0), BYTES(1, 1, 1)},
     {BYTES(0, 1, 0), BYTES(2, 1, 1)}},
};

static void try_text(const text *t)
{
    const example found = {.name = t->name, .classes = t->classes, .wanted = {0, 0, t->found}};
    const uint8_t used_by[][2] = {{0, 0}, {1, 1}, {t->by_text[0], t->by_text[1]}};
    try_one(&found, BASE);
    for (uint8_t request = 0; request <= TEXT; request++)
        for (uint8_t fallback = 0; fallback <= 1; fallback++) {
            char name[64];
            uint8_t used = used_by[request][fallback];
            snprintf(name, sizeof name, "%s, request %d, default %d", t->name, request, fallback);
            const example levels[] = {
                {.name = name, .functions = EXPLICIT, .classes = t->classes, .base = request, .fallback = fallback,
                 .room = t->classes.count + 2, .wanted = {0, 0, used}, .wanted_levels = t->explicit_at[used]},
                {.name = name, .functions = RESOLVE, .classes = t->classes, .base = request, .fallback = fallback,
                 .room = t->classes.count + 2, .wanted = {0, 0, used}, .wanted_levels = t->resolved_at[used]},
            };
            TRY_ALL(levels);
        }
}

/* ---- no default above 1 with any request, also where it would not be used */
static void try_bad_defaults(void)
{
    static const uint8_t bad[] = {2, 3, 255};
    for (uint8_t request = 0; request <= 3; request++)
        for (size_t i = 0; i < sizeof bad; i++) {
            char name[64];
            snprintf(name, sizeof name, "request %d, default %d", request, bad[i]);
            const example examples[] = {
                {.name = name, .functions = LEVELS, .classes = BYTES(EN), .base = request, .fallback = bad[i],
                 .room = 2, .wanted = {5, 0, 0}},
                {.name = name, .functions = LEVELS, .classes = BYTES(L, R), .base = request, .fallback = bad[i],
                 .room = 2, .wanted = {5, 0, 0}},
            };
            TRY_ALL(examples);
        }
}

/* ---- what the rows leave out of good input */
static const example accepted[] = {
    {.name = "L B R", .functions = CUT, .classes = BYTES(L, B, R), .wanted = {0, 0, 2}},
    {.name = "B and an unknown class after it", .functions = CUT, .classes = BYTES(B, CLASSES), .wanted = {0, 0, 1}},
    {.name = "CR B R", .functions = CUT, .classes = BYTES(CR, B, R), .wanted = {0, 0, 2}},
    {.name = "L CR B B", .functions = CUT, .classes = BYTES(L, CR, B, B), .wanted = {0, 0, 3}},
    {.name = "L CR L", .functions = CUT, .classes = BYTES(L, CR, L), .wanted = {0, 0, 2}},
    {.name = "CR CR B", .functions = CUT, .classes = BYTES(CR, CR, B), .wanted = {0, 0, 1}},
    {.name = "CR BN B", .functions = CUT, .classes = BYTES(CR, BN, B), .wanted = {0, 0, 1}},
    {.name = "B CR B", .functions = CUT, .classes = BYTES(B, CR, B), .wanted = {0, 0, 1}},
    {.name = "CR and an unknown class after it", .functions = CUT, .classes = BYTES(CR, CLASSES), .wanted = {0, 0, 1}},
    {.name = "CR B and an unknown class", .functions = CUT, .classes = BYTES(CR, B, CLASSES), .wanted = {0, 0, 2}},
    {.name = "WS EN", .functions = BASE, .classes = BYTES(WS, EN), .wanted = {0, 0, NONE}},
    {.name = "AL CR B", .functions = BASE, .classes = BYTES(AL, CR, B), .wanted = {0, 0, 1}},
    {.name = "LRE AL B", .functions = BASE, .classes = BYTES(LRE, AL, B), .wanted = {0, 0, 1}},
    {.name = "RLE L PDF R", .functions = EXPLICIT, .classes = BYTES(RLE, L, PDF, R), .room = 6,
     .wanted_levels = BYTES(X, 1, X, 0)},
    {.name = "AL EN", .functions = EXPLICIT, .classes = BYTES(AL, EN), .base = TEXT, .room = 2,
     .wanted = {0, 0, 1}, .wanted_levels = BYTES(1, 1)},
    {.name = "R WS R, its first line", .functions = ORDER_LINE, .classes = BYTES(R, WS, R),
     .levels = BYTES(1, 1, 1), .to = 2, .room = 2, .wanted = {0, 0, 2}, .reversed = 1, .wanted_order = PLACES(0, 1)},
    {.name = "R WS R, its second line", .functions = ORDER_LINE, .classes = BYTES(R, WS, R),
     .levels = BYTES(1, 1, 1, 99), .from = 2, .to = 3, .room = 4, .wanted = {0, 0, 1}, .reversed = 1,
     .wanted_order = PLACES(2)},
    {.name = "R WS R, both lines", .functions = ORDER_LINES, .classes = BYTES(R, WS, R),
     .levels = BYTES(1, 1, 1), .ends = PLACES(2, 3), .room = 3, .wanted = {0, 0, 3},
     .reversed = 2, .wanted_order = PLACES(0, 1, 2)},
    {.name = "RLO L CR B at 0", .functions = EXPLICIT, .classes = BYTES(RLO, L, CR, B), .room = 5,
     .wanted_levels = BYTES(X, 1, 0, 0)},
    {.name = "LRO R CR at 1", .functions = EXPLICIT, .classes = BYTES(LRO, R, CR), .base = 1, .room = 4,
     .wanted = {0, 0, 1}, .wanted_levels = BYTES(X, 2, 1)},
    {.name = "R WS CR B at 0, a line up to B", .functions = ORDER_LINE, .classes = BYTES(R, WS, CR, B),
     .levels = BYTES(1, 0, 0, 0), .to = 3, .room = 4, .wanted = {0, 0, 3}, .reversed = 1,
     .wanted_order = PLACES(0, 1, 2)},
    {.name = "R WS CR B at 0, B alone", .functions = ORDER_LINE, .classes = BYTES(R, WS, CR, B),
     .levels = BYTES(1, 0, 0, 0), .from = 3, .to = 4, .room = 4, .wanted = {0, 0, 1}, .wanted_order = PLACES(3)},
    {.name = "R WS CR B at 0, both lines", .functions = ORDER_LINES, .classes = BYTES(R, WS, CR, B),
     .levels = BYTES(1, 0, 0, 0), .ends = PLACES(3, 4), .room = 5, .wanted = {0, 0, 4},
     .reversed = 1, .wanted_order = PLACES(0, 1, 2, 3)},
    {.name = "R WS CR B at 1, both lines", .functions = ORDER_LINES, .classes = BYTES(R, WS, CR, B), .base = 1,
     .levels = BYTES(1, 1, 1, 1), .ends = PLACES(3, 4), .room = 5, .wanted = {0, 0, 4},
     .reversed = 4, .wanted_order = PLACES(2, 1, 0, 3)},
    /* levels that Resolve does not give, so that the order shows what the line puts back to the base */
    {.name = "R WS CR B, all at 1", .functions = ORDER, .classes = BYTES(R, WS, CR, B), .levels = BYTES(1, 1, 1, 1),
     .to = 4, .ends = PLACES(4), .room = 4, .wanted = {0, 0, 4}, .reversed = 1, .wanted_order = PLACES(0, 1, 2, 3)},
    {.name = "R WS CR B, all at 1, a line up to B", .functions = ORDER_LINE, .classes = BYTES(R, WS, CR, B),
     .levels = BYTES(1, 1, 1, 1), .to = 3, .room = 4, .wanted = {0, 0, 3}, .reversed = 1,
     .wanted_order = PLACES(0, 1, 2)},
    {.name = "R WS BN CR, all at 1", .functions = ORDER, .classes = BYTES(R, WS, BN, CR), .levels = BYTES(1, 1, X, 1),
     .to = 4, .ends = PLACES(4), .room = 4, .wanted = {0, 0, 3}, .reversed = 1, .wanted_order = PLACES(0, 1, 3)},
    {.name = "R CR, at 2 and 3", .functions = ORDER, .classes = BYTES(R, CR), .base = 1, .levels = BYTES(2, 3),
     .to = 2, .ends = PLACES(2), .room = 4, .wanted = {0, 0, 2}, .reversed = 3, .wanted_order = PLACES(1, 0)},
};

/* ---- how many positions a line reverses: classes, base, levels, the order and the number */
typedef struct {
    const char *name;
    bytes classes;
    uint8_t base;
    bytes levels;
    places order;
    size_t reversed;
} line;

static const line lines[] = {
    {"no odd level, 0", BYTES(L), 0, BYTES(0), PLACES(0), 0},
    {"no odd level, 2 0 62", BYTES(L, L, L), 1, BYTES(2, 0, 62), PLACES(0, 1, 2), 0},
    {"a stretch of one, 1", BYTES(R), 0, BYTES(1), PLACES(0), 1},
    {"a stretch of one, 61", BYTES(R), 0, BYTES(61), PLACES(0), 1},
    {"one odd level, 1 0 1 1", BYTES(R, L, R, R), 0, BYTES(1, 0, 1, 1), PLACES(0, 1, 3, 2), 3},
    {"a gap, 1 4", BYTES(R, L), 0, BYTES(1, 4), PLACES(1, 0), 5},
    {"a gap, 3 62", BYTES(R, L), 0, BYTES(3, 62), PLACES(1, 0), 61},
    {"gaps, 0 5 9 5", BYTES(L, R, R, R), 0, BYTES(0, 5, 9, 5), PLACES(0, 3, 2, 1), 7},
    {"below the lowest odd level, 2 3 4 0", BYTES(L, R, L, L), 0, BYTES(2, 3, 4, 0), PLACES(0, 2, 1, 3), 3},
    {"below the lowest odd level, 60 60 61", BYTES(L, L, R), 0, BYTES(60, 60, 61), PLACES(0, 1, 2), 1},
    {"removed within a stretch", BYTES(R, PDF, L, BN, R), 0, BYTES(1, X, 2, X, 1), PLACES(4, 2, 0), 4},
    {"all removed", BYTES(LRE, BN), 1, BYTES(X, X), {NULL, 0}, 0},
    /* what counts is the level after the reset: it lowers the lowest odd level, takes it away or brings one */
    {"R WS at 0, 3 9", BYTES(R, WS), 0, BYTES(3, 9), PLACES(0, 1), 1},
    {"R WS at 1, 3 9", BYTES(R, WS), 1, BYTES(3, 9), PLACES(1, 0), 4},
    {"L S at 0, 4 7", BYTES(L, S), 0, BYTES(4, 7), PLACES(0, 1), 0},
    {"L WS B at 1, 4 0 0", BYTES(L, WS, B), 1, BYTES(4, 0, 0), PLACES(2, 1, 0), 6},
    {"WS WS at 1, 62 61", BYTES(WS, WS), 1, BYTES(62, 61), PLACES(1, 0), 2},
};

static void try_line(const line *l)
{
    uint16_t end = (uint16_t)l->classes.count;
    const example e = {.name = l->name, .functions = ORDER, .classes = l->classes, .base = l->base,
                       .levels = l->levels, .to = end, .ends = {&end, 1}, .room = l->classes.count + 1,
                       .wanted = {0, 0, l->order.count}, .reversed = l->reversed, .wanted_order = l->order};
    try_all(&e, 1);
}

/* ---- for all lines the sum, each line with a lowest odd level of its own; as one line it is another number */
#define SEVEN .classes = BYTES(L, L, L, L, L, L, L), .levels = BYTES(3, 4, 1, 2, 2, 4, 5), .room = 7
static const example sums[] = {
    {.name = "3 4", .functions = ORDER_LINE, SEVEN, .to = 2, .wanted = {0, 0, 2}, .reversed = 3,
     .wanted_order = PLACES(1, 0)},
    {.name = "1 2", .functions = ORDER_LINE, SEVEN, .from = 2, .to = 4, .wanted = {0, 0, 2}, .reversed = 3,
     .wanted_order = PLACES(3, 2)},
    {.name = "2 4", .functions = ORDER_LINE, SEVEN, .from = 4, .to = 6, .wanted = {0, 0, 2},
     .wanted_order = PLACES(4, 5)},
    {.name = "5", .functions = ORDER_LINE, SEVEN, .from = 6, .to = 7, .wanted = {0, 0, 1}, .reversed = 1,
     .wanted_order = PLACES(6)},
    {.name = "3 4, 1 2, 2 4, 5", .functions = ORDER_LINES, SEVEN, .ends = PLACES(2, 4, 6, 7),
     .wanted = {0, 0, 7}, .reversed = 7, .wanted_order = PLACES(1, 0, 3, 2, 4, 5, 6)},
    {.name = "3 4 1 2 2 4 5", .functions = ORDER, SEVEN, .to = 7, .ends = PLACES(7), .wanted = {0, 0, 7},
     .reversed = 21, .wanted_order = PLACES(3, 4, 5, 6, 2, 1, 0)},
};

/* ---- each refusal of an order but 3, on a line that would reverse positions: nothing is placed or reversed */
static const example refused_counts[] = {
    {.name = "1 2, no classes", .functions = ORDER, .levels = BYTES(1, 2), .to = 2, .ends = PLACES(2), .room = 2,
     .wanted = {1, 0, 0}},
    {.name = "1 2, R 20", .functions = ORDER, .classes = BYTES(R, CLASSES), .levels = BYTES(1, 2), .to = 2,
     .ends = PLACES(2), .room = 2, .wanted = {2, 1, 0}},
    {.name = "1 2 1, R B R", .functions = ORDER, .classes = BYTES(R, B, R), .levels = BYTES(1, 2, 1), .to = 3,
     .ends = PLACES(3), .room = 3, .wanted = {4, 1, 0}},
    {.name = "1 2, base 2", .functions = ORDER, .classes = BYTES(R, L), .base = 2, .levels = BYTES(1, 2), .to = 2,
     .ends = PLACES(2), .room = 2, .wanted = {5, 0, 0}},
    {.name = "1 and no more", .functions = ORDER, .classes = BYTES(R, L), .levels = BYTES(1), .to = 1,
     .ends = PLACES(2), .room = 2, .wanted = {6, 0, 0}},
    {.name = "1 2 63", .functions = ORDER, .classes = BYTES(R, L, L), .levels = BYTES(1, 2, 63), .to = 2,
     .ends = PLACES(3), .room = 3, .wanted = {7, 2, 0}},
    {.name = "1 2, a line to 3", .functions = ORDER_LINE, .classes = BYTES(R, L), .levels = BYTES(1, 2), .to = 3,
     .room = 3, .wanted = {8, 0, 0}},
    {.name = "1 2, ends 1", .functions = ORDER_LINES, .classes = BYTES(R, L), .levels = BYTES(1, 2),
     .ends = PLACES(1), .room = 2, .wanted = {10, 0, 0}},
    {.name = "1 2, room for 1", .functions = ORDER, .classes = BYTES(R, L), .levels = BYTES(1, 2), .to = 2,
     .ends = PLACES(2), .room = 1, .wanted = {9, 0, 0}},
};

/* ---- bad input, most of it with a second fault that is not the one to be given */
static const example refused[] = {
    {.name = "no classes", .functions = ALL, .base = 3, .wanted = {1, 0, 0}},
    {.name = "L 20", .functions = ALL, .classes = BYTES(L, CLASSES), .base = 3, .wanted = {2, 1, 0}},
    {.name = "20 CR B", .functions = ALL, .classes = BYTES(CLASSES, CR, B), .base = 3, .wanted = {2, 0, 0}},
    {.name = "L L 255 B L", .functions = ALL, .classes = BYTES(L, L, 255, B, L), .wanted = {2, 2, 0}},
    {.name = "L B 20", .functions = CHECKED, .classes = BYTES(L, B, CLASSES), .base = 3, .wanted = {4, 1, 0}},
    {.name = "L CR 20", .functions = CHECKED, .classes = BYTES(L, CR, CLASSES), .base = 3, .wanted = {4, 1, 0}},
    {.name = "L CR L", .functions = CHECKED, .classes = BYTES(L, CR, L), .base = 3, .wanted = {4, 1, 0}},
    {.name = "CR B L", .functions = CHECKED, .classes = BYTES(CR, B, L), .base = 3, .wanted = {4, 0, 0}},
    {.name = "L CR B B", .functions = CHECKED, .classes = BYTES(L, CR, B, B), .base = 3, .wanted = {4, 1, 0}},
    {.name = "CR CR B", .functions = CHECKED, .classes = BYTES(CR, CR, B), .base = 3, .wanted = {4, 0, 0}},
    {.name = "CR BN B", .functions = CHECKED, .classes = BYTES(CR, BN, B), .base = 3, .wanted = {4, 0, 0}},
    {.name = "L B CR", .functions = CHECKED, .classes = BYTES(L, B, CR), .base = 3, .wanted = {4, 1, 0}},
    {.name = "L B CR B", .functions = CHECKED, .classes = BYTES(L, B, CR, B), .base = 3, .wanted = {4, 1, 0}},
    {.name = "CR B, request 3", .functions = LEVELS, .classes = BYTES(CR, B), .base = 3, .wanted = {5, 0, 0}},
    {.name = "CR B, room for 1", .functions = LEVELS, .classes = BYTES(CR, B), .room = 1, .wanted = {6, 0, 0}},
    {.name = "CR B, CR at 255", .functions = ORDER, .classes = BYTES(CR, B), .levels = BYTES(X, 0),
     .wanted = {7, 0, 0}},
    {.name = "request 3, no room", .functions = LEVELS, .classes = BYTES(L, R), .base = 3, .wanted = {5, 0, 0}},
    {.name = "room for 1 of 2", .functions = LEVELS, .classes = BYTES(L, R), .room = 1, .wanted = {6, 0, 0}},
    {.name = "request 3, default 1", .functions = LEVELS, .classes = BYTES(EN), .base = 3, .fallback = 1, .room = 1,
     .wanted = {5, 0, 0}},
    {.name = "default 2, room for 1 of 2", .functions = LEVELS, .classes = BYTES(EN, EN), .base = TEXT, .fallback = 2,
     .room = 1, .wanted = {5, 0, 0}},
    {.name = "default 1, room for 1 of 2", .functions = LEVELS, .classes = BYTES(EN, EN), .base = TEXT, .fallback = 1,
     .room = 1, .wanted = {6, 0, 0}},
    {.name = "default 2, no classes", .functions = LEVELS, .base = TEXT, .fallback = 2, .wanted = {1, 0, 0}},
    {.name = "default 2, EN 20", .functions = LEVELS, .classes = BYTES(EN, CLASSES), .base = TEXT, .fallback = 2,
     .room = 2, .wanted = {2, 1, 0}},
    {.name = "default 2, EN B EN", .functions = LEVELS, .classes = BYTES(EN, B, EN), .base = TEXT, .fallback = 2,
     .room = 3, .wanted = {4, 1, 0}},
    {.name = "base 2, one level", .functions = ORDER, .classes = BYTES(L, R), .base = 2, .levels = BYTES(0),
     .wanted = {5, 0, 0}},
    {.name = "one level, and that one bad", .functions = ORDER, .classes = BYTES(L, R), .levels = BYTES(63),
     .wanted = {6, 0, 0}},
    {.name = "level 63, no line", .functions = ORDER, .classes = BYTES(L, R), .levels = BYTES(62, 63),
     .wanted = {7, 1, 0}},
    {.name = "level 255 kept", .functions = ORDER, .classes = BYTES(L, R, L), .levels = BYTES(0, X, 63),
     .wanted = {7, 1, 0}},
    {.name = "level 0 removed", .functions = ORDER, .classes = BYTES(L, L, PDF), .levels = BYTES(0, 0, 0),
     .wanted = {7, 2, 0}},
    {.name = "line from 1 to 1, no room", .functions = ORDER_LINE, .classes = BYTES(L, R), .levels = BYTES(0, 1),
     .from = 1, .to = 1, .wanted = {8, 0, 0}},
    {.name = "line to 3 of 2, no room", .functions = ORDER_LINE, .classes = BYTES(L, R), .levels = BYTES(0, 1),
     .to = 3, .wanted = {8, 0, 0}},
    {.name = "line to the highest number", .functions = ORDER_LINE, .classes = BYTES(L, R),
     .levels = BYTES(0, 1), .to = (size_t)-1, .room = 4, .wanted = {8, 0, 0}},
    {.name = "room for 1 of 2, one removed", .functions = ORDER_LINE, .classes = BYTES(L, PDF, R),
     .levels = BYTES(0, X, 1), .to = 2, .room = 1, .wanted = {9, 0, 0}},
    {.name = "no ends, no room", .functions = ORDER_LINES, .classes = BYTES(L, R), .levels = BYTES(0, 1),
     .wanted = {10, 0, 0}},
    {.name = "ends 0 2", .functions = ORDER_LINES, .classes = BYTES(L, R), .levels = BYTES(0, 1),
     .ends = PLACES(0, 2), .room = 4, .wanted = {10, 0, 0}},
    {.name = "ends 1 1 2", .functions = ORDER_LINES, .classes = BYTES(L, R), .levels = BYTES(0, 1),
     .ends = PLACES(1, 1, 2), .room = 4, .wanted = {10, 0, 0}},
    {.name = "ends 1, no room", .functions = ORDER_LINES, .classes = BYTES(L, R), .levels = BYTES(0, 1),
     .ends = PLACES(1), .wanted = {10, 0, 0}},
    {.name = "ends 1 2, room for 1", .functions = ORDER_LINES, .classes = BYTES(L, R), .levels = BYTES(0, 1),
     .ends = PLACES(1, 2), .room = 1, .wanted = {9, 0, 0}},
};

/* ---- marks: combining classes, flags, the drawing order */
typedef struct {
    const char *name;
    bytes classes, flags;
    places order;
} stack;

static const stack stacks[] = {
    {"one letter", BYTES(0), BYTES(0), PLACES(0)},
    {"damma, shadda", BYTES(0, 31, 33), BYTES(0, 0, 0), PLACES(0, 2, 1)},
    {"canonical ordering, one class in its order", BYTES(0, 230, 220, 230, 220), BYTES(0, 0, 0, 0, 0),
     PLACES(0, 2, 4, 1, 3)},
    {"220 before 230 before shadda", BYTES(0, 33, 31, 230, 220), BYTES(0, 0, 0, 1, 255), PLACES(0, 4, 3, 1, 2)},
    {"the flagged front of 230", BYTES(0, 31, 230, 230, 230, 230), BYTES(0, 0, 128, 1, 0, 1),
     PLACES(0, 2, 3, 1, 4, 5)},
    {"the flagged front of 220", BYTES(0, 31, 220, 33, 220, 220), BYTES(0, 0, 2, 0, 0, 1),
     PLACES(0, 2, 3, 1, 4, 5)},
    {"a flag behind one not flagged", BYTES(0, 31, 230, 230), BYTES(0, 0, 0, 1), PLACES(0, 1, 2, 3)},
    {"flags on other classes", BYTES(0, 34, 30, 240), BYTES(1, 1, 1, 1), PLACES(0, 2, 1, 3)},
    {"class 0 between", BYTES(0, 31, 0, 33, 0, 230), BYTES(1, 1, 1, 1, 1, 1), PLACES(0, 1, 2, 3, 4, 5)},
    {"a stretch with nothing before it", BYTES(34, 33, 0, 34, 33), BYTES(0, 0, 0, 0, 0), PLACES(1, 0, 2, 4, 3)},
    {"the highest classes", BYTES(255, 1, 254), BYTES(0, 0, 0), PLACES(1, 2, 0)},
};

/* With buffers that just suffice, and with longer ones. */
static void try_stack(const stack *s)
{
    uint8_t longer_flags[16];
    memset(longer_flags, 1, sizeof longer_flags);
    copy(longer_flags, s->flags.at, s->flags.count);
    const example examples[] = {
        {.name = s->name, .functions = MARKS, .classes = s->classes, .flags = s->flags, .room = s->classes.count,
         .wanted = {0, 0, s->order.count}, .wanted_order = s->order},
        {.name = s->name, .functions = MARKS, .classes = s->classes, .flags = {longer_flags, sizeof longer_flags},
         .room = s->classes.count + 3, .wanted = {0, 0, s->order.count}, .wanted_order = s->order},
    };
    TRY_ALL(examples);
}

static const example refused_marks[] = {
    {.name = "no characters", .functions = MARKS, .wanted = {1, 0, 0}},
    {.name = "no characters, flags and room", .functions = MARKS, .flags = BYTES(1), .room = 2, .wanted = {1, 0, 0}},
    {.name = "2 flags of 3", .functions = MARKS, .classes = BYTES(0, 33, 30), .flags = BYTES(0, 0), .room = 3,
     .wanted = {16, 0, 0}},
    {.name = "no flags", .functions = MARKS, .classes = BYTES(0, 33, 30), .room = 4, .wanted = {16, 0, 0}},
    {.name = "room for 2 of 3", .functions = MARKS, .classes = BYTES(0, 33, 30), .flags = BYTES(0, 0, 0), .room = 2,
     .wanted = {16, 0, 0}},
    {.name = "no room", .functions = MARKS, .classes = BYTES(0), .flags = BYTES(0, 0), .wanted = {16, 0, 0}},
    {.name = "2 flags of 3, room for 1", .functions = MARKS, .classes = BYTES(0, 33, 30), .flags = BYTES(0, 0),
     .room = 1, .wanted = {16, 0, 0}},
};

/* The most characters, sukun and shadda by turns, with a flag or a place too few, and one character more. */
static void try_most_marks(void)
{
    static uint8_t by_turns[LONGEST + 1], zeros[LONGEST + 1];
    static uint16_t drawn[LONGEST];
    for (int i = 0; i <= LONGEST; i++)
        by_turns[i] = i % 2 ? 33 : 34;
    for (int i = 0; i < LONGEST; i++)
        drawn[i] = (uint16_t)(i < LONGEST / 2 ? 2 * i + 1 : 2 * i - LONGEST);
    const bytes most = {by_turns, LONGEST}, more = {by_turns, LONGEST + 1};
    const bytes flags = {zeros, LONGEST}, fewer_flags = {zeros, LONGEST - 1}, more_flags = {zeros, LONGEST + 1};
    const example examples[] = {
        {.name = "4096", .functions = MARKS, .classes = most, .flags = flags, .room = LONGEST,
         .wanted = {0, 0, LONGEST}, .wanted_order = {drawn, LONGEST}},
        {.name = "4096, 4095 flags", .functions = MARKS, .classes = most, .flags = fewer_flags, .room = LONGEST,
         .wanted = {16, 0, 0}},
        {.name = "4096, room for 4095", .functions = MARKS, .classes = most, .flags = flags, .room = LONGEST - 1,
         .wanted = {16, 0, 0}},
        {.name = "4097", .functions = MARKS, .classes = more, .flags = more_flags, .room = LONGEST + 1,
         .wanted = {3, 0, 0}},
        {.name = "4097, no flags, no room", .functions = MARKS, .classes = more, .wanted = {3, 0, 0}},
    };
    TRY_ALL(examples);
}

/* ---- the longest paragraph, and one position more */
static void try_longest(void)
{
    static uint8_t zeros[LONGEST + 1], unknown_last[LONGEST + 1], numbers[LONGEST], r_last[LONGEST];
    static uint16_t counted[LONGEST];
    static const uint16_t end = LONGEST;
    for (int i = 0; i < LONGEST; i++)
        counted[i] = (uint16_t)i;
    unknown_last[LONGEST] = CLASSES;
    memset(numbers, EN, LONGEST);
    memset(r_last, EN, LONGEST - 1);
    r_last[LONGEST - 1] = R;
    const bytes longest = {zeros, LONGEST}, longer = {zeros, LONGEST + 1};
    const places whole = {counted, LONGEST};
    const example examples[] = {
        {.name = "4096 L", .functions = CUT, .classes = longest, .wanted = {0, 0, LONGEST}},
        {.name = "4096 L", .functions = BASE, .classes = longest},
        {.name = "4096 L", .functions = LEVELS, .classes = longest, .room = LONGEST, .wanted_levels = longest},
        {.name = "4096 L", .functions = ORDER, .classes = longest, .levels = longest, .to = LONGEST,
         .ends = {&end, 1}, .room = LONGEST, .wanted = {0, 0, LONGEST}, .wanted_order = whole},
        {.name = "4096 EN", .functions = BASE, .classes = {numbers, LONGEST}, .wanted = {0, 0, NONE}},
        {.name = "4095 EN R", .functions = BASE, .classes = {r_last, LONGEST}, .wanted = {0, 0, 1}},
        {.name = "4097 L", .functions = ALL, .classes = longer, .base = 3, .fallback = 2, .wanted = {3, 0, 0}},
        {.name = "4096 L 20", .functions = ALL, .classes = {unknown_last, LONGEST + 1}, .wanted = {3, 0, 0}},
    };
    TRY_ALL(examples);
}

/* All at level 62 but one. Where that one is at level 1 no line can reverse more. */
static void try_one_odd(uint16_t at, uint8_t odd, size_t reversed)
{
    static uint8_t classes[LONGEST], levels[LONGEST];
    static uint16_t order[LONGEST];
    static const uint16_t end = LONGEST;
    uint16_t *next = order;
    memset(levels, 62, LONGEST);
    levels[at] = odd;
    for (int i = at + 1; i < LONGEST; i++)
        *next++ = (uint16_t)i;
    *next++ = at;
    for (int i = 0; i < at; i++)
        *next++ = (uint16_t)i;
    const example e = {.name = "4096 at 62 but one", .functions = ORDER, .classes = {classes, LONGEST},
                       .levels = {levels, LONGEST}, .to = LONGEST, .ends = {&end, 1}, .room = LONGEST,
                       .wanted = {0, 0, LONGEST}, .reversed = reversed, .wanted_order = {order, LONGEST}};
    try_all(&e, 1);
}

/* ---- the most that can be reversed, a line for each position, and a count that is refused with 3 */
static void try_most_reversed(void)
{
    static uint8_t classes[LONGEST + 1], ones[LONGEST + 1];
    static uint16_t counted[LONGEST], ends[LONGEST];
    static const uint16_t end = LONGEST + 1;
    try_one_odd(0, 1, 253891);
    try_one_odd(1000, 1, 253891);
    try_one_odd(LONGEST - 1, 1, 253891);
    try_one_odd(LONGEST - 1, 61, 8191);
    memset(ones, 1, LONGEST + 1);
    for (int i = 0; i < LONGEST; i++) {
        counted[i] = (uint16_t)i;
        ends[i] = (uint16_t)(i + 1);
    }
    const example examples[] = {
        {.name = "4096 lines at 1", .functions = ORDER_LINES, .classes = {classes, LONGEST},
         .levels = {ones, LONGEST}, .ends = {ends, LONGEST}, .room = LONGEST, .wanted = {0, 0, LONGEST},
         .reversed = LONGEST, .wanted_order = {counted, LONGEST}},
        {.name = "4097 at 1", .functions = ORDER, .classes = {classes, LONGEST + 1}, .levels = {ones, LONGEST + 1},
         .to = LONGEST, .ends = {&end, 1}, .room = LONGEST + 1, .wanted = {3, 0, 0}},
    };
    TRY_ALL(examples);
}

/* ---- CR as the 4,096th, and what may follow it; then as the one before, with its B the 4,096th */
static void try_longest_cr(void)
{
    static uint8_t zeros[LONGEST], then_l[LONGEST + 1], then_unknown[LONGEST + 1], then_cr[LONGEST + 1];
    static uint8_t then_b[LONGEST + 1], paired[LONGEST + 1];
    static uint16_t counted[LONGEST];
    static const uint16_t end = LONGEST;
    for (int i = 0; i < LONGEST; i++)
        counted[i] = (uint16_t)i;
    then_l[LONGEST - 1] = then_unknown[LONGEST - 1] = then_cr[LONGEST - 1] = then_b[LONGEST - 1] = CR;
    then_unknown[LONGEST] = CLASSES;
    then_cr[LONGEST] = CR;
    then_b[LONGEST] = B;
    paired[LONGEST - 2] = CR;
    paired[LONGEST - 1] = B;
    const bytes levels = {zeros, LONGEST}, longest = {paired, LONGEST};
    const example examples[] = {
        {.name = "4095 L CR", .functions = CUT, .classes = {then_l, LONGEST}, .wanted = {0, 0, LONGEST}},
        {.name = "4095 L CR L", .functions = CUT, .classes = {then_l, LONGEST + 1}, .wanted = {0, 0, LONGEST}},
        {.name = "4095 L CR 20", .functions = CUT, .classes = {then_unknown, LONGEST + 1}, .wanted = {0, 0, LONGEST}},
        {.name = "4095 L CR CR", .functions = CUT, .classes = {then_cr, LONGEST + 1}, .wanted = {0, 0, LONGEST}},
        {.name = "4095 L CR B", .functions = ALL, .classes = {then_b, LONGEST + 1}, .base = 3, .wanted = {3, 0, 0}},
        {.name = "4095 L CR 20", .functions = CHECKED, .classes = {then_unknown, LONGEST + 1}, .base = 3,
         .wanted = {3, 0, 0}},
        {.name = "4094 L CR B L", .functions = CUT, .classes = {paired, LONGEST + 1}, .wanted = {0, 0, LONGEST}},
        {.name = "4094 L CR B", .functions = CUT, .classes = longest, .wanted = {0, 0, LONGEST}},
        {.name = "4094 L CR B", .functions = BASE, .classes = longest},
        {.name = "4094 L CR B", .functions = LEVELS, .classes = longest, .room = LONGEST, .wanted_levels = levels},
        {.name = "4094 L CR B", .functions = ORDER, .classes = longest, .levels = levels, .to = LONGEST,
         .ends = {&end, 1}, .room = LONGEST, .wanted = {0, 0, LONGEST}, .wanted_order = {counted, LONGEST}},
    };
    TRY_ALL(examples);
}

/* ---- a CR that is lent without the B behind it in memory: the paragraph ends with what is lent */
static void try_lent_alone(void)
{
    static const uint8_t classes[] = {L, CR, B};
    const melvorash_order_answer two = {0, 0, 2, 0};
    judge("cut", "L CR, a B behind what is lent", with(melvorash_cut(classes, 2), 0), two, 1);
}

/* ---- a null pointer with count 0 is an empty buffer */
static void try_null(void)
{
    static const uint8_t l = L;
    static const uint16_t end = 1;
    const melvorash_order_answer none = {1, 0, 0, 0}, no_levels = {6, 0, 0, 0}, no_order = {9, 0, 0, 0};
    const melvorash_order_answer no_ends = {10, 0, 0, 0}, short_buffer = {16, 0, 0, 0};
    judge("cut", "null", with(melvorash_cut(NULL, 0), 0), none, 1);
    judge("base", "null", with(melvorash_base(NULL, 0), 0), none, 1);
    judge("explicit", "null", with(melvorash_explicit(NULL, 0, 0, 0, NULL, 0), 0), none, 1);
    judge("explicit", "null levels", with(melvorash_explicit(&l, 1, 0, 0, NULL, 0), 0), no_levels, 1);
    judge("resolve", "null", with(melvorash_resolve(NULL, 0, 0, 0, NULL, 0), 0), none, 1);
    judge("resolve", "null levels", with(melvorash_resolve(&l, 1, 0, 0, NULL, 0), 0), no_levels, 1);
    judge("order_line", "null", melvorash_order_line(NULL, 0, NULL, 0, 0, 0, 1, NULL, 0), none, 1);
    judge("order_line", "null levels", melvorash_order_line(&l, 1, NULL, 0, 0, 0, 1, NULL, 0), no_levels, 1);
    judge("order_line", "null order", melvorash_order_line(&l, 1, &l, 1, 0, 0, 1, NULL, 0), no_order, 1);
    judge("order_lines", "null", melvorash_order_lines(NULL, 0, NULL, 0, 0, NULL, 0, NULL, 0), none, 1);
    judge("order_lines", "null ends", melvorash_order_lines(&l, 1, &l, 1, 0, NULL, 0, NULL, 0), no_ends, 1);
    judge("order_lines", "null order", melvorash_order_lines(&l, 1, &l, 1, 0, &end, 1, NULL, 0), no_order, 1);
    judge("marks", "null", with(melvorash_marks(NULL, 0, NULL, 0, NULL, 0), 0), none, 1);
    judge("marks", "null flags and order", with(melvorash_marks(&l, 1, NULL, 0, NULL, 0), 0), short_buffer, 1);
    judge("marks", "null order", with(melvorash_marks(&l, 1, &l, 1, NULL, 0), 0), short_buffer, 1);
}

int main(void)
{
    for (size_t i = 0; i < sizeof rows / sizeof *rows; i++)
        try_row(&rows[i]);
    for (size_t i = 0; i < sizeof cr_rows / sizeof *cr_rows; i++)
        try_row(&cr_rows[i]);
    for (size_t i = 0; i < sizeof texts / sizeof *texts; i++)
        try_text(&texts[i]);
    TRY_ALL(accepted);
    for (size_t i = 0; i < sizeof lines / sizeof *lines; i++)
        try_line(&lines[i]);
    TRY_ALL(sums);
    TRY_ALL(refused);
    TRY_ALL(refused_counts);
    try_bad_defaults();
    for (size_t i = 0; i < sizeof stacks / sizeof *stacks; i++)
        try_stack(&stacks[i]);
    TRY_ALL(refused_marks);
    try_most_marks();
    try_longest();
    try_longest_cr();
    try_most_reversed();
    try_lent_alone();
    try_null();
    printf("C: %d calls, %d failed\n", calls, failures);
    return failures != 0;
}
