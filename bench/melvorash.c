/* Melvorash through its boundary: Resolve, by the text or else 0 as in the peers, then Order of one line. */
#include "bench.h"

static const uint8_t *classes;
static uint8_t levels[MELVORASH_LONGEST];
static uint16_t places[MELVORASH_LONGEST];

static void take(const workload *w)
{
    classes = w->classes;
}

static size_t order(size_t start, size_t length)
{
    melvorash_answer base =
        melvorash_resolve(classes + start, length, MELVORASH_BY_TEXT, 0, levels, MELVORASH_LONGEST);
    return melvorash_order_line(classes + start, length, levels, MELVORASH_LONGEST, (uint8_t)base.value, 0,
                                length, places, MELVORASH_LONGEST)
        .value;
}

static size_t position(size_t place)
{
    return places[place];
}

const library melvorash = {"melvorash", take, order, position};
