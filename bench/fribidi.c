/* fribidi: embedding levels of the paragraph, then one line reordered. */
#include "bench.h"

#include <fribidi.h>

/*
 * CR, the last, is B as well. fribidi takes what it is lent as one paragraph and puts every B in it at the
 * base level, so the two are what the pair is.
 */
static const FriBidiCharType type_of[] = {
    FRIBIDI_TYPE_LTR, FRIBIDI_TYPE_LRE, FRIBIDI_TYPE_LRO, FRIBIDI_TYPE_RTL, FRIBIDI_TYPE_AL,
    FRIBIDI_TYPE_RLE, FRIBIDI_TYPE_RLO, FRIBIDI_TYPE_PDF, FRIBIDI_TYPE_EN,  FRIBIDI_TYPE_ES,
    FRIBIDI_TYPE_ET,  FRIBIDI_TYPE_AN,  FRIBIDI_TYPE_CS,  FRIBIDI_TYPE_NSM, FRIBIDI_TYPE_BN,
    FRIBIDI_TYPE_BS,  FRIBIDI_TYPE_SS,  FRIBIDI_TYPE_WS,  FRIBIDI_TYPE_ON,  FRIBIDI_TYPE_BS,
};

static FriBidiCharType *types;
static FriBidiLevel levels[MELVORASH_LONGEST];
static FriBidiStrIndex places[MELVORASH_LONGEST];

static void take(const workload *w)
{
    size_t count = positions_of(w);
    types = room(count, sizeof *types);
    for (size_t i = 0; i < count; i++)
        types[i] = type_of[w->classes[i]];
}

/* The map is reordered in place, so it begins as the order in memory. */
static size_t order(size_t start, size_t length)
{
    FriBidiParType base = FRIBIDI_PAR_WLTR;
    FriBidiStrIndex count = (FriBidiStrIndex)length;
    if (!fribidi_get_par_embedding_levels_ex(types + start, NULL, count, &base, levels))
        return 0;
    for (FriBidiStrIndex i = 0; i < count; i++)
        places[i] = i;
    if (!fribidi_reorder_line(0, types + start, count, 0, base, levels, NULL, places))
        return 0;
    return length;
}

static size_t position(size_t place)
{
    return (size_t)places[place];
}

const library fribidi = {"fribidi", take, order, position};
