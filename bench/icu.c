/* ICU: ubidi over text with one character for each class, its object opened once. */
#include "bench.h"

#include <unicode/ubidi.h>

/* B is LF, U+000A, and CR is U+000D: ICU takes no other two characters as the end of one paragraph. */
static const UChar character_of[] = {
    0x0061, 0x202A, 0x202D, 0x05D0, 0x0627, 0x202B, 0x202E, 0x202C, 0x0030, 0x002B,
    0x0025, 0x0661, 0x002C, 0x0300, 0x00AD, 0x000A, 0x0009, 0x0020, 0x0021, 0x000D,
};

static UBiDi *bidi;
static UChar *text;
static int32_t places[MELVORASH_LONGEST];

static void take(const workload *w)
{
    size_t count = positions_of(w);
    if (bidi == NULL)
        bidi = ubidi_open();
    text = room(count, sizeof *text);
    for (size_t i = 0; i < count; i++)
        text[i] = character_of[w->classes[i]];
}

static size_t order(size_t start, size_t length)
{
    UErrorCode error = U_ZERO_ERROR;
    ubidi_setPara(bidi, text + start, (int32_t)length, UBIDI_DEFAULT_LTR, NULL, &error);
    ubidi_getLevels(bidi, &error);
    ubidi_getVisualMap(bidi, places, &error);
    return U_SUCCESS(error) ? length : 0;
}

static size_t position(size_t place)
{
    return (size_t)places[place];
}

const library icu = {"ICU", take, order, position};
