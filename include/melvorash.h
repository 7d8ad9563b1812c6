/*
 * Melvorash for C and C++: the embedding levels and the order of bidirectional text, by section 3.12 of
 * the Unicode Standard 3.0, and the drawing order of Arabic marks, by Unicode Standard Annex #53.
 *
 * Link libmelvorash_c.a, for x86-64 Linux. Every function takes any numbers whatever, answers in one struct
 * (of four numbers for an order, else of three) and does nothing else than fill the buffer that it is lent.
 * What is said of each below is proved.
 *
 * What the caller owes, since nothing can check it:
 *   - A pointer and the count after it fit each other: that many elements can be read, and for a buffer
 *     that is filled also written, until the call returns. Counts are of elements, not of bytes.
 *   - The buffer that is filled overlaps no other buffer of the call. Buffers that are only read may overlap.
 *   - 16-bit buffers are aligned to 2 bytes.
 * A null pointer with count 0 is an empty buffer.
 *
 * There is no global state: calls may run at the same time on different buffers, and may share a buffer
 * that all of them only read. Nothing is allocated on the heap, and a call takes less than 10 KiB of stack
 * (8,552 bytes were measured, for the orders of all lines of 4,096 positions with levels from 1 to 62).
 */
#ifndef MELVORASH_H
#define MELVORASH_H

#include <stddef.h>
#include <stdint.h>

#ifdef __cplusplus
extern "C" {
#endif

/*
 * The classes: one byte for each position of a paragraph. CR is a class of the house. It behaves as B in
 * every rule, but where a B follows it directly the two end one paragraph, both at the base level. B and CR
 * are kept, and a line may end between the two.
 */
#define MELVORASH_L 0
#define MELVORASH_LRE 1
#define MELVORASH_LRO 2
#define MELVORASH_R 3
#define MELVORASH_AL 4
#define MELVORASH_RLE 5
#define MELVORASH_RLO 6
#define MELVORASH_PDF 7
#define MELVORASH_EN 8
#define MELVORASH_ES 9
#define MELVORASH_ET 10
#define MELVORASH_AN 11
#define MELVORASH_CS 12
#define MELVORASH_NSM 13
#define MELVORASH_BN 14
#define MELVORASH_B 15
#define MELVORASH_S 16
#define MELVORASH_WS 17
#define MELVORASH_ON 18
#define MELVORASH_CR 19

/*
 * Which base level is asked for. By the text, the first L, R or AL decides, and where there is none the
 * default, `fallback`. That is 0 or 1 with every request, also where it is not used.
 */
#define MELVORASH_LEFT_TO_RIGHT 0
#define MELVORASH_RIGHT_TO_LEFT 1
#define MELVORASH_BY_TEXT 2

/* What melvorash_base answers where no L, R or AL stands in the paragraph. It is no base level. */
#define MELVORASH_NONE_FOUND 2

/* The level of a removed position, one whose class is LRE, LRO, RLE, RLO, PDF or BN. It has no other use. */
#define MELVORASH_REMOVED 255

/*
 * The highest level of a position that is kept, and the most positions that a paragraph may have. So many
 * characters may also be lent to melvorash_marks.
 */
#define MELVORASH_HIGHEST_LEVEL 62
#define MELVORASH_LONGEST 4096

/*
 * Refusals. A call that refuses has altered no buffer. Where several apply, the first in this order is
 * given: 1, 3, then 2 or 4 at the first faulty position, then 5, 6, 7, 8 or 10, 9. melvorash_marks gives only
 * 1, 3 and 16, in this order. melvorash_cut gives 1, and then walks from the first position over at most
 * 4,096: 2 where an unknown class comes before any B or CR, also where more than 4,096 classes are lent; the
 * first B or CR among them ends the paragraph, a CR together with a B directly after it, whatever follows; 3
 * where there is none among them and more follow, or where the 4,096th is a CR and a B follows it.
 */
enum melvorash_refusal {
    MELVORASH_ACCEPTED = 0,
    MELVORASH_NO_CLASSES = 1,      /* there are no classes */
    MELVORASH_UNKNOWN_CLASS = 2,   /* a class is above 19; place: the first faulty position */
    MELVORASH_TOO_LONG = 3,        /* there are more than 4,096 positions or characters */
    MELVORASH_EARLY_SEPARATOR = 4, /* B or CR stands before the last position, and is no CR that a last B
                                      follows directly; place: the first faulty position */
    MELVORASH_BAD_BASE = 5,        /* the base request is above 2, or the default above 1 with any request, or
                                      the base of an order above 1 */
    MELVORASH_SHORT_LEVELS = 6,    /* the level buffer has fewer positions than the paragraph */
    MELVORASH_BAD_LEVEL = 7,       /* a lent level is not 0 to 62 on a kept position, or not 255 on a removed
                                      one; place: the first such position */
    MELVORASH_BAD_LINE = 8,        /* `from` is not below `to`, or `to` is beyond the paragraph */
    MELVORASH_SHORT_ORDER = 9,     /* the order buffer is shorter than the line, or than the paragraph for all
                                      lines, removed positions counted */
    MELVORASH_BAD_ENDS = 10,       /* the ends are none, begin with 0, do not rise strictly, or their last is
                                      not the paragraph's length */
    MELVORASH_SHORT_BUFFER = 16    /* there are fewer flags or places of the order than characters */
};

/*
 * Accepted: refusal and place are 0, and value is the function's answer. Refused: refusal is one of
 * enum melvorash_refusal, place a position for 2, 4 and 7 and otherwise 0, and value is 0.
 * There is no padding: every byte of an answer is determined by the call.
 */
typedef struct melvorash_answer {
    size_t refusal;
    size_t place;
    size_t value;
} melvorash_answer;

/*
 * The same for an order. Accepted, value is how many positions were placed and reversed how many the passes of
 * L2 reversed, added over all passes: in each pass every position of every stretch that it reverses, a stretch
 * of one counted as one. That is the sum, over the kept positions, of the level on the line less the lowest
 * odd level there plus 1, where that is positive. It is 0 with no odd level, and at most
 * MELVORASH_HIGHEST_LEVEL times value, so it can be too large for 16 bits. Refused, value and reversed are 0.
 */
typedef struct melvorash_order_answer {
    size_t refusal;
    size_t place;
    size_t value;
    size_t reversed;
} melvorash_order_answer;

/*
 * The length of the first paragraph. It ends after the first B or CR, or where the classes end; where a B
 * follows the CR directly it ends after that B. Behind a CR only this is looked at, whether the next is B.
 */
melvorash_answer melvorash_cut(const uint8_t *classes, size_t class_count);

/* The base level of one paragraph by its text, 0 or 1, or MELVORASH_NONE_FOUND. */
melvorash_answer melvorash_base(const uint8_t *classes, size_t class_count);

/*
 * Writes the first class_count levels as they stand after X1 to X9, and nothing after them. Answers the
 * base level used, 0 or 1: the request itself, or by the text what melvorash_base finds, or else `fallback`.
 */
melvorash_answer melvorash_explicit(const uint8_t *classes, size_t class_count, uint8_t request,
                                    uint8_t fallback, uint8_t *levels, size_t level_count);

/* The same with the levels after I1 and I2, before any line is known. */
melvorash_answer melvorash_resolve(const uint8_t *classes, size_t class_count, uint8_t request,
                                   uint8_t fallback, uint8_t *levels, size_t level_count);

/*
 * Orders the line from position `from` up to, not including, `to`, by L1 and L2. Takes the levels and the
 * base level that melvorash_resolve gave. Writes the line's kept positions from left to right and nothing
 * after them. Answers how many, and how many positions were reversed.
 */
melvorash_order_answer melvorash_order_line(const uint8_t *classes, size_t class_count, const uint8_t *levels,
                                            size_t level_count, uint8_t base, size_t from, size_t to,
                                            uint16_t *order, size_t order_count);

/*
 * The same for all lines of the paragraph: `ends` holds the position after each line's last, the last of
 * them the paragraph's length. Each line's order follows the one before. Each of the two numbers answered is
 * the sum over the lines; the lowest odd level is each line's own.
 */
melvorash_order_answer melvorash_order_lines(const uint8_t *classes, size_t class_count, const uint8_t *levels,
                                             size_t level_count, uint8_t base, const uint16_t *ends,
                                             size_t end_count, uint16_t *order, size_t order_count);

/*
 * The drawing order of decomposed characters for marks that stack from the inside out. Takes each
 * character's combining class, any byte, and a flag, not 0 for the modifier combining marks of the annex.
 * First comes canonical ordering. Then, in each longest stretch of classes that are not 0, class 33 goes to
 * the stretch's beginning; before it go those of class 230 up to the first that is not flagged, and before
 * these the same of class 220. Other flags have no effect. Characters of class 0 stay, and nothing moves past
 * them. Writes the class_count positions in drawing order and nothing after them. Answers class_count.
 */
melvorash_answer melvorash_marks(const uint8_t *classes, size_t class_count, const uint8_t *flags,
                                 size_t flag_count, uint16_t *order, size_t order_count);

#ifdef __cplusplus
}
#endif

#endif
