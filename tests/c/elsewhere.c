/*
 * For a machine that is not x86-64: the module hands an answer back where x86-64 has it, through a first
 * argument, and each function here gives it to C as this machine does.
 */
#include "melvorash.h"

void module_cut(melvorash_answer *, const uint8_t *, size_t);
void module_base(melvorash_answer *, const uint8_t *, size_t);
void module_explicit(melvorash_answer *, const uint8_t *, size_t, uint8_t, uint8_t, uint8_t *, size_t);
void module_resolve(melvorash_answer *, const uint8_t *, size_t, uint8_t, uint8_t, uint8_t *, size_t);
void module_order_line(melvorash_order_answer *, const uint8_t *, size_t, const uint8_t *, size_t, uint8_t, size_t,
                       size_t, uint16_t *, size_t);
void module_order_lines(melvorash_order_answer *, const uint8_t *, size_t, const uint8_t *, size_t, uint8_t,
                        const uint16_t *, size_t, uint16_t *, size_t);
void module_marks(melvorash_answer *, const uint8_t *, size_t, const uint8_t *, size_t, uint16_t *, size_t);

melvorash_answer melvorash_cut(const uint8_t *classes, size_t class_count)
{
    melvorash_answer answer;
    module_cut(&answer, classes, class_count);
    return answer;
}

melvorash_answer melvorash_base(const uint8_t *classes, size_t class_count)
{
    melvorash_answer answer;
    module_base(&answer, classes, class_count);
    return answer;
}

melvorash_answer melvorash_explicit(const uint8_t *classes, size_t class_count, uint8_t request, uint8_t fallback,
                                    uint8_t *levels, size_t level_count)
{
    melvorash_answer answer;
    module_explicit(&answer, classes, class_count, request, fallback, levels, level_count);
    return answer;
}

melvorash_answer melvorash_resolve(const uint8_t *classes, size_t class_count, uint8_t request, uint8_t fallback,
                                   uint8_t *levels, size_t level_count)
{
    melvorash_answer answer;
    module_resolve(&answer, classes, class_count, request, fallback, levels, level_count);
    return answer;
}

melvorash_order_answer melvorash_order_line(const uint8_t *classes, size_t class_count, const uint8_t *levels,
                                            size_t level_count, uint8_t base, size_t from, size_t to,
                                            uint16_t *order, size_t order_count)
{
    melvorash_order_answer answer;
    module_order_line(&answer, classes, class_count, levels, level_count, base, from, to, order, order_count);
    return answer;
}

melvorash_order_answer melvorash_order_lines(const uint8_t *classes, size_t class_count, const uint8_t *levels,
                                             size_t level_count, uint8_t base, const uint16_t *ends,
                                             size_t end_count, uint16_t *order, size_t order_count)
{
    melvorash_order_answer answer;
    module_order_lines(&answer, classes, class_count, levels, level_count, base, ends, end_count, order, order_count);
    return answer;
}

melvorash_answer melvorash_marks(const uint8_t *classes, size_t class_count, const uint8_t *flags,
                                 size_t flag_count, uint16_t *order, size_t order_count)
{
    melvorash_answer answer;
    module_marks(&answer, classes, class_count, flags, flag_count, order, order_count);
    return answer;
}
