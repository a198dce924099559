/* A library that is wrong in all four functions, to see the comparison fail (docs/SUPPLIER.md): one table for all rules, a Run
 * that leaves the marks and the record of totals alone, a List that always names none, and an Exchange that changes nothing. None
 * refuses a call but for a table slice of under two words. */
#include "haqbylur.h"

uint32_t haqbylur_compile(
    const uint32_t *alphabet, size_t alphabet_length,
    const uint32_t *rule, size_t rule_length,
    uint32_t *table, size_t table_length,
    uint32_t *words)
{
    (void)alphabet, (void)alphabet_length, (void)rule, (void)rule_length;
    if (table_length < 2)
        return HAQBYLUR_TABLE_TOO_LONG;
    table[0] = 0x80000400;
    table[1] = 0xc0000002;
    *words = 2;
    return HAQBYLUR_ACCEPTED;
}

uint32_t haqbylur_run(
    const uint32_t *alphabet, size_t alphabet_length,
    const uint32_t *table, size_t table_length,
    const uint32_t *chapter, size_t chapter_length,
    uint32_t *marks, size_t marks_length,
    uint32_t *elements,
    uint32_t *cells,
    haqbylur_totals *totals)
{
    (void)alphabet, (void)alphabet_length, (void)table, (void)table_length, (void)chapter, (void)marks, (void)marks_length;
    (void)totals;
    *elements = (uint32_t)chapter_length;
    *cells = 0;
    return HAQBYLUR_ACCEPTED;
}

uint32_t haqbylur_list(
    const uint32_t *alphabet, size_t alphabet_length,
    const uint32_t *table, size_t table_length,
    size_t count,
    const uint32_t *marks, size_t marks_length,
    uint32_t *list, size_t list_length,
    uint32_t *hits)
{
    (void)alphabet, (void)alphabet_length, (void)table, (void)table_length, (void)count, (void)marks, (void)marks_length;
    (void)list, (void)list_length;
    *hits = 0;
    return HAQBYLUR_ACCEPTED;
}

uint32_t haqbylur_exchange(
    const uint32_t *alphabet, size_t alphabet_length,
    const uint32_t *table, size_t table_length,
    uint32_t *chapter, size_t chapter_length,
    size_t count,
    uint32_t *marks, size_t marks_length,
    size_t element,
    const uint32_t *replacement, size_t replacement_length,
    uint32_t *elements,
    uint32_t *worked_out,
    haqbylur_totals *totals)
{
    (void)alphabet, (void)alphabet_length, (void)table, (void)table_length, (void)chapter, (void)chapter_length;
    (void)marks, (void)marks_length, (void)element, (void)replacement, (void)totals;
    *elements = (uint32_t)count;
    *worked_out = (uint32_t)replacement_length;
    return HAQBYLUR_ACCEPTED;
}
