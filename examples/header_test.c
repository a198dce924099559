/* What the header's constants and macros have to be. ./check compiles this file; a false line is an array of length -1. */
#include "haqbylur.h"

#define HOLDS(name, fact) typedef char name[(fact) ? 1 : -1]

HOLDS(most_words, HAQBYLUR_MARK_WORDS(HAQBYLUR_MOST_ELEMENTS, HAQBYLUR_MOST_STATES) == 131072);
HOLDS(one_state, HAQBYLUR_MARK_WORDS(7, 1) == 7);
HOLDS(one_word, HAQBYLUR_MARK_WORDS(7, 32) == 7);
HOLDS(two_words, HAQBYLUR_MARK_WORDS(7, 33) == 14);
/* arguments and results that stand beside other operators */
HOLDS(sums, HAQBYLUR_MARK_WORDS(1 + 1, 32 | 1) == 4);
HOLDS(divided, 56 / HAQBYLUR_MARK_WORDS(7, 33) == 4);
HOLDS(unsigned_size, HAQBYLUR_MARK_WORDS(0, 0) - 1 > 0);
/* the head of the source's table, and the largest */
HOLDS(source, HAQBYLUR_STATE_COUNT(0x80007418) == 29);
HOLDS(most, HAQBYLUR_STATE_COUNT(0x80000000 | 0x100000 | 0x3ff) == HAQBYLUR_MOST_STATES);
/* the length word of the source's table, of the largest table of a rule without anything and of the largest, and other words in its
 * place */
HOLDS(source_words, HAQBYLUR_TABLE_WORDS(0xc0000025) == 37);
HOLDS(compiled_words, HAQBYLUR_TABLE_WORDS(0xc000047c) == HAQBYLUR_MOST_COMPILED_WORDS);
HOLDS(table_words, HAQBYLUR_TABLE_WORDS(0xc0000000 | 0x800) / 2 == HAQBYLUR_MOST_TABLE_WORDS / 2);
HOLDS(other_words, HAQBYLUR_TABLE_WORDS(0xffffffff) == 4095 && HAQBYLUR_TABLE_WORDS(0) == 0);
HOLDS(table_words_size, sizeof HAQBYLUR_TABLE_WORDS(0) == 4);
/* document 02's limit of height, which a chapter of the most elements can exceed, and its refusal */
HOLDS(most_height, HAQBYLUR_MOST_HEIGHT == 512 && HAQBYLUR_MOST_HEIGHT < HAQBYLUR_MOST_ELEMENTS);
HOLDS(too_high, HAQBYLUR_TOO_HIGH == 24 && sizeof HAQBYLUR_TOO_HIGH == sizeof HAQBYLUR_ACCEPTED);
/* document 02's mark of a hole, which is beside the rank's bits, the entry with it, and the refusal */
HOLDS(hole_bit, HAQBYLUR_HOLE_BIT == 1 << 8 && (HAQBYLUR_HOLE_BIT & 0xff) == 0);
HOLDS(hole_entry, HAQBYLUR_HOLE_ENTRY == 0x10000100 && HAQBYLUR_HOLE_ENTRY / 2 == 0x08000080 && sizeof HAQBYLUR_HOLE_ENTRY == 4);
HOLDS(has_hole, HAQBYLUR_HAS_HOLE == 26 && sizeof HAQBYLUR_HAS_HOLE == sizeof HAQBYLUR_ACCEPTED);
/* document 02's rule word for every tree, of kind 14 with no other bit, and the refusal of a table over the most words */
HOLDS(anything, HAQBYLUR_ANYTHING == 0xe0000000 && HAQBYLUR_ANYTHING / 2 == 0x70000000 && sizeof HAQBYLUR_ANYTHING == 4);
HOLDS(too_many_words, HAQBYLUR_TOO_MANY_WORDS == 25 && sizeof HAQBYLUR_TOO_MANY_WORDS == sizeof HAQBYLUR_ACCEPTED);
HOLDS(compiled_below_table_words, HAQBYLUR_MOST_COMPILED_WORDS < HAQBYLUR_MOST_TABLE_WORDS);
/* document 02's record of totals: three words in this order with nothing between or behind them; the figure that none may exceed, which
 * is the ones in the most marks; the refusal */
HOLDS(totals_size, sizeof(haqbylur_totals) == 12 && sizeof(((haqbylur_totals *)0)->elements) == 4);
HOLDS(totals_order, offsetof(haqbylur_totals, elements) == 0 && offsetof(haqbylur_totals, hits) == 4);
HOLDS(totals_last, offsetof(haqbylur_totals, cells) == 8 && sizeof(struct haqbylur_totals) == sizeof(haqbylur_totals));
HOLDS(most_cells, HAQBYLUR_MOST_CELLS == 32 * HAQBYLUR_MARK_WORDS(HAQBYLUR_MOST_ELEMENTS, HAQBYLUR_MOST_STATES));
HOLDS(wrong_totals, HAQBYLUR_WRONG_TOTALS == 27 && sizeof HAQBYLUR_WRONG_TOTALS == sizeof HAQBYLUR_ACCEPTED);
/* the words of document 01's kinds 1 to 7 */
HOLDS(entry, HAQBYLUR_ENTRY(4) == 0x10000004 && HAQBYLUR_ENTRY(HAQBYLUR_MOST_RANK) / 2 == 0x08000002);
HOLDS(symbol, HAQBYLUR_SYMBOL(63) == 0x2000003f && HAQBYLUR_SYMBOL(1 ? 2 : 3) == 0x20000002);
HOLDS(no_fields, HAQBYLUR_EMPTY == 0x30000000 && HAQBYLUR_UNION == 0x40000000);
HOLDS(product, HAQBYLUR_PRODUCT(63) == 0x5000003f && HAQBYLUR_PRODUCT(1 ? 2 : 3) == 0x50000002);
HOLDS(closure, HAQBYLUR_CLOSURE(63) == 0x6000003f && HAQBYLUR_CLOSURE(1 ? 2 : 3) == 0x60000002);
HOLDS(element, HAQBYLUR_ELEMENT(63) == 0x7000003f && HAQBYLUR_ELEMENT(1 ? 2 : 3) / 2 == 0x38000001);
HOLDS(word_size, sizeof HAQBYLUR_ENTRY(0) == 4 && sizeof HAQBYLUR_ELEMENT(0) == 4);
