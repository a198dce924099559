/* The C interface of the chapter matcher (documents 01 and 02): Compile, Run, List and Exchange.
 *
 * All data is 32-bit words. A slice is a pointer and then its length in words; the pointer is aligned, and not null even where the
 * length is 0. Each function returns 0 where the call is accepted, and otherwise the documents' number of the refusal; then no
 * lent word changes, no out-parameter and no record either. Of several faults the one is told that stands first among the
 * function's refusals below. What a call may write (slices, out-parameters and records that are not const) overlaps with no other
 * argument of that call. Any thread may call while no other uses the same memory: the library keeps nothing between calls. It
 * allocates nothing and calls memcpy, memmove and memset alone. It uses the red zone below the stack pointer and SSE2 registers:
 * docs/FIRMWARE.md says what that asks of interrupts on a board without an operating system. */
#ifndef HAQBYLUR_H
#define HAQBYLUR_H

#include <stddef.h>
#include <stdint.h>

/* The most that documents 01 and 02 allow. A table that haqbylur_compile writes has at most HAQBYLUR_MOST_COMPILED_WORDS where the rule
 * has no HAQBYLUR_ANYTHING, and at most HAQBYLUR_MOST_TABLE_WORDS where it has one. The other functions take tables of up to
 * HAQBYLUR_MOST_TABLE_WORDS, in slices that may be longer. A lone element has height 1, any other one more than its highest part; a
 * chapter's height is its root's. */
#define HAQBYLUR_MOST_SYMBOLS 64u
#define HAQBYLUR_MOST_CONSTANTS 16u
#define HAQBYLUR_MOST_RANK 4u
#define HAQBYLUR_MOST_RULE_WORDS 64u
#define HAQBYLUR_MOST_STATES 1024u
#define HAQBYLUR_MOST_TABLE_WORDS 2048u
#define HAQBYLUR_MOST_COMPILED_WORDS 1148u
#define HAQBYLUR_MOST_ELEMENTS 4096u
#define HAQBYLUR_MOST_HEIGHT 512u
#define HAQBYLUR_MOST_CELLS 4194304u

/* What the functions return: accepted, or the documents' number of a refusal. */
#define HAQBYLUR_ACCEPTED 0u
#define HAQBYLUR_NO_ALPHABET 1u      /* 0 or over 64 words, or a word that is no alphabet entry */
#define HAQBYLUR_WRONG_CONSTANTS 2u  /* no constant, or over 16 */
#define HAQBYLUR_WRONG_LENGTH 3u     /* rule of 0 or over 64 words */
#define HAQBYLUR_NO_RULE_WORD 4u     /* a word that is no rule word, an unknown symbol, or a c that may not be named */
#define HAQBYLUR_NOT_ONE_RULE 5u     /* some word lacks parts, or not exactly one rule remains */
#define HAQBYLUR_TOO_MANY_STATES 6u  /* over 1,024 states */
#define HAQBYLUR_TABLE_TOO_LONG 7u   /* the table slice is shorter than the table */
#define HAQBYLUR_NO_TABLE 8u         /* the slice begins with no well-formed table, or ends before the table does */
#define HAQBYLUR_WRONG_COUNT 9u      /* 0 or over 4,096 elements, or a used count over the chapter slice */
#define HAQBYLUR_NO_ELEMENT_WORD 10u /* a word that is no element, or an unknown symbol */
#define HAQBYLUR_NOT_ONE_TREE 11u    /* no single tree */
#define HAQBYLUR_FEW_MARKS 12u       /* fewer marks than HAQBYLUR_MARK_WORDS */
#define HAQBYLUR_LIST_TOO_SHORT 13u  /* the list slice is shorter than the element count */
#define HAQBYLUR_NO_ELEMENT 14u      /* no such element */
#define HAQBYLUR_NO_REPLACEMENT 15u  /* 0 or over 4,096 words, or no tree over the alphabet */
#define HAQBYLUR_RESULT_TOO_LONG 16u /* the result is over 4,096 elements, the chapter slice or the marks slice */
#define HAQBYLUR_TOO_HIGH 24u        /* the chapter, or the result of an exchange, is over 512 high */
#define HAQBYLUR_TOO_MANY_WORDS 25u  /* over 2,048 table words, the length word among them */
#define HAQBYLUR_HAS_HOLE 26u        /* a hole in the chapter or in the replacement */
#define HAQBYLUR_WRONG_TOTALS 27u    /* a total would come out below 0 or above HAQBYLUR_MOST_CELLS */

/* The words of an alphabet and of a chapter: a symbol with so many parts (its rank); an element with this symbol. A symbol's
 * number is its position in the alphabet, from 0. A chapter is one tree, each element behind its parts, which stand from left to
 * right; an element's number is its position in the chapter, from 0. */
#define HAQBYLUR_ENTRY(rank) (0x10000000u + (uint32_t)(rank))
#define HAQBYLUR_ELEMENT(symbol) (0x70000000u + (uint32_t)(symbol))

/* Bits 7..0 of an alphabet entry are the rank. Bit 8 marks a constant, a symbol of rank 0, as a hole; with a rank above 0 the word is
 * no entry. A hole stands in rules alone, as a symbol or as the c below: a chapter or a replacement that holds one is refused. Where
 * the alphabet has no hole, every constant may be a c and stand in a chapter. */
#define HAQBYLUR_HOLE_BIT 0x100u
#define HAQBYLUR_HOLE_ENTRY (HAQBYLUR_ENTRY(0) | HAQBYLUR_HOLE_BIT)

/* The words of a rule, in the same order (docs/RULES.md): a symbol, which takes as many rules as its rank; the empty language; the
 * union of two; the product of two and the closure of one over c, which is a constant, and where the alphabet has a hole, a hole; the
 * language of all trees over the alphabet, those with holes too. */
#define HAQBYLUR_SYMBOL(symbol) (0x20000000u + (uint32_t)(symbol))
#define HAQBYLUR_EMPTY 0x30000000u
#define HAQBYLUR_UNION 0x40000000u
#define HAQBYLUR_PRODUCT(c) (0x50000000u + (uint32_t)(c))
#define HAQBYLUR_CLOSURE(c) (0x60000000u + (uint32_t)(c))
#define HAQBYLUR_ANYTHING 0xe0000000u

/* A table begins with its head, which has the state count, and its length word, which has the table's word count, these two words
 * included; haqbylur_compile writes both. The other functions take a slice that begins with a table. They use as many of its words as
 * the length word says, and neither read nor judge what follows: so tables may stand end to end in one image (docs/FIRMWARE.md). */

/* The state count of a table, from its first word. */
#define HAQBYLUR_STATE_COUNT(head) (((uint32_t)(head) >> 10) & 0x7ffu)

/* The word count of a table, from its second word: in an image the next table begins so many words further on. Only of a table that
 * haqbylur_compile wrote or another function has accepted; of other words it may be any number up to 4,095, also 0. */
#define HAQBYLUR_TABLE_WORDS(length_word) ((uint32_t)(length_word) & 0xfffu)

/* How many mark words a chapter of so many elements needs with a table of so many states: elements times S, where S is the
 * state count divided by 32, rounded up. For HAQBYLUR_MOST_ELEMENTS and HAQBYLUR_MOST_STATES it is 131,072. */
#define HAQBYLUR_MARK_WORDS(elements, states) ((size_t)(elements) * (((size_t)(states) + 31u) / 32u))

/* A marked chapter's record of totals: its elements; its hits, as haqbylur_list names them; the ones in its marks (cells), at most
 * HAQBYLUR_MOST_CELLS. It belongs to the chapter and to the table that marked it: haqbylur_run sets it, each haqbylur_exchange changes
 * it, and between them it is kept as the last call left it. */
typedef struct haqbylur_totals {
    uint32_t elements;
    uint32_t hits;
    uint32_t cells;
} haqbylur_totals;

#ifdef __cplusplus
extern "C" {
#endif

/* Turns an alphabet and a rule into a table, and leaves the words of the slice behind the table as they are. The slice may then be
 * given to the other functions as it is. words: the table's word count, as in its length word. Refusals 1 to 6, 25, 7. No rule is
 * refused with 7 where the slice has HAQBYLUR_MOST_TABLE_WORDS words. One without HAQBYLUR_ANYTHING is never refused with 25, and not
 * with 7 where the slice has HAQBYLUR_MOST_COMPILED_WORDS words. */
uint32_t haqbylur_compile(
    const uint32_t *alphabet, size_t alphabet_length,
    const uint32_t *rule, size_t rule_length,
    uint32_t *table, size_t table_length,
    uint32_t *words);

/* Marks a chapter with the states that each subtree reaches, by the table with which the table slice begins. elements: the element
 * count; cells: the number of ones in all marks of the chapter. totals: set to the chapter's totals, whatever it held; its elements and
 * cells are the same two numbers. Refusals 1, 2, 8 to 11, 24, 26, 12. */
uint32_t haqbylur_run(
    const uint32_t *alphabet, size_t alphabet_length,
    const uint32_t *table, size_t table_length,
    const uint32_t *chapter, size_t chapter_length,
    uint32_t *marks, size_t marks_length,
    uint32_t *elements,
    uint32_t *cells,
    haqbylur_totals *totals);

/* Names the hits of a marked chapter of `count` elements, in ascending order: the elements whose whole subtree belongs to the rule's
 * language (no marked chapter holds a hole). The table slice begins with the table that marked it. hits: how many there are.
 * Refusals 1, 2, 8, 9, 12, 13. */
uint32_t haqbylur_list(
    const uint32_t *alphabet, size_t alphabet_length,
    const uint32_t *table, size_t table_length,
    size_t count,
    const uint32_t *marks, size_t marks_length,
    uint32_t *list, size_t list_length,
    uint32_t *hits);

/* Replaces the subtree of an element in a marked chapter of `count` used elements. The table slice begins with the table that marked
 * it. elements: the new element count; worked_out: the number of elements worked out. totals: each total changes by the difference that
 * the call makes in the used elements and their stored marks, whatever the record held. So a record that was right before is right
 * after, and a wrong one stays wrong by as much. Bits of a mark behind the last state, which no call sets, count as cells where they
 * are stored.
 * Refusals 1, 2, 8 to 11, 24 and 26 (the used elements), 12, 14, 15, 26 (the replacement), 16, 24 (the result), 27. A replacement has no
 * limit of height but the result's. 27 is judged of all three totals at exit, changed or not; a right record is never refused with it. */
uint32_t haqbylur_exchange(
    const uint32_t *alphabet, size_t alphabet_length,
    const uint32_t *table, size_t table_length,
    uint32_t *chapter, size_t chapter_length,
    size_t count,
    uint32_t *marks, size_t marks_length,
    size_t element,
    const uint32_t *replacement, size_t replacement_length,
    uint32_t *elements,
    uint32_t *worked_out,
    haqbylur_totals *totals);

#ifdef __cplusplus
}
#endif

#endif
