/* The source's own example through the C interface: Compile, Run and List, and then Exchange of element 4 for d, with the record of
 * totals on hand. Its table stands end to end with another rule's in one image, and each is used from its own first word. Then two
 * constants become holes, and at the end a rule has places where anything may stand. */
#include <stdio.h>

#include "haqbylur.h"

#define LENGTH(a) (sizeof(a) / sizeof((a)[0]))

/* a, b, c, d of rank 0, f of rank 2, g and h of rank 1, numbered by position. */
enum { A, B, C, D, F, G, H };
static const uint32_t alphabet[] = {
    HAQBYLUR_ENTRY(0), HAQBYLUR_ENTRY(0), HAQBYLUR_ENTRY(0), HAQBYLUR_ENTRY(0),
    HAQBYLUR_ENTRY(2), HAQBYLUR_ENTRY(1), HAQBYLUR_ENTRY(1)};

/* a b f c g d (product over c) union (closure over d). */
static const uint32_t rule[] = {
    HAQBYLUR_SYMBOL(A), HAQBYLUR_SYMBOL(B), HAQBYLUR_SYMBOL(F), HAQBYLUR_SYMBOL(C), HAQBYLUR_SYMBOL(G),
    HAQBYLUR_SYMBOL(D), HAQBYLUR_PRODUCT(C), HAQBYLUR_UNION, HAQBYLUR_CLOSURE(D)};

/* The alphabet with c and d as holes: once there is one, all that the rule names in its product and its closure have to be holes. */
static const uint32_t with_holes[] = {
    HAQBYLUR_ENTRY(0), HAQBYLUR_ENTRY(0), HAQBYLUR_HOLE_ENTRY, HAQBYLUR_HOLE_ENTRY,
    HAQBYLUR_ENTRY(2), HAQBYLUR_ENTRY(1), HAQBYLUR_ENTRY(1)};

/* The other rule: d h. */
static const uint32_t other_rule[] = {HAQBYLUR_SYMBOL(D), HAQBYLUR_SYMBOL(H)};

/* The pattern f(S, g(S)) of document 002's example 2, where S stands for any tree, and the example's tree f(f(a, g(a)), g(a)): both f
 * match. */
static const uint32_t pattern[] = {HAQBYLUR_ANYTHING, HAQBYLUR_ANYTHING, HAQBYLUR_SYMBOL(G), HAQBYLUR_SYMBOL(F)};
static const uint32_t subject[] = {
    HAQBYLUR_ELEMENT(A), HAQBYLUR_ELEMENT(A), HAQBYLUR_ELEMENT(G), HAQBYLUR_ELEMENT(F),
    HAQBYLUR_ELEMENT(A), HAQBYLUR_ELEMENT(G), HAQBYLUR_ELEMENT(F)};

static const uint32_t a[] = {HAQBYLUR_ELEMENT(A)};
static const uint32_t d[] = {HAQBYLUR_ELEMENT(D)};

/* Chapter a b f d g h f. The slices are lent to the calls. */
static uint32_t chapter[] = {
    HAQBYLUR_ELEMENT(A), HAQBYLUR_ELEMENT(B), HAQBYLUR_ELEMENT(F), HAQBYLUR_ELEMENT(D),
    HAQBYLUR_ELEMENT(G), HAQBYLUR_ELEMENT(H), HAQBYLUR_ELEMENT(F)};
static uint32_t image[2 * HAQBYLUR_MOST_TABLE_WORDS];
static uint32_t marks[HAQBYLUR_MARK_WORDS(LENGTH(chapter), HAQBYLUR_MOST_STATES)];
static uint32_t list[LENGTH(chapter)];

/* The marked chapter's record of totals: Run sets it, and each Exchange changes it. */
static haqbylur_totals totals;

/* The length of the slice from a table's first word to the image's end. What follows the table is not read. */
static size_t rest(const uint32_t *table)
{
    return LENGTH(image) - (size_t)(table - image);
}

static void print_hits(const char *name, const uint32_t *table, uint32_t elements)
{
    uint32_t hits;
    uint32_t status = haqbylur_list(alphabet, LENGTH(alphabet), table, rest(table), elements, marks, LENGTH(marks),
                                    list, LENGTH(list), &hits);
    if (status != HAQBYLUR_ACCEPTED) {
        printf("%s refused %u\n", name, (unsigned)status);
        return;
    }
    printf("%s elements %u hits", name, (unsigned)elements);
    for (uint32_t i = 0; i < hits; i++)
        printf(" %u", (unsigned)list[i]);
    printf("\n");
}

static void print_totals(const char *name, const haqbylur_totals *record)
{
    printf("%s totals %u elements %u hits %u cells\n", name, (unsigned)record->elements, (unsigned)record->hits, (unsigned)record->cells);
}

int main(void)
{
    const uint32_t *table = image;
    haqbylur_totals wrong;
    uint32_t words, other_words, elements, cells, worked_out;
    uint32_t status = haqbylur_compile(alphabet, LENGTH(alphabet), rule, LENGTH(rule), image, LENGTH(image), &words);
    if (status != HAQBYLUR_ACCEPTED)
        return 1;
    status = haqbylur_compile(alphabet, LENGTH(alphabet), other_rule, LENGTH(other_rule), image + words, LENGTH(image) - words,
                              &other_words);
    if (status != HAQBYLUR_ACCEPTED)
        return 1;
    printf("compile words %u head 0x%08x\n", (unsigned)words, (unsigned)table[0]);
    printf("mark words %u\n", (unsigned)HAQBYLUR_MARK_WORDS(LENGTH(chapter), HAQBYLUR_STATE_COUNT(table[0])));

    status = haqbylur_run(alphabet, LENGTH(alphabet), table, rest(table), chapter, LENGTH(chapter), marks, LENGTH(marks),
                          &elements, &cells, &totals);
    if (status != HAQBYLUR_ACCEPTED)
        return 1;
    print_hits("run", table, elements);
    print_totals("run", &totals);

    status = haqbylur_exchange(alphabet, LENGTH(alphabet), table, rest(table), chapter, LENGTH(chapter), elements, marks, LENGTH(marks),
                               4, d, LENGTH(d), &elements, &worked_out, &totals);
    if (status != HAQBYLUR_ACCEPTED)
        return 1;
    printf("exchange worked out %u\n", (unsigned)worked_out);
    print_hits("exchange", table, elements);
    print_totals("exchange", &totals);

    /* An element that the chapter does not have: the record stays as it is. */
    status = haqbylur_exchange(alphabet, LENGTH(alphabet), table, rest(table), chapter, LENGTH(chapter), elements, marks, LENGTH(marks),
                               elements, d, LENGTH(d), &elements, &worked_out, &totals);
    if (status != HAQBYLUR_NO_ELEMENT)
        return 1;
    printf("exchange refused %u\n", (unsigned)status);
    print_totals("refused", &totals);

    /* A record that is wrong, in that it has no hits: d, which is one, for a, which is none. The hits would come out below 0. */
    wrong = totals;
    wrong.hits = 0;
    status = haqbylur_exchange(alphabet, LENGTH(alphabet), table, rest(table), chapter, LENGTH(chapter), elements, marks, LENGTH(marks),
                               3, a, LENGTH(a), &elements, &worked_out, &wrong);
    if (status != HAQBYLUR_WRONG_TOTALS)
        return 1;
    printf("wrong totals refused %u\n", (unsigned)status);
    print_totals("wrong", &wrong);
    print_hits("wrong totals", table, elements);

    /* The next table of the image, on the same chapter: it has other marks and other totals. */
    table += HAQBYLUR_TABLE_WORDS(table[1]);
    printf("next table at word %u\n", (unsigned)(table - image));
    status = haqbylur_run(alphabet, LENGTH(alphabet), table, rest(table), chapter, elements, marks, LENGTH(marks), &elements, &cells,
                          &totals);
    if (status != HAQBYLUR_ACCEPTED)
        return 1;
    print_hits("next table", table, elements);
    print_totals("next table", &totals);

    /* With the holes the rule has the same table, but the chapter may not hold d. */
    status = haqbylur_compile(with_holes, LENGTH(with_holes), rule, LENGTH(rule), image, LENGTH(image), &words);
    if (status != HAQBYLUR_ACCEPTED)
        return 1;
    printf("with holes words %u\n", (unsigned)words);
    status = haqbylur_run(with_holes, LENGTH(with_holes), image, LENGTH(image), chapter, elements, marks, LENGTH(marks), &elements,
                          &cells, &totals);
    if (status != HAQBYLUR_HAS_HOLE)
        return 1;
    printf("with holes run refused %u\n", (unsigned)status);

    /* Anything may stand in two places of a rule. */
    status = haqbylur_compile(alphabet, LENGTH(alphabet), pattern, LENGTH(pattern), image, LENGTH(image), &words);
    if (status != HAQBYLUR_ACCEPTED)
        return 1;
    printf("anything words %u\n", (unsigned)words);
    status = haqbylur_run(alphabet, LENGTH(alphabet), image, LENGTH(image), subject, LENGTH(subject), marks, LENGTH(marks), &elements,
                          &cells, &totals);
    if (status != HAQBYLUR_ACCEPTED)
        return 1;
    print_hits("anything", image, elements);
    return 0;
}
