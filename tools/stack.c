/* How much stack each C function takes: it is called on a painted stack with the largest rule (1,024 states, 2,048 table
 * words) and a chapter of 4,081 elements, 512 high, and with the source's rule. Exchange is called with a right record of totals, and
 * with one near the limit, for which it has to work out the new totals before it writes. Printed are the bytes below the caller's frame
 * that were written, the return address included; the lowest may lie in the red zone (docs/FIRMWARE.md). What is measured is this build
 * on this machine: no theorem bounds a stack.
 *
 *   (cd crates/haqbylur && rt lib)
 *   mkdir -p target && gcc -O2 -static -Iinclude tools/stack.c crates/haqbylur/out/libhaqbylur.a -lpthread -o target/stack
 *   target/stack */
#include <pthread.h>
#include <stdio.h>
#include <stdlib.h>
#include <string.h>
#include <sys/mman.h>

#include "haqbylur.h"

#define STACK_BYTES ((size_t)1 << 20)
#define PAINT 0xa5
/* Left unpainted below the caller's frame, whose own bytes are among these. */
#define GAP 256

static uint32_t alphabet[HAQBYLUR_MOST_SYMBOLS], rule[HAQBYLUR_MOST_RULE_WORDS], table[HAQBYLUR_MOST_TABLE_WORDS];
static uint32_t chapter[HAQBYLUR_MOST_ELEMENTS], list[HAQBYLUR_MOST_ELEMENTS];
static uint32_t marks[HAQBYLUR_MARK_WORDS(HAQBYLUR_MOST_ELEMENTS, HAQBYLUR_MOST_STATES)];
static size_t symbols, rule_words, chapter_words;
static uint32_t words, elements, cells, hits, worked_out, status;
static haqbylur_totals totals;
static size_t exchanged;
static uint32_t replacement[HAQBYLUR_MOST_ELEMENTS];
static size_t replacement_words;

static void compile(void)
{
    status = haqbylur_compile(alphabet, symbols, rule, rule_words, table, HAQBYLUR_MOST_TABLE_WORDS, &words);
}

static void run(void)
{
    status = haqbylur_run(alphabet, symbols, table, words, chapter, chapter_words, marks,
                          sizeof marks / sizeof marks[0], &elements, &cells, &totals);
}

static void list_hits(void)
{
    status = haqbylur_list(alphabet, symbols, table, words, elements, marks, sizeof marks / sizeof marks[0], list,
                           HAQBYLUR_MOST_ELEMENTS, &hits);
}

static void exchange(void)
{
    status = haqbylur_exchange(alphabet, symbols, table, words, chapter, HAQBYLUR_MOST_ELEMENTS, elements, marks,
                               sizeof marks / sizeof marks[0], exchanged, replacement, replacement_words, &elements,
                               &worked_out, &totals);
}

static unsigned char *stack;
static void (*call)(void);
static unsigned char *caller;

__attribute__((noinline)) static void *on_stack(void *unused)
{
    (void)unused;
    caller = (unsigned char *)__builtin_frame_address(0);
    /* By a loop, since a call would write there. */
    for (volatile unsigned char *at = stack; at < caller - GAP; at++)
        *at = PAINT;
    call();
    return NULL;
}

static void measure(const char *name, void (*function)(void))
{
    pthread_attr_t attributes;
    pthread_t thread;
    call = function;
    if (pthread_attr_init(&attributes) != 0 || pthread_attr_setstack(&attributes, stack, STACK_BYTES) != 0 ||
        pthread_create(&thread, &attributes, on_stack, NULL) != 0 || pthread_join(thread, NULL) != 0)
        exit(2);
    size_t lowest = 0;
    while (stack + lowest < caller && stack[lowest] == PAINT)
        lowest++;
    size_t used = (size_t)(caller - stack) - lowest;
    printf("  %-24s %s%zu bytes\n", name, used <= GAP ? "at most " : "", used);
    if (status != HAQBYLUR_ACCEPTED)
        exit(1);
}

/* The exchange that `take` sets up, with the record that run left, and then again with one whose cells come out at the most that they
 * may be. */
static void measure_exchange(void (*take)(void))
{
    haqbylur_totals before, after;
    take();
    printf("  %zu elements, replacement of %zu\n", chapter_words, replacement_words);
    run();
    before = totals;
    measure("exchange", exchange);
    after = totals;
    take();
    run();
    totals.cells = HAQBYLUR_MOST_CELLS + before.cells - after.cells;
    measure("exchange near the limit", exchange);
    if (totals.cells != HAQBYLUR_MOST_CELLS)
        exit(1);
}

static void measure_all(const char *name, void (*take)(void))
{
    printf("%s\n", name);
    take();
    measure("compile", compile);
    printf("  %u states, %u table words\n", (unsigned)HAQBYLUR_STATE_COUNT(table[0]), (unsigned)words);
    measure("run", run);
    measure("list", list_hits);
    measure_exchange(take);
}

/* A symbol of rank 4 over 4 constants, in a union with four times anything, under 51 closures, over 16 constants, 42 symbols of rank 4
 * and one of rank 2. */
static void take_largest(void)
{
    symbols = 59;
    for (size_t i = 0; i < 16; i++)
        alphabet[i] = HAQBYLUR_ENTRY(0);
    for (size_t i = 16; i < 58; i++)
        alphabet[i] = HAQBYLUR_ENTRY(4);
    alphabet[58] = HAQBYLUR_ENTRY(2);
    rule_words = 64;
    for (uint32_t i = 0; i < 4; i++)
        rule[i] = HAQBYLUR_SYMBOL(i);
    rule[4] = HAQBYLUR_SYMBOL(16);
    for (uint32_t i = 0; i < 4; i++) {
        rule[5 + 2 * i] = HAQBYLUR_ANYTHING;
        rule[6 + 2 * i] = HAQBYLUR_UNION;
    }
    for (uint32_t i = 0; i < 51; i++)
        rule[13 + i] = HAQBYLUR_CLOSURE((7 * i) % 16);
    /* a constant, and then each element over the one before, an element over four constants, and two constants: as high as a
     * chapter may be, which leaves room for four elements more */
    chapter_words = 0;
    chapter[chapter_words++] = HAQBYLUR_ELEMENT(0);
    for (uint32_t height = 3; height <= HAQBYLUR_MOST_HEIGHT; height++) {
        for (uint32_t i = 0; i < 4; i++)
            chapter[chapter_words++] = HAQBYLUR_ELEMENT(i);
        chapter[chapter_words++] = HAQBYLUR_ELEMENT(16);
        chapter[chapter_words++] = HAQBYLUR_ELEMENT(2);
        chapter[chapter_words++] = HAQBYLUR_ELEMENT(3);
        chapter[chapter_words++] = HAQBYLUR_ELEMENT(16);
    }
    /* the constant, for another element over four constants: the height stays */
    exchanged = 0;
    replacement_words = 5;
    for (uint32_t i = 0; i < 4; i++)
        replacement[i] = HAQBYLUR_ELEMENT(3 - i);
    replacement[4] = HAQBYLUR_ELEMENT(16);
}

/* The same, and the root for a tree as high as one may be, in which each element stands behind three constants and the one below it:
 * no tree leaves more elements without their parent at one time. */
static void take_high(void)
{
    take_largest();
    exchanged = chapter_words - 1;
    replacement_words = 0;
    for (uint32_t i = 0; i < 3 * (HAQBYLUR_MOST_HEIGHT - 1) + 1; i++)
        replacement[replacement_words++] = HAQBYLUR_ELEMENT(i % 4);
    for (uint32_t i = 0; i < HAQBYLUR_MOST_HEIGHT - 1; i++)
        replacement[replacement_words++] = HAQBYLUR_ELEMENT(16);
}

static void take_source(void)
{
    static const uint32_t ranks[] = {0, 0, 0, 0, 2, 1, 1};
    static const uint32_t words_of_rule[] = {
        HAQBYLUR_SYMBOL(0), HAQBYLUR_SYMBOL(1), HAQBYLUR_SYMBOL(4), HAQBYLUR_SYMBOL(2), HAQBYLUR_SYMBOL(5),
        HAQBYLUR_SYMBOL(3), HAQBYLUR_PRODUCT(2), HAQBYLUR_UNION, HAQBYLUR_CLOSURE(3)};
    static const uint32_t symbols_of_chapter[] = {0, 1, 4, 3, 5, 6, 4};
    symbols = 7;
    for (size_t i = 0; i < symbols; i++)
        alphabet[i] = HAQBYLUR_ENTRY(ranks[i]);
    rule_words = 9;
    memcpy(rule, words_of_rule, sizeof words_of_rule);
    chapter_words = 7;
    for (size_t i = 0; i < chapter_words; i++)
        chapter[i] = HAQBYLUR_ELEMENT(symbols_of_chapter[i]);
    exchanged = 4;
    replacement_words = 1;
    replacement[0] = HAQBYLUR_ELEMENT(3);
}

int main(void)
{
    stack = mmap(NULL, STACK_BYTES, PROT_READ | PROT_WRITE, MAP_PRIVATE | MAP_ANONYMOUS, -1, 0);
    if (stack == MAP_FAILED)
        return 2;
    measure_all("largest rule", take_largest);
    measure_exchange(take_high);
    measure_all("the source's rule", take_source);
    return 0;
}
