"""The refusals of documents 01 and 02 (U1, U6, U7, U8, U10): lists of a number and whether its condition holds, in the order in which they
are judged. A condition is worked out only where none before it holds. Nothing here is trusted: the checker computes the
definition."""

from document01 import (EMPTY_MOVE, HEAD, LENGTH, MOST_CELLS, MOST_CONSTANTS, MOST_ELEMENTS, MOST_HEIGHT, MOST_RULE_WORDS,
                        MOST_STATES, MOST_SYMBOLS, MOST_TABLE_WORDS, PART, SYMBOL_MOVE, constants, has_hole, is_element, is_entry,
                        is_of, is_rule_word, length_in, low_byte, state_in, upper_in)
from .automaton import Automaton
from .postfix import one_tree, spans_of, splice


def first(refusals):
    """The first number whose condition holds, or 0."""
    return next((number for number, holds in refusals if holds), 0)


def of_book(book):
    """Those of marklist, with Run's limit for 9."""
    yield from of_alphabet(book.alphabet)
    yield from of_rule(book.alphabet, book.rule)
    yield from of_chapter(book.alphabet, book.chapter, len(book.chapter))


def of_exchange(call):
    """All but that of the totals, which is the last."""
    yield from of_alphabet(call.alphabet)
    yield from of_table(call.alphabet, call.table)
    yield from of_chapter(call.alphabet, call.chapter, call.count[0])
    yield from of_marks(call.table, call.count[0], call.marks)
    yield from of_change(call)


def of_alphabet(alphabet):
    yield 1, outside(len(alphabet), MOST_SYMBOLS) or not all(map(is_entry, alphabet))
    yield 2, outside(len(constants(alphabet)), MOST_CONSTANTS)


def of_rule(alphabet, rule):
    yield 3, outside(len(rule), MOST_RULE_WORDS)
    yield 4, not all(is_rule_word(alphabet, word) for word in rule)
    yield 5, not one_tree(alphabet, rule)
    automaton = Automaton(alphabet, rule)
    yield 6, automaton.states > MOST_STATES
    yield 25, len(automaton.table()) > MOST_TABLE_WORDS


def of_table(alphabet, table):
    yield 8, not is_table(alphabet, table)


def of_chapter(alphabet, chapter, count):
    """Of the elements in use, which are the first of the slice."""
    yield 9, outside(count, min(MOST_ELEMENTS, len(chapter)))
    yield 10, not all(is_element(alphabet, word) for word in chapter[:count])
    yield 11, not one_tree(alphabet, chapter[:count])
    yield 24, is_too_high(alphabet, chapter[:count])
    yield 26, has_hole(alphabet, chapter[:count])


def of_marks(table, count, marks):
    yield 12, count * set_size(table) > len(marks)


def of_change(call):
    count, element = call.count[0], call.element[0]
    yield 14, element >= count
    yield 15, outside(len(call.replacement), MOST_ELEMENTS) or not is_tree(call.alphabet, call.replacement)
    yield 26, has_hole(call.alphabet, call.replacement)
    result, _ = splice(call.alphabet, call.chapter[:count], element, call.replacement)
    yield 16, len(result) > min(MOST_ELEMENTS, len(call.chapter)) or len(result) * set_size(call.table) > len(call.marks)
    yield 24, is_too_high(call.alphabet, result)


def of_totals(totals):
    """Of the totals that an Exchange would leave."""
    yield 27, any(not 0 <= total <= MOST_CELLS for total in totals)


# ---- conditions


def outside(count, most):
    return not 1 <= count <= most


def set_size(table):
    """How many words an element's marks take."""
    return (upper_in(table[0]) + 31) // 32


def is_tree(alphabet, words):
    return all(is_element(alphabet, word) for word in words) and one_tree(alphabet, words)


def is_too_high(alphabet, tree):
    return spans_of(alphabet, tree)[-1].height > MOST_HEIGHT


def table_in(lent):
    """The table with which the lent words begin: as many as its second word says. None where that word is missing, or says under
    2, over the most or more than are lent."""
    if len(lent) < 2 or not is_of(LENGTH, lent[1]):
        return None
    count = length_in(lent[1])
    return lent[:count] if 2 <= count <= min(MOST_TABLE_WORDS, len(lent)) else None


def is_table(alphabet, lent):
    table = table_in(lent)
    if table is None or not is_of(HEAD, table[0]):
        return False
    head, _, *moves = table
    states = upper_in(head)
    if outside(states, MOST_STATES) or any(state_in(word) >= states for word in [head, *moves]):
        return False
    sources = 0
    for word in moves:
        if sources:
            fits = is_of(PART, word)
            sources -= 1
        elif is_of(SYMBOL_MOVE, word):
            fits = upper_in(word) < len(alphabet)
            sources = low_byte(alphabet[upper_in(word)]) if fits else 0
        else:
            fits = is_of(EMPTY_MOVE, word) and upper_in(word) < states
        if not fits:
            return False
    return sources == 0
