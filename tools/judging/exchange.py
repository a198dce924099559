"""One Exchange call for `./judge --exchange`: the plain text forms of the call and of what it leaves, and the answer that a
certificate then has to prove. Nothing worked out here is trusted."""

import re
from typing import NamedTuple

from document01 import arity
from . import refusals
from .book import BadForm, Unfit
from .matcher import Steps, state_sets
from .postfix import pop, spans_of, splice

# More numbers than this in one list are written into no certificate.
MOST_NUMBERS = 131_072

# The numbers of the record, in its order.
TOTALS = ('elements', 'hits', 'cells')


class Call(NamedTuple):
    alphabet: list
    table: list
    chapter: list
    marks: list
    count: list
    element: list
    replacement: list
    # elements, hits and cells; none in a call that does not have the record
    totals: list = []


class Left(NamedTuple):
    """What a call answers, and the slices and the record that it leaves."""
    answer: list
    chapter: list
    marks: list
    # none in a claim on a call that does not have the record
    totals: list = []


# An element behind an Exchange, by what its marks are.
KEPT, RECOMPUTED = 'kept', 'recomputed'


class Work(NamedTuple):
    """The new elements, the outcome of each, and the totals of the used elements' marks before and after."""
    tree: list
    outcomes: list
    old: list
    new: list


def numbers_in(content, file, names):
    """The lines of a file, each a name and its numbers; a name that stands several times adds to its numbers."""
    found = {}
    for number, line in enumerate(content.decode('utf-8', 'replace').splitlines(), 1):
        name, *words = line.split('#')[0].split() or ['']
        if not name:
            continue
        if name not in names:
            raise BadForm(f'{file}, line {number}: `{name}` is none of {", ".join(names)}')
        if not all(re.fullmatch('0x[0-9a-fA-F]+|[0-9]+', word) for word in words):
            raise BadForm(f'{file}, line {number}: not a number')
        values = [int(word, 16 if word.startswith('0x') else 10) for word in words]
        if any(value >> 32 for value in values):
            raise BadForm(f'{file}, line {number}: a number of more than 32 bits')
        found.setdefault(name, []).extend(values)
        if len(found[name]) > MOST_NUMBERS:
            raise Unfit(f'{file}: more than {MOST_NUMBERS} numbers of `{name}`')
    return found


def check_names(found, file, names):
    missing = [name for name in names if name not in found]
    if missing:
        raise BadForm(f'{file}: no line `{missing[0]}`')
    if len(found.get('totals', TOTALS)) != len(TOTALS):
        raise BadForm(f'{file}: `totals` takes three numbers: {", ".join(TOTALS)}')


def read_call(content, file):
    """A call; its record may be missing."""
    found = numbers_in(content, file, Call._fields)
    check_names(found, file, [name for name in Call._fields if name not in Call._field_defaults])
    call = Call(**found)
    if len(call.count) != 1 or len(call.element) != 1:
        raise BadForm(f'{file}: `count` and `element` take one number each')
    return call


def read_left(content, file, call):
    """A claim on a call: `accepted` and two numbers or `refused` and one, the two slices, and the record where the call has it."""
    slices = ('chapter', 'marks')
    found = numbers_in(content, file, ('accepted', 'refused', *slices, 'totals'))
    answers = [[name, *found.pop(name)] for name in ('accepted', 'refused') if name in found]
    if len(answers) != 1 or len(answers[0]) != {'accepted': 3, 'refused': 2}[answers[0][0]]:
        raise BadForm(f'{file}: it takes one line `accepted`, with two numbers, or `refused`, with one')
    check_names(found, file, (*slices, 'totals') if call.totals else slices)
    return Left(answers[0], **found)


def left_text(left):
    words = ' '.join(f'0x{word:x}' for word in left.chapter)
    marks, totals = (' '.join(map(str, numbers)) for numbers in (left.marks, left.totals))
    return f'{" ".join(map(str, left.answer))}\nchapter {words}\nmarks {marks}\ntotals {totals}\n'


def first_difference(claim, right):
    """Where a claim first differs, what it has there and what is right; None where nothing differs."""
    if claim.answer != right.answer:
        return 'the answer', ' '.join(map(str, claim.answer)), ' '.join(map(str, right.answer))
    for name, claimed, given in (('chapter', claim.chapter, right.chapter), ('marks', claim.marks, right.marks)):
        for index in range(max(len(claimed), len(given))):
            pair = [hex(words[index]) if index < len(words) else 'no word' for words in (claimed, given)]
            if pair[0] != pair[1]:
                return f'{name}, word {index}', *pair
    for name, claimed, given in zip(TOTALS, claim.totals, right.totals):
        if claimed != given:
            return f'the total of {name}', claimed, given
    return None


# ---- the answer


def stored_sets(call, steps):
    """The marks of the used elements, as they stand."""
    return [tuple(call.marks[i * steps.size:(i + 1) * steps.size]) for i in range(call.count[0])]


def totals_of(steps, sets):
    """The totals of elements with these marks."""
    hits = sum(steps.contains(words, steps.final) for words in sets)
    return [len(sets), hits, sum(bin(word).count('1') for words in sets for word in words)]


def with_totals(call):
    """The call with a record: where it has none, the one that is right for its used elements and their marks. In a call that is refused
    before, no record plays a part."""
    if call.totals:
        return call
    if refusals.first(refusals.of_exchange(call)):
        return call._replace(totals=[0] * len(TOTALS))
    steps = Steps(refusals.table_in(call.table))
    return call._replace(totals=totals_of(steps, stored_sets(call, steps)))


def recompute(call, steps, stored, start):
    """The outcome of each new element: whether its marks are kept or recomputed, and these marks."""
    count, element = call.count[0], call.element[0]
    fresh = state_sets(call.alphabet, steps, call.replacement)
    behind, active = [], fresh[-1] != stored[element]
    spans = spans_of(call.alphabet, call.chapter[:count])
    stack = []
    for index, word in enumerate(call.chapter[:count]):
        children = pop(stack, arity(call.alphabet, word))
        words = fresh[-1] if index == element else stored[index]
        if index > element:
            recomputed = active and spans[index].start <= element
            if recomputed:
                words = steps.step(word, children)
                active = words != stored[index]
            behind.append((RECOMPUTED if recomputed else KEPT, words))
        stack.append(words)
    return [(KEPT, words) for words in stored[:start]] + [(RECOMPUTED, words) for words in fresh] + behind


def work_of(call):
    """What a call comes to where none of its words is refused."""
    steps = Steps(refusals.table_in(call.table))
    tree, start = splice(call.alphabet, call.chapter[:call.count[0]], call.element[0], call.replacement)
    stored = stored_sets(call, steps)
    outcomes = recompute(call, steps, stored, start)
    return Work(tree, outcomes, totals_of(steps, stored), totals_of(steps, [words for _, words in outcomes]))


def totals_after(call, work):
    return [total + new - old for total, old, new in zip(call.totals, work.old, work.new)]


def refusal(call):
    """The first number whose condition holds, or 0."""
    number = refusals.first(refusals.of_exchange(call))
    return number or refusals.first(refusals.of_totals(totals_after(call, work_of(call))))


def refit(old, words, lent):
    return words + [0] * (old - len(words)) + lent[max(old, len(words)):]


def left_by(call):
    """What a call with a record leaves."""
    number = refusal(call)
    if number:
        return Left(['refused', number], call.chapter, call.marks, call.totals)
    work, count = work_of(call), call.count[0]
    worked_out = sum(how == RECOMPUTED for how, _ in work.outcomes)
    marks = [word for _, words in work.outcomes for word in words]
    return Left(['accepted', len(work.tree), worked_out], refit(count, work.tree, call.chapter),
                refit(count * refusals.set_size(call.table), marks, call.marks), totals_after(call, work))
