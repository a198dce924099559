"""Why a book's lines are what they are: facts that the checker computes one by one, each within its limit of steps, and of which
the law `reported` makes the whole output."""

from collections import Counter
from itertools import groupby

from document01 import arity
from . import matcher
from .automaton import Automaton
from .notation import chain, fact, hexadecimal, inline, joined, list_of, listed, part_of
from .postfix import pop, spans_of

# The steps that are worked out in one fact: the checker's limit is 50,000,000 steps of its own a fact.
STEPS_IN_FACT = 64

READING = ['kind_at', 'rank_of', 'arity']
SETS = ['size_for', 'contains', 'insert']
DECIMALS = ['digits_within', 'decimal']


def transition(move):
    name, *fields = move
    if name == 'empty':
        return f'epsilon {fields[0]} {fields[1]}'
    return f'on_symbol {fields[0]} ({inline(map(str, fields[1]))}) {fields[2]}'


def passes(transitions, symbol_targets):
    """How many passes over the empty moves close a set."""
    reached, count = set(symbol_targets), 0
    moves = [move[1:] for move in transitions if move[0] == 'empty']
    while any(start in reached and end not in reached for start, end in moves):
        count += 1
        for start, end in moves:
            if start in reached:
                reached.add(end)
    return count


class Reading:
    """A chapter read once: each element's state set, the steps that occur, the most frequent first, and the stacks between
    the parts of the chapter."""

    def __init__(self, book, words_in_part):
        self.automaton = Automaton(book.alphabet, book.rule)
        self.table = self.automaton.table()
        self.steps = matcher.Steps(self.table)
        uses, stack, self.stacks, self.sets = Counter(), [], [], []
        for index, word in enumerate(book.chapter):
            if index % words_in_part == 0:
                self.stacks.append(stack[::-1])
            children = pop(stack, arity(book.alphabet, word))
            uses[word, tuple(children)] += 1
            stack.append(self.steps.step(word, children))
            self.sets.append(stack[-1])
        self.stacks.append(stack[::-1])
        self.used = [step for step, _ in uses.most_common()]
        self.names = {words: f'set{i}' for i, words in enumerate(dict.fromkeys(self.sets))}
        self.hits = [i for i, words in enumerate(self.sets) if self.steps.contains(words, self.steps.final)]

    def step_text(self, step):
        word, children = step
        of = inline(self.names[child] for child in children)
        return f'record {{ word = {hexadecimal(word)}; children = {of}; set = {self.names[self.steps.known[step]]} }}'

    def groups(self):
        """The steps in groups that reach the same states by their symbol moves: these states, and the steps."""
        groups = {}
        for step in self.used:
            groups.setdefault(frozenset(self.steps.targets(*step)), []).append(step)
        return [(states, steps[i:i + STEPS_IN_FACT]) for states, steps in groups.items() for i in range(0, len(steps), STEPS_IN_FACT)]


def table_facts(reading, unfolding):
    moves = list_of('moves', reading.automaton.transitions, transition, 4, 'Transition')
    states, final = reading.steps.states, reading.steps.final
    return [list_of('table', reading.table, hexadecimal), moves,
            'abbrev pub automaton : Automaton\n'
            f'automaton = record {{ states = {states}; final = {final}; transitions = moves }}\n',
            fact('compiles', 'compiled_table alphabet rule ≡ table', unfolding=unfolding),
            fact('decodes', 'automaton_of table ≡ automaton', unfolding=unfolding),
            fact('state-count', f'(compiled alphabet rule).states ≡ {states}', unfolding=unfolding),
            fact('final-state', f'(compiled alphabet rule).final ≡ {final}', unfolding=unfolding)]


def step_facts(reading):
    """The steps, worked out; and `value`, which looks a step up."""
    groups = reading.groups()
    texts = [list_of(name, words) for words, name in reading.names.items()]
    proofs = []
    for i, (states, steps) in enumerate(groups):
        count, after = passes(reading.automaton.transitions, states), reading.names[reading.steps.known[steps[0]]]
        texts += [list_of(f'steps{i}', steps, reading.step_text, 1, 'Step'), list_of(f'start{i}', reading.steps.words_of(states)),
                  fact(f'closes{i}', f'closes automaton {count} start{i} {after} ≡ true', unfolding=SETS),
                  fact(f'reach{i}', f'reach automaton start{i} {after} steps{i} ≡ true', unfolding=SETS)]
        proofs.append(f'(right-steps automaton {count} start{i} {after} steps{i} closes{i} reach{i})')
    behind, proof = f'steps{len(groups) - 1}', proofs[-1]
    for i in reversed(range(len(groups) - 1)):
        proof = f'known-append (set_by automaton) steps{i} ({behind}) {proofs[i]}\n    ({proof})'
        behind = f'steps{i} ++ ({behind})'
    return texts + [list_of('steps', [step for _, steps in groups for step in steps], reading.step_text, 1, 'Step'),
                    fact('known', 'Known (set_by automaton) steps', proof),
                    'unfoldable pub value : Value\nvalue w rs = found (set_by automaton) steps w rs\n',
                    fact('same-value', '(w : ℕ) (rs : List StateSet) → value w rs ≡ set_by automaton w rs',
                         'found-same (set_by automaton) steps known w rs', ['value'])]


def hit_facts(reading, nodes, words_in_part):
    """The hits, part by part of the chapter."""
    parts = len(reading.stacks) - 1
    hits = {part: list(group) for part, group in groupby(reading.hits, lambda hit: hit // words_in_part)}
    texts = [list_of(f'stack{i}', [reading.names[words] for words in stack], of='StateSet') for i, stack in enumerate(reading.stacks)]
    texts += [part_of(f'hits{i}', hits.get(i, [])) for i in range(parts)] + [listed('hits', parts)]
    scan = f'quick_hits alphabet value {reading.steps.final}'
    for i in range(parts):
        end = min((i + 1) * words_in_part, nodes)
        texts.append(fact(f'scanned{i}', f'(rest : List ℕ) → {scan} {i * words_in_part} (chapter{i} rest) stack{i} ≡ '
                          f'hits{i} ({scan} {end} rest stack{i + 1})', unfolding=READING + ['contains', 'value']))
    proof = chain('scanned', 'hits', parts, lambda i: joined('chapter', parts, i))
    return texts + [fact('all-hits', f'{scan} 0 chapter [] ≡ hits', proof),
                    fact('inside', f'below {nodes} hits ≡ true')]


def line_facts(reading, nodes, starts, lines_in_part):
    """The lines, part by part of the answer; the first begins with the head line."""
    head = f'head_line {nodes} {reading.steps.states} {len(reading.hits)}'
    ends = [0] + list(range(lines_in_part - 1, len(reading.hits), lines_in_part)) + [len(reading.hits)]
    groups = [reading.hits[start:end] for start, end in zip(ends, ends[1:])]
    groups = groups[:-1] if len(groups) > 1 and not groups[-1] else groups
    lines = 'quick_lines alphabet chapter starts'
    texts = [list_of('starts', starts), fact('begin', 'quick_starts alphabet chapter 0 chapter [] ≡ starts', unfolding=READING)]
    for i, group in enumerate(groups):
        before = f'{head} ++ ' if i == 0 else ''
        texts += [part_of(f'at{i}', group),
                  fact(f'printed{i}', f'(rest : List ℕ) → {before}{lines} (at{i} rest) ≡ answer{i} ({lines} rest)',
                       unfolding=DECIMALS + ['head_line'])]
    proof = chain('printed', 'answer', len(groups), lambda i: joined('at', len(groups), i))
    return texts + [fact('all-lines', f'{head} ++ {lines} hits ≡ answer', proof)]


def evidence(book, words_in_part, lines_in_part, unfolding):
    reading, nodes = Reading(book, words_in_part), len(book.chapter)
    starts = [span.start for span in spans_of(book.alphabet, book.chapter)]
    report = f'''\
report : Report alphabet rule chapter value answer
report = record {{
  table = table;
  compiles = compiles;
  automaton = automaton;
  decodes = decodes;
  states = {reading.steps.states};
  state_count = state-count;
  final = {reading.steps.final};
  final_state = final-state;
  value = same-value;
  hits = hits;
  found = all-hits;
  nodes = {nodes};
  elements = refl;
  count = {len(reading.hits)};
  counted = refl;
  inside = inside;
  tree = one-tree;
  starts = starts;
  begins = begin;
  lines = all-lines;
}}
'''
    return [*table_facts(reading, unfolding), *step_facts(reading), *hit_facts(reading, nodes, words_in_part),
            fact('one-tree', 'trees alphabet 0 chapter 1 ≡ true', unfolding=READING + ['trees_by']),
            *line_facts(reading, nodes, starts, lines_in_part), report]
