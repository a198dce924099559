"""Finds the answer that a certificate then has to prove. Nothing here is trusted: the checker computes the definition."""

from document01 import arity, low_byte
from . import refusals
from .automaton import Automaton, automaton_of
from .book import Truncated
from .postfix import pop, spans_of


class Steps:
    """State sets as lists of words: a node's from its symbol and its children's, each step worked out once."""

    def __init__(self, table):
        self.states, self.final, transitions = automaton_of(table)
        self.size = refusals.set_size(table)
        self.on_symbol, self.onward, self.known = {}, {}, {}
        for name, *fields in transitions:
            if name == 'symbol':
                self.on_symbol.setdefault(fields[0], []).append(fields[1:])
            else:
                self.onward.setdefault(fields[0], []).append(fields[1])

    def contains(self, words, state):
        return words[state // 32] >> state % 32 & 1 == 1

    def step(self, word, children):
        key = word, tuple(children)
        if key not in self.known:
            self.known[key] = self.work_out(word, children)
        return self.known[key]

    def targets(self, word, children):
        """The targets of the symbol moves that the node takes."""
        return [target for sources, target in self.on_symbol.get(low_byte(word), [])
                if len(sources) == len(children) and all(map(self.contains, children, sources))]

    def work_out(self, word, children):
        todo, reached = self.targets(word, children), set()
        while todo:
            state = todo.pop()
            if state not in reached:
                reached.add(state)
                todo += self.onward.get(state, [])
        return self.words_of(reached)

    def words_of(self, states):
        return tuple(sum(1 << state % 32 for state in states if state // 32 == i) for i in range(self.size))


def state_sets(alphabet, steps, chapter):
    """Each element's state set."""
    stack, sets = [], []
    for word in chapter:
        children = pop(stack, arity(alphabet, word))
        stack.append(steps.step(word, children))
        sets.append(stack[-1])
    return sets


def refusal(book):
    """The number by which a book is refused, or None."""
    if isinstance(book, Truncated):
        return 0
    return refusals.first(refusals.of_book(book)) or None


def answer(book):
    """The lines that marklist prints, with Run's limit of elements in the place of its own."""
    number = refusal(book)
    if number is not None:
        return b'refused %d\n' % number
    steps = Steps(Automaton(book.alphabet, book.rule).table())
    sets, spans = state_sets(book.alphabet, steps, book.chapter), spans_of(book.alphabet, book.chapter)
    hits = [i for i, words in enumerate(sets) if steps.contains(words, steps.final)]
    lines = [f'nodes {len(book.chapter)} states {steps.states} hits {len(hits)}']
    lines += [f'{i} {low_byte(book.chapter[i])} {i + 1 - spans[i].start}' for i in hits]
    return ''.join(line + '\n' for line in lines).encode()
