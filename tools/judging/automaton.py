"""The automaton of a rule, and that of a table. Nothing here is trusted: the checker computes the definition."""

from document01 import (ANYTHING, CLOSURE, EMPTY_MOVE, HEAD, PART, PRODUCT, SYMBOL, SYMBOL_MOVE, UNION, arity, constants, kind,
                        length_word, low_byte, state_in, table_word, upper_in)
from .postfix import pop


class Automaton:
    """The numbered Thompson tree automaton of a rule, its transitions in the table's order."""

    def __init__(self, alphabet, rule):
        self.alphabet = alphabet
        self.states = 0
        own, stack = [], []
        for word in rule:
            port = self.port(word)
            parts = pop(stack, arity(alphabet, word))
            own += self.transitions_of(word, port, parts)
            stack.append(port)
        self.final, entries = stack[-1]
        self.transitions = [('symbol', constant, [], state) for constant, state in entries.items()] + own

    def port(self, word):
        exit_state, self.states = self.states, self.states + 1
        if not arity(self.alphabet, word) and kind(word) != ANYTHING:
            return exit_state, {low_byte(word): exit_state} if kind(word) == SYMBOL else {}
        entries = {constant: self.states + i for i, constant in enumerate(constants(self.alphabet))}
        self.states += len(entries)
        return exit_state, entries

    def transitions_of(self, word, port, parts):
        if kind(word) == ANYTHING:
            return self.anything(*port)
        if not parts:
            return []
        exit_state, entries = port
        c = low_byte(word)
        first, first_entries = parts[0]
        second, second_entries = parts[-1]
        moves = []
        if kind(word) == SYMBOL:
            moves = [(entries[b], part[b]) for b in entries for _, part in parts if b in part]
        elif kind(word) == UNION:
            moves = [(first, exit_state), (second, exit_state)]
            moves += [(entries[b], part[b]) for b in entries for _, part in parts if b in part]
        elif kind(word) == PRODUCT:
            moves = [(first, exit_state)] + [(second, first_entries[c]) for _ in [c] if c in first_entries]
            for b in entries:
                moves += [(entries[b], first_entries[b]) for _ in [b] if b != c and b in first_entries]
                moves += [(entries[b], second_entries[b]) for _ in [b] if b in second_entries]
        elif kind(word) == CLOSURE:
            moves = [(first, first_entries[c]) for _ in [c] if c in first_entries] + [(first, exit_state)]
            for b in entries:
                moves += [(entries[b], first_entries[b]) for _ in [b] if b in first_entries]
                moves += [(entries[b], exit_state) for _ in [b] if b == c]
        own = [('symbol', c, [part[0] for part in parts], exit_state)] if kind(word) == SYMBOL else []
        return own + [('empty', *move) for move in moves]

    def anything(self, exit_state, entries):
        """On each symbol with parts from the exit in all of them, and from each entry: by these every tree reaches the exit."""
        ranks = enumerate(map(low_byte, self.alphabet))
        own = [('symbol', symbol, [exit_state] * rank, exit_state) for symbol, rank in ranks if rank > 0]
        return own + [('empty', entry, exit_state) for entry in entries.values()]

    def table(self):
        words = []
        for name, *fields in self.transitions:
            if name == 'empty':
                words.append(table_word(EMPTY_MOVE, *fields))
            else:
                words.append(table_word(SYMBOL_MOVE, fields[0], fields[2]))
                words += [table_word(PART, 0, state) for state in fields[1]]
        return [table_word(HEAD, self.states, self.final), length_word(2 + len(words)), *words]


def automaton_of(table):
    """States, final state and transitions of a table's words."""
    transitions = []
    for word in table[2:]:
        if kind(word) == SYMBOL_MOVE:
            transitions.append(('symbol', upper_in(word), [], state_in(word)))
        elif kind(word) == EMPTY_MOVE:
            transitions.append(('empty', upper_in(word), state_in(word)))
        elif kind(word) == PART:
            transitions[-1][2].append(state_in(word))
    return upper_in(table[0]), state_in(table[0]), transitions
