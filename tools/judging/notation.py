"""Definitions and theorems of a certificate as text: lists, lists in parts, and facts that hold by computing."""

import re

PER_LINE = 12


class NoCertificate(Exception):
    """A text that is no certificate; the text of the exception says why."""


def hexadecimal(word):
    return f'0x{word:x}'


def decimals(numbers):
    return ' ∷ '.join(map(str, numbers))


def line_of_bytes(line):
    """The bytes of a line that is printed, and the line for the reader."""
    return f'{decimals(line)} -- {line.decode().rstrip()}'


def inline(items):
    return ' ∷ '.join([*items, '[]'])


def rows(items, form, width, end):
    """The items joined by `∷`, some to a row, and behind them `end`."""
    lines = [[form(item) for item in items[i:i + width]] for i in range(0, len(items), width)]
    return '\n    ∷ '.join([' ∷ '.join(line) for line in lines] + [end])


def list_of(name, items, form=str, width=PER_LINE, of='ℕ'):
    return f'abbrev pub {name} : List {of}\n{name} =\n    {rows(items, form, width, "[]")}\n'


def part_of(name, items, form=str, width=PER_LINE):
    """A part of a list: the list that begins with these items and continues with `rest`."""
    return f'abbrev pub {name} : List ℕ → List ℕ\n{name} rest =\n    {rows(items, form, width, "rest")}\n'


def joined(name, count, first=0):
    """The parts from the first on, one behind the other."""
    return ' ('.join([f'{name}{i}' for i in range(first, count)] + ['[]']) + ')' * (count - first)


def listed(name, count):
    """The list of all parts."""
    return f'abbrev pub {name} : List ℕ\n{name} =\n    {joined(name, count)}\n'


def fact(name, statement, proof='refl', unfolding=()):
    """A theorem. One whose proof is `refl` holds by computing both sides, with these definitions unfolded."""
    names = f'unfolding {" ".join(unfolding)}\n' if unfolding else ''
    left = name.removeprefix('pub ') + ''.join(f' {variable}' for variable in re.findall(r'\((\w+) : ', statement.split('→')[0]))
    return f'{name} : {statement}\n{names}{left} = {proof}\n'


def chain(facts, contexts, count, argument):
    """One equation from those of the parts, each of which leaves the parts behind it to the next."""
    proof = 'refl'
    for i in reversed(range(count)):
        here = f'{facts}{i} ({argument(i + 1)})'
        proof = here if i == count - 1 else f'{here}\n    ∙ ap {contexts}{i} ({proof})'
    return proof


def numbers_of(text, name):
    """The numbers of a list, or of a list in parts; None where there is none of the name."""
    blocks = re.findall(rf'^{name}\d+ rest =\n((?:    .*\n)+)', text, re.MULTILINE)
    blocks = blocks or re.findall(rf'^{name} =\n((?:    .*\n)+)', text, re.MULTILINE)
    if not blocks:
        return None
    rows_found = [re.sub('--.*', '', row) for block in blocks for row in block.splitlines()]
    try:
        return [int(number, 0) for row in rows_found for number in row.split() if number not in ('∷', '[]', 'rest')]
    except ValueError as error:
        raise NoCertificate(f'{name} is no list of numbers') from error
