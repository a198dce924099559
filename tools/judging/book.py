"""A book for `./judge`: marklist's standard input, and what a board printed for it."""

import struct
from typing import NamedTuple

# More words than this in one list are written into no certificate.
MOST_WORDS = 8192


class Unfit(Exception):
    """A book or a call that is too large to be judged."""


class BadForm(Exception):
    """A file that is not in its form; the text says where."""


class Book(NamedTuple):
    alphabet: list
    rule: list
    chapter: list


class Truncated(NamedTuple):
    """Input that ends before its announced words do."""
    content: list


def read_input(content):
    """The book that marklist would read from these bytes, low byte first; what follows its words is not read."""
    present = len(content) // 4
    words = struct.unpack(f'<{present}I', content[:4 * present])
    counts = (words + (0, 0, 0))[:3]
    if present < 3 or present < 3 + sum(counts):
        if present > MOST_WORDS:
            raise Unfit(f'truncated input of more than {MOST_WORDS} words')
        return Truncated(list(content))
    if max(counts) > MOST_WORDS:
        raise Unfit(f'more than {MOST_WORDS} words in one list')
    ends = [3, 3 + counts[0], 3 + counts[0] + counts[1], 3 + sum(counts)]
    return Book(*(list(words[start:end]) for start, end in zip(ends, ends[1:])))


def read_claim(content):
    """What a board printed, with its line ends as marklist writes them, and notes on what was changed for that."""
    notes = []
    if b'\r\n' in content:
        content = content.replace(b'\r\n', b'\n')
        notes.append('its line ends CR LF are read as LF')
    if content and not content.endswith(b'\n'):
        content += b'\n'
        notes.append('its last line has no line end, and is read as if it had one')
    return content, notes


def first_difference(claim, answer):
    """Where a claim first differs, what it has there and what is right; None where nothing differs."""
    claimed, right = claim.split(b'\n'), answer.split(b'\n')
    for number in range(max(len(claimed), len(right))):
        pair = [lines[number] if number < len(lines) - 1 else None for lines in (claimed, right)]
        if pair[0] != pair[1]:
            return f'line {number + 1}', *('no line' if line is None else f'`{line.decode("utf-8", "backslashreplace")}`' for line in pair)
    return None
