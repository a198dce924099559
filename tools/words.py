#!/usr/bin/env python3
"""Inputs of marklist as text.

    words.py make [TEXT]            the text as marklist's input, on standard output
    words.py show [INPUT] [NAMES]   an input as text; NAMES is a text from whose alphabet the symbols take their names
    words.py hits INPUT OUTPUT [NAMES]   what marklist printed of the input, with each hit's subtree beside it

`-` is standard input, as is TEXT or INPUT where `make` or `show` gets none. docs/BENCH.md describes the text. Its alphabet is
NAME/RANK for each symbol, and NAME/hole for a hole, which is a constant; where there is one, products and closures are over holes
alone. In a rule `?` is every tree over the alphabet. What `show` prints, `make` turns back into the very same bytes, whatever they
are. The status is 0, 1 for a wrong file, 2 for wrong usage.
"""

import os
import re
import struct
import sys

sys.dont_write_bytecode = True

from document01 import (ANYTHING, CLOSURE, ELEMENT, EMPTY, ENTRY, HOLE, MOST_ELEMENTS, MOST_RANK, PRODUCT, SYMBOL,  # noqa: E402
                        UNION, arity, holes, is_element, is_entry, is_rule_word, kind, low_byte, nameable, word)

SECTIONS = ("alphabet", "rule", "chapter")
NAME = r"[A-Za-z][A-Za-z0-9_]*"
# What stands behind a symbol's name in the alphabet: its rank, or for a hole this word.
ENTRIES = {**{str(rank): word(ENTRY, rank) for rank in range(MOST_RANK + 1)}, "hole": word(ENTRY, HOLE)}
# The rules of one word that names no symbol: the empty language, and every tree.
LONE = {"_": word(EMPTY), "?": word(ANYTHING)}


class Wrong(Exception):
    """A text that is no input, or a run of words that is no tree."""


class Alphabet:
    """Names, words and ranks of the symbols, by symbol number."""

    def __init__(self, names, words):
        self.names, self.words, self.ranks = names, words, [low_byte(w) for w in words]
        self.numbers = {name: number for number, name in enumerate(names)}
        if len(self.numbers) < len(names):
            raise Wrong("a name stands twice in the alphabet")

    @staticmethod
    def of_words(words, names=None):
        for w in words:
            if not is_entry(w):
                raise Wrong("no alphabet entry: 0x%08x" % w)
        names = names or ["s%d" % i for i in range(len(words))]
        if len(names) != len(words):
            raise Wrong("the names are those of %d symbols, the input has %d" % (len(names), len(words)))
        return Alphabet(names, words)

    def shown(self):
        written = {w: text for text, w in ENTRIES.items()}
        return "".join(" %s/%s" % (name, written[w]) for name, w in zip(self.names, self.words))

    def number(self, name):
        if name not in self.numbers:
            raise Wrong("no such symbol: " + name)
        return self.numbers[name]

    def constant(self, name):
        """One that a product or a closure may name."""
        number = self.number(name)
        if number not in nameable(self.words):
            raise Wrong("no %s: %s" % ("hole" if holes(self.words) else "constant", name))
        return number


# Reading: each reader takes the tokens that it needs from the front of the list.

def tokens_of(text, pattern):
    found = re.findall(r"\s+|" + pattern + r"|.", text, re.S)
    return [token for token in found if not token.isspace()] + [""]


def take(tokens, token):
    if tokens[0] != token:
        raise Wrong("%s stands where %s is due" % (tokens[0] or "the end", token or "the end"))
    tokens.pop(0)


def parts_of(alphabet, name, tokens, reader):
    """The words of a symbol's parts, in brackets with commas; none where its rank is 0."""
    rank = alphabet.ranks[alphabet.number(name)]
    words = []
    for i in range(rank):
        take(tokens, "," if i else "(")
        words += reader(alphabet, tokens)
    if rank:
        take(tokens, ")")
    return words


def read_sum(alphabet, tokens):
    words = read_product(alphabet, tokens)
    while tokens[0] == "+":
        tokens.pop(0)
        words += read_product(alphabet, tokens) + [word(UNION)]
    return words


def read_product(alphabet, tokens):
    words = read_term(alphabet, tokens)
    while tokens[0].startswith(".") and len(tokens[0]) > 1:
        c = alphabet.constant(tokens.pop(0)[1:-1].strip())
        words += read_term(alphabet, tokens) + [word(PRODUCT, c)]
    return words


def read_term(alphabet, tokens):
    first = tokens.pop(0)
    if first == "(":
        words = read_sum(alphabet, tokens)
        take(tokens, ")")
    elif first in LONE:
        words = [LONE[first]]
    elif re.fullmatch(NAME, first):
        words = parts_of(alphabet, first, tokens, read_sum) + [word(SYMBOL, alphabet.number(first))]
    else:
        raise Wrong("%s stands where a rule is due" % (first or "the end"))
    while tokens[0].startswith("*") and len(tokens[0]) > 1:
        words.append(word(CLOSURE, alphabet.constant(tokens.pop(0)[1:].strip())))
    return words


def read_rule(alphabet, text):
    tokens = tokens_of(text, r"\.\s*%s\s*:|\*\s*%s|%s" % (NAME, NAME, NAME))
    words = read_sum(alphabet, tokens)
    take(tokens, "")
    return words


def read_tree(alphabet, tokens):
    name = tokens.pop(0)
    if not re.fullmatch(NAME, name):
        raise Wrong("%s stands where an element is due" % (name or "the end"))
    return parts_of(alphabet, name, tokens, read_tree) + [word(ELEMENT, alphabet.number(name))]


def read_chapter(alphabet, text):
    if re.match(r"\s*\d", text):
        return read_numbered(alphabet, text)
    tokens = tokens_of(text, NAME)
    words = read_tree(alphabet, tokens)
    take(tokens, "")
    return words


def read_numbered(alphabet, text):
    """Elements with their numbers, and with their parts' numbers in brackets: `2: f(0,1)`."""
    words, roots = [], []
    for line in filter(str.strip, text.split("\n")):
        found = re.fullmatch(r"\s*(\d+)\s*:\s*(%s)\s*(?:\(([\d\s,]*)\))?\s*" % NAME, line)
        if not found:
            raise Wrong("no numbered element: " + line.strip())
        number, name = int(found[1]), found[2]
        parts = [int(part) for part in (found[3] or "").split(",") if part.strip()]
        rank = alphabet.ranks[alphabet.number(name)]
        due = roots[len(roots) - rank:]
        if number != len(words) or rank > len(roots) or parts != due:
            raise Wrong("%s: element %d with the parts %s is due" % (line.strip(), len(words), due))
        roots[len(roots) - rank:] = [number]
        words.append(word(ELEMENT, alphabet.number(name)))
    if len(roots) != 1:
        raise Wrong("%d elements are in no other, and not one" % len(roots))
    return words


def read_words(text):
    for token in text.split():
        if not re.fullmatch(r"0x[0-9a-fA-F]{1,8}", token):
            raise Wrong("no word of 32 bits, in hexadecimal with 0x: " + token)
    return [int(token, 16) for token in text.split()]


def read_counts(text):
    """The three counts that the text announces."""
    if not re.fullmatch(r"\s*([0-9]+\s+){2}[0-9]+\s*", text) or any(int(count) >> 32 for count in text.split()):
        raise Wrong("counts: three decimal numbers of 32 bits are asked for")
    return [int(count) for count in text.split()]


def read_bytes(text):
    try:
        return bytes.fromhex(text)
    except ValueError:
        raise Wrong("bytes: two hexadecimal digits for each byte are asked for")


def read_alphabet(text):
    items = [re.fullmatch(r"(%s)/(%s)" % (NAME, "|".join(ENTRIES)), item) for item in text.split()]
    if not items or not all(items):
        raise Wrong("the alphabet is NAME/RANK, with ranks 0 to %d, and NAME/hole, or words 0x.." % MOST_RANK)
    return Alphabet([item[1] for item in items], [ENTRIES[item[2]] for item in items])


def sections_of(text):
    """The text of each section. A section begins with its name and a colon; a line that begins with a space continues it."""
    sections, last = {}, None
    for number, line in enumerate(text.split("\n"), 1):
        line = line.split("#")[0].rstrip()
        found = re.match(r"(\w+):(.*)", line)
        if found and found[1] in SECTIONS + ("counts", "bytes"):
            last = found[1]
            if last in sections:
                raise Wrong("line %d: %s stands twice" % (number, last))
            sections[last] = found[2]
        elif line and (last is None or not line[0].isspace()):
            raise Wrong("line %d: no section begins here: %s" % (number, line))
        elif line:
            sections[last] += "\n" + line
    return sections


def is_words(text):
    return re.match(r"\s*(0x|$)", text) is not None


def make(text):
    """The input's bytes."""
    sections = sections_of(text)
    missing = [name for name in SECTIONS if name not in sections]
    if missing and "counts" not in sections and "bytes" not in sections:
        raise Wrong("no line `%s:`" % missing[0])
    alphabet, words = None, {}
    for name, read in zip(SECTIONS, (None, read_rule, read_chapter)):
        section = sections.get(name, "")
        try:
            if is_words(section):
                words[name] = read_words(section)
                if name == "alphabet" and not all(is_words(sections.get(other, "")) for other in SECTIONS):
                    alphabet = Alphabet.of_words(words[name])
            elif name == "alphabet":
                alphabet = read_alphabet(section)
                words[name] = alphabet.words
            else:
                words[name] = read(alphabet, section)
        except Wrong as error:
            raise Wrong("%s: %s" % (name, error))
    counts = [len(words[name]) for name in SECTIONS]
    if "counts" in sections:
        counts = read_counts(sections["counts"])
    elif "bytes" in sections and missing:
        counts = []
    numbers = counts + [w for name in SECTIONS for w in words[name]]
    return struct.pack("<%dI" % len(numbers), *numbers) + read_bytes(sections.get("bytes", ""))


# Writing.

def fold(alphabet, words, is_word, write):
    """Reads postfix words with a stack; `write` gets each word's index and what stands for its parts."""
    stack = []
    for i, w in enumerate(words):
        if not is_word(alphabet.words, w) or arity(alphabet.words, w) > len(stack):
            raise Wrong("0x%08x" % w)
        first = len(stack) - arity(alphabet.words, w)
        stack[first:] = [write(i, stack[first:])]
    if len(stack) != 1:
        raise Wrong("no single tree")
    return stack[0]


def show_rule(alphabet, words):
    """With the fewest brackets. What stands for a part is its text and how tightly that binds: 0 union, 1 product, 2 closure."""
    written = {w: text for text, w in LONE.items()}

    def at_least(binding, part):
        return part[0] if part[1] >= binding else "(%s)" % part[0]

    def write(i, parts):
        if words[i] in written:
            return written[words[i]], 2
        if kind(words[i]) == UNION:
            return "%s + %s" % (parts[0][0], at_least(1, parts[1])), 0
        name = alphabet.names[low_byte(words[i])]
        if kind(words[i]) == PRODUCT:
            return "%s .%s: %s" % (at_least(1, parts[0]), name, at_least(2, parts[1])), 1
        if kind(words[i]) == CLOSURE:
            return "%s*%s" % (at_least(2, parts[0]), name), 2
        return name + ("(%s)" % ", ".join(part[0] for part in parts) if parts else ""), 2

    return " " + fold(alphabet, words, is_rule_word, write)[0]


def show_chapter(alphabet, words):
    lines = []

    def write(i, parts):
        name = alphabet.names[low_byte(words[i])]
        lines.append("\n  %d: %s" % (i, name) + ("(%s)" % ",".join(map(str, parts)) if parts else ""))
        return i

    fold(alphabet, words, is_element, write)
    return "".join(lines)


def show_words(words):
    return "".join(("\n  " if i % 6 == 0 and len(words) > 6 else " ") + "0x%08x" % w for i, w in enumerate(words))


def split(data):
    """Counts, the words of the three sections as far as they are present, and the bytes behind them."""
    if len(data) < 12:
        return None, [[], [], []], data
    counts = struct.unpack("<3I", data[:12])
    at, sections = 12, []
    for count in counts:
        present = min(count, (len(data) - at) // 4)
        sections.append(list(struct.unpack("<%dI" % present, data[at:at + 4 * present])))
        at += 4 * present
    return counts, sections, data[at:]


def show(data, names=None):
    """The input as text."""
    counts, sections, rest = split(data)
    if counts is None:
        return "bytes: %s\n" % rest.hex(" ")
    whole = list(counts) == [len(words) for words in sections]
    text = "" if whole else "# the input ends early\ncounts: %d %d %d\n" % counts
    alphabet = None
    try:
        alphabet = Alphabet.of_words(sections[0], names)
        shown = alphabet.shown()
    except Wrong:
        if names:
            raise
        shown = show_words(sections[0])
    text += "alphabet:%s\n" % shown
    for name, words, write in zip(SECTIONS[1:], sections[1:], (show_rule, show_chapter)):
        try:
            if alphabet is None:
                raise Wrong("no alphabet")
            shown = write(alphabet, words)
        except Wrong:
            shown = show_words(words)
        text += "%s:%s\n" % (name, shown)
    if rest:
        text += "# behind the last whole word\nbytes: %s\n" % rest.hex(" ")
    return text


def subtrees(alphabet, words):
    """For each element its symbol, its subtree's element count and its subtree as text."""
    found = []

    def write(i, parts):
        symbol = low_byte(words[i])
        text = alphabet.names[symbol] + ("(%s)" % ", ".join(part[2] for part in parts) if parts else "")
        found.append((symbol, 1 + sum(part[1] for part in parts), text))
        return found[-1]

    try:
        fold(alphabet, words, is_element, write)
    except Wrong as error:
        raise Wrong("the input's chapter is no tree: %s" % error)
    return found


def hits(data, output, names=None):
    """Each line of the output that names a hit, with the hit's subtree behind it."""
    sections = split(data)[1]
    if not output.endswith("\n"):
        raise Wrong("the output does not end with a newline")
    lines = output.split("\n")[:-1]
    head = re.fullmatch(r"nodes ([0-9]+) states [0-9]+ hits ([0-9]+)", lines[0])
    if not head:
        if len(lines) == 1 and re.fullmatch(r"refused [0-9]+", lines[0]):
            return output
        raise Wrong("the output is neither a head line with hits nor `refused N`, with newlines alone for line ends")
    if int(head[1]) != len(sections[2]):
        raise Wrong("the head says %s elements, and the input has %d" % (head[1], len(sections[2])))
    if int(head[2]) != len(lines) - 1:
        raise Wrong("the head says %s hits, and %d lines follow" % (head[2], len(lines) - 1))
    trees = subtrees(Alphabet.of_words(sections[0], names), sections[2])
    shown = [lines[0]]
    for line in lines[1:]:
        found = re.fullmatch(r"([0-9]+) ([0-9]+) ([0-9]+)", line)
        if not found or int(found[1]) >= len(trees):
            raise Wrong("no element of this input: " + line)
        symbol, size, text = trees[int(found[1])]
        if [symbol, size] != [int(found[2]), int(found[3])]:
            raise Wrong("%s: element %s has symbol %d and a subtree of %d elements" % (line, found[1], symbol, size))
        shown.append("%s  %s" % (line, text))
    return "\n".join(shown) + "\n"


def read_file(arguments, place):
    if len(arguments) <= place or arguments[place] == "-":
        return sys.stdin.buffer.read()
    with open(arguments[place], "rb") as file:
        return file.read()


def names_in(arguments, place):
    if len(arguments) <= place:
        return None
    alphabet = sections_of(read_file(arguments, place).decode()).get("alphabet", "")
    if is_words(alphabet):
        raise Wrong("%s: this text's alphabet has no names" % arguments[place])
    return read_alphabet(alphabet).names


def main(arguments):
    command, rest = (arguments[:1] or [""])[0], arguments[1:]
    try:
        if command == "make" and len(rest) <= 1:
            sys.stdout.buffer.write(make(read_file(rest, 0).decode()))
        elif command == "show" and len(rest) <= 2:
            sys.stdout.write(show(read_file(rest, 0), names_in(rest, 1)))
        elif command == "hits" and 2 <= len(rest) <= 3:
            sys.stdout.write(hits(read_file(rest, 0), read_file(rest, 1).decode(), names_in(rest, 2)))
        else:
            sys.stderr.write(__doc__)
            return 2
        sys.stdout.flush()
    except BrokenPipeError:
        # Nobody reads any more. What is still in the buffer is dropped, or the interpreter would try it again at its end.
        os.dup2(os.open(os.devnull, os.O_WRONLY), sys.stdout.fileno())
        return 141
    except RecursionError:
        sys.stderr.write("words.py: the text is nested too deeply\n")
        return 1
    except (Wrong, ValueError, OSError, struct.error) as error:
        sys.stderr.write("words.py: %s\n" % error)
        return 1
    return 0


# A chapter is read by functions that call each other, two for each element of a comb. One that is too long is read too.
sys.setrecursionlimit(5 * MOST_ELEMENTS)

if __name__ == "__main__":
    sys.exit(main(sys.argv[1:]))
