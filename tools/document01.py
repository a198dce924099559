"""Document 01's words and limits and document 02's length word (U1), height (U6), rule word for every tree (U7), holes (U8) and totals
(U10), each number once, for words.py and ./judge. A word has its kind in bits 31..28 and the kind's fields below; every other bit is
zero."""

# ---- kinds

# An alphabet entry; the words of a rule; a chapter element.
ENTRY = 1
SYMBOL = 2
EMPTY = 3
UNION = 4
PRODUCT = 5
CLOSURE = 6
ELEMENT = 7
# The words of a table: head, symbol move, empty move, and a part state of a symbol move.
HEAD = 8
SYMBOL_MOVE = 9
EMPTY_MOVE = 10
PART = 11
# How many words a table has, as its second word.
LENGTH = 12
# A word of a rule: every tree over the alphabet.
ANYTHING = 14

# The bits of each kind's fields. In a word of a table, but for its length, the lowest STATE_BITS are a state.
FIELDS = {
    ENTRY: 0x1FF, SYMBOL: 0xFF, EMPTY: 0, UNION: 0, PRODUCT: 0xFF, CLOSURE: 0xFF, ELEMENT: 0xFF,
    HEAD: 0x1FFFFF, SYMBOL_MOVE: 0x3FFFF, EMPTY_MOVE: 0xFFFFF, PART: 0x3FF, LENGTH: 0xFFF, ANYTHING: 0,
}
STATE_BITS = 10
# The bit of an alphabet entry that marks a hole, which is a constant.
HOLE = 0x100

# How many rules a rule word takes, but for a symbol, which takes as many as its rank; and those over a constant.
OPERANDS = {EMPTY: 0, UNION: 2, PRODUCT: 2, CLOSURE: 1, ANYTHING: 0}
OVER_CONSTANT = (PRODUCT, CLOSURE)
RULE_KINDS = (SYMBOL,) + tuple(OPERANDS)

# ---- limits

MOST_SYMBOLS = 64
MOST_CONSTANTS = 16
MOST_RANK = 4
MOST_RULE_WORDS = 64
MOST_STATES = 1024
MOST_TABLE_WORDS = 2048
MOST_ELEMENTS = 4096
# How many elements of a chapter stand one above the other: "chapters of height 512 are marked, 513 refused" (document 02, U6).
MOST_HEIGHT = 512
# What no total may exceed: the ones in the marks of the most elements, with a table of the most states (document 02, U10).
MOST_CELLS = 4_194_304
# Those of marklist.
MARKLIST_MOST = 256

# ---- words


def word(of_kind, fields=0):
    return of_kind << 28 | fields


def kind(w):
    return w >> 28


def low_byte(w):
    """The rank of an alphabet entry; the symbol or the constant of any other word outside a table."""
    return w & 0xFF


def table_word(of_kind, upper, state):
    return word(of_kind, upper << STATE_BITS | state)


def state_in(w):
    """The state in a word of a table."""
    return w & (1 << STATE_BITS) - 1


def upper_in(w):
    """What stands above the state in a word of a table: the state count, a symbol, or the state that an empty move leaves."""
    return (w & word(1) - 1) >> STATE_BITS


def length_word(words):
    """The second word of a table that has so many words, this one among them."""
    return word(LENGTH, words)


def length_in(w):
    """The word count in the second word of a table."""
    return w & FIELDS[LENGTH]


def is_of(of_kind, w):
    """A word of this kind, whose spare bits are zero."""
    return w & ~FIELDS[of_kind] == word(of_kind)


# ---- words over an alphabet, which is given by its words


def is_entry(w):
    return is_of(ENTRY, w) and low_byte(w) <= (0 if marks_hole(w) else MOST_RANK)


def marks_hole(w):
    return w & HOLE != 0


def constants(alphabet):
    """Holes are among them."""
    return [symbol for symbol, w in enumerate(alphabet) if low_byte(w) == 0]


def holes(alphabet):
    return [symbol for symbol, w in enumerate(alphabet) if marks_hole(w)]


def nameable(alphabet):
    """What a product or a closure may name: the holes, or any constant where there are none."""
    return holes(alphabet) or constants(alphabet)


def is_rule_word(alphabet, w):
    if kind(w) not in RULE_KINDS or not is_of(kind(w), w):
        return False
    if kind(w) == SYMBOL:
        return low_byte(w) < len(alphabet)
    return kind(w) not in OVER_CONSTANT or low_byte(w) in nameable(alphabet)


def is_element(alphabet, w):
    return is_of(ELEMENT, w) and low_byte(w) < len(alphabet)


def has_hole(alphabet, tree):
    """Whether an element is a hole."""
    marked = holes(alphabet)
    return any(low_byte(w) in marked for w in tree)


def arity(alphabet, w):
    """How many parts a rule word or an element takes; 0 where the alphabet does not say."""
    if kind(w) in (SYMBOL, ELEMENT):
        return low_byte(alphabet[low_byte(w)]) if low_byte(w) < len(alphabet) else 0
    return OPERANDS.get(kind(w), 0)
