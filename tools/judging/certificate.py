"""The certificate of one book: the equation between the published definition, applied to the book's words, and the answer's
bytes. All else in it is worked out from these numbers, so that a certificate is checked by writing it again, to see that it is
nothing else, and by asking the checker."""

import hashlib
import re
from pathlib import Path

from document01 import MARKLIST_MOST
from . import checker, matcher
from .book import Book, Truncated
from .evidence import evidence
from .notation import NoCertificate, fact, hexadecimal, line_of_bytes, list_of, listed, numbers_of, part_of

HEADER = '''\
-- The answer of the published definitions (crates/*/specs) for one {what}, as an equation: the theorem `certified`, at the end. The
-- checker proves it by computing the definitions. Words are as they stand in the input. `./judge --check` checks this file.
-- SHA-256 of the {what}'s bytes: {digest}
'''

# The words of a chapter, and the lines of an answer, that stand in one part.
WORDS_IN_PART = 512
LINES_IN_PART = 128


def digest(book):
    if isinstance(book, Truncated):
        return hashlib.sha256(bytes(book.content)).hexdigest()
    words = [len(words) for words in book] + [word for words in book for word in words]
    return hashlib.sha256(b''.join(word.to_bytes(4, 'little') for word in words)).hexdigest()


def with_laws(file):
    """The `use` lines of a certificate with the laws of a file, and these laws."""
    laws = (Path(__file__).parent / file).read_text(encoding='utf-8')
    used = {}
    for module, names in re.findall(r'^use (\S+)\.\{(.*)\}\n', laws, re.MULTILINE):
        used[module] = used.get(module, []) + names.split(', ')
    for module, names in checker.unfoldable().items():
        used[module] = used.get(module, []) + names
    uses = ''.join(f'use {module}.{{{", ".join(names)}}}\n' for module, names in used.items())
    return uses, re.sub(r'^use .*\n', '', laws, flags=re.MULTILINE).lstrip()


def in_parts(items, size):
    return [items[i:i + size] for i in range(0, len(items), size)]


def published():
    return [name for names in checker.unfoldable().values() for name in names] + ['flat_map', 'flatten']


def stated(book, lines):
    """The book's words and the answer's bytes."""
    if isinstance(book, Truncated):
        return [list_of('input', book.content)] + [list_of('answer', lines, line_of_bytes, 1)]
    chapter = in_parts(book.chapter, WORDS_IN_PART)
    answer = in_parts(lines, LINES_IN_PART)
    return [list_of('alphabet', book.alphabet, hexadecimal), list_of('rule', book.rule, hexadecimal),
            *(part_of(f'chapter{i}', words, hexadecimal) for i, words in enumerate(chapter)), listed('chapter', len(chapter)),
            *(part_of(f'answer{i}', part, line_of_bytes, 1) for i, part in enumerate(answer)), listed('answer', len(answer))]


def proved(book, refused):
    """The equation and its proof."""
    if isinstance(book, Truncated):
        return [fact('ends-early', 'quick_complete input ≡ false', unfolding=['word_at']),
                fact('zero-line', 'refused_line 0 ≡ answer', unfolding=['refused_line', 'decimal', 'digits_within']),
                fact('pub certified', 'program_output input ≡ answer', 'truncated input ends-early ∙ zero-line')]
    few = len(book.chapter) <= MARKLIST_MOST
    output, fault = ('marklist_output', 'marklist_fault') if few else ('book_output', 'book_fault')
    if refused:
        return [fact('pub certified', f'{output} alphabet rule chapter ≡ answer', unfolding=published())]
    proof = ('ap (output_at alphabet rule chapter) no-fault\n'
             '    ∙ reported alphabet rule chapter value answer report')
    if few:
        proof = 'same-output alphabet rule chapter\n    ∙ ' + proof
    return [*evidence(book, WORDS_IN_PART, LINES_IN_PART, published()),
            fact('no-fault', f'{fault} alphabet rule chapter ≡ 0', unfolding=published()),
            fact('pub certified', f'{output} alphabet rule chapter ≡ answer', proof)]


def text_of(book, answer):
    lines = [line + b'\n' for line in answer.split(b'\n')[:-1]]
    header = HEADER.format(digest=digest(book), what='input' if isinstance(book, Truncated) else 'book')
    uses, laws = with_laws('laws.txt')
    numbers = '-- ==== The book and the answer\n\n' + '\n'.join(stated(book, lines))
    proof = '-- ==== Proof\n\n' + '\n'.join(proved(book, matcher.refusal(book) is not None))
    return '\n'.join([header + uses, laws, numbers, proof])


def read(text):
    """The book and the answer of a certificate, which has to be as `text_of` writes it."""
    content, answer = numbers_of(text, 'input'), numbers_of(text, 'answer')
    lists = [numbers_of(text, name) for name in Book._fields]
    if answer is None or content is None and None in lists:
        raise NoCertificate('it has no book and answer')
    book = Book(*lists) if content is None else Truncated(content)
    try:
        answer = bytes(answer)
        again = text_of(book, answer)
    except (ValueError, OverflowError, UnicodeDecodeError) as error:
        raise NoCertificate('it has a number that is no byte or no word') from error
    if text != again:
        raise NoCertificate('it is not as ./judge writes it for its numbers and these definitions')
    return book, answer
