"""The command `./judge`."""

import os
import sys
from pathlib import Path

from document01 import MARKLIST_MOST, MOST_ELEMENTS
from . import book, certificate, checker, exchange, exchange_certificate, matcher
from .notation import NoCertificate

USAGE = '''\
usage: ./judge [--certificate FILE] INPUT [CLAIM..]
       ./judge [--certificate FILE] --exchange CALL [CLAIM..]
       ./judge --check CERTIFICATE
A CALL has lines of a name and its numbers: alphabet, table, chapter, marks, count, element, replacement, and totals, the record before
the call (elements, hits, cells). Without totals it is judged with a right record. A CLAIM on it has accepted with two numbers or refused
with one, and chapter, marks and totals after the call; totals may be missing where the CALL has none (docs/BENCH.md).'''

AGREES, DIFFERS, BAD_USAGE, COULD_NOT_TELL = 0, 1, 2, 3


class BadUsage(Exception):
    """A wrong call; the text says what is wrong."""


def content_of(file):
    try:
        return Path(file).read_bytes()
    except OSError as error:
        raise BadUsage(f'{file}: {error.strerror}') from error


def certify(text, file):
    """Writes the certificate where the checker accepts it; says so, or why not."""
    if not os.access(Path(file).parent, os.W_OK) or Path(file).is_dir():
        raise BadUsage(f'{file}: a certificate cannot be written there')
    verdict, reason = checker.ask(text)
    if verdict != checker.ACCEPTED:
        print(f'judge: the checker did not accept an answer, so there is none to compare with: {reason}')
        return False
    Path(file).write_text(text, encoding='utf-8')
    print(f'certificate {file}')
    return True


def compare(claims, right, first_difference):
    """A line for each claim; the status."""
    status = AGREES
    for file, claim in claims:
        difference = first_difference(claim, right)
        if difference is None:
            print(f'{file}: agrees')
        else:
            print('{}: differs in {}: it has {}, the definition gives {}'.format(file, *difference))
            status = DIFFERS
    return status


def read_lines(file):
    claim, notes = book.read_claim(content_of(file))
    for note in notes:
        print(f'{file}: {note}')
    return claim


def judge(place, input_file, claim_files):
    claims = [(file, read_lines(file)) for file in claim_files]
    given = book.read_input(content_of(input_file))
    answer = matcher.answer(given)
    if isinstance(given, book.Book) and len(given.chapter) > MARKLIST_MOST:
        print(f'over {MARKLIST_MOST} elements, for which marklist says 9: judged with the limit of {MOST_ELEMENTS} that Run has '
              '(a board that says `refused 9` follows marklist)')
    if not certify(certificate.text_of(given, answer), place or Path(input_file).name + '.certificate'):
        return COULD_NOT_TELL
    if not claims:
        print(answer.decode(), end='')
    return compare(claims, answer, book.first_difference)


def judge_exchange(place, call_file, claim_files):
    lent = exchange.read_call(content_of(call_file), call_file)
    claims = [(file, exchange.read_left(content_of(file), file, lent)) for file in claim_files]
    call = exchange.with_totals(lent)
    if not lent.totals:
        print(f'{call_file}: no line `totals`: judged with a right record, which is never refused with 27')
    right = exchange.left_by(call)
    if not certify(exchange_certificate.text_of(call, right), place or Path(call_file).name + '.certificate'):
        return COULD_NOT_TELL
    if not claims:
        print(exchange.left_text(right), end='')
    return compare(claims, right, exchange.first_difference)


def read_certificate(text):
    """What a certificate says: of which book or call, and the answer."""
    if exchange_certificate.is_exchange(text):
        call, left = exchange_certificate.read(text)
        return f'the call whose numbers have SHA-256 {exchange_certificate.digest(call)}', exchange.left_text(left)
    given, answer = certificate.read(text)
    return f'the book with SHA-256 {certificate.digest(given)}', answer.decode('utf-8', 'backslashreplace')


def check(file):
    try:
        text = content_of(file).decode('utf-8')
        what, answer = read_certificate(text)
    except (UnicodeDecodeError, NoCertificate) as error:
        print(f'{file}: refused: {error}')
        return DIFFERS
    verdict, reason = checker.ask(text)
    if verdict == checker.ACCEPTED:
        print(f'{file}: accepted, for {what}:')
        print(answer, end='')
        return AGREES
    print(f'{file}: {verdict}: {reason}')
    return DIFFERS if verdict == checker.REFUSED else COULD_NOT_TELL


def perform(words):
    if len(words) == 2 and words[0] == '--check':
        return check(words[1])
    place = None
    if len(words) >= 2 and words[0] == '--certificate':
        place, words = words[1], words[2:]
    how = judge
    if words and words[0] == '--exchange':
        how, words = judge_exchange, words[1:]
    if not words or any(word.startswith('--') for word in words):
        raise BadUsage(USAGE)
    if place is not None and any(Path(place).resolve() == Path(word).resolve() for word in words):
        raise BadUsage(f'{place}: the certificate would replace a file that is to be judged')
    return how(place, words[0], words[1:])


def main(words):
    try:
        status = perform(words)
        sys.stdout.flush()
        return status
    except BrokenPipeError:
        # Nobody reads any more. What is still in the buffer is dropped, or the interpreter would try it again at its end.
        os.dup2(os.open(os.devnull, os.O_WRONLY), sys.stdout.fileno())
        return 141
    except (BadUsage, book.BadForm) as error:
        print(error, file=sys.stderr)
        return BAD_USAGE
    except checker.NoKit:
        print('judge: the kit is missing: there is no command rt', file=sys.stderr)
        return BAD_USAGE
    except book.Unfit as error:
        print(f'judge: not judged: {error}', file=sys.stderr)
        return COULD_NOT_TELL
    except KeyboardInterrupt:
        return 130
