"""The certificate of one Exchange call: the equations between the published definitions, applied to the call, and what it
answers and leaves."""

import hashlib
import re

from . import refusals
from .certificate import published, with_laws
from .exchange import TOTALS, Call, Left, refusal, work_of
from .notation import NoCertificate, decimals, fact, hexadecimal, inline, list_of, numbers_of

HEADER = '''\
-- What the published definitions (crates/*/specs) answer and leave for one Exchange call, as equations: the theorem `certified`, at
-- the end. The checker proves them by computing the definitions. `./judge --check` checks this file.
-- SHA-256 of the call's numbers: {digest}
'''


def digest(call):
    return hashlib.sha256(repr([list(numbers) for numbers in call]).encode()).hexdigest()


# ---- the call, and what it leaves


def number_text(name, value):
    return f'abbrev pub {name} : ℕ\n{name} = {value}\n'


def answer_text(answer):
    name, *values = answer
    value = f'{name} ({decimals(values)} ∷ [])' if name == 'accepted' else f'{name} {values[0]}'
    return f'abbrev pub answer : Answer\nanswer = {value}\n'


def totals_text(name, totals):
    fields = '; '.join(f'{field} = {total}' for field, total in zip(TOTALS, totals))
    return f'abbrev pub {name} : Totals\n{name} = record {{ {fields} }}\n'


# `table` has the words that are lent, of which the table is the first ones.
CALL = '''\
abbrev pub call : ExchangeCall
call = exchange_call alphabet (table_in table) chapter marks count element replacement
'''


def stated(call, left):
    return [list_of('alphabet', call.alphabet, hexadecimal), list_of('table', call.table, hexadecimal),
            list_of('chapter', call.chapter, hexadecimal), list_of('marks', call.marks), number_text('count', call.count[0]),
            number_text('element', call.element[0]), list_of('replacement', call.replacement, hexadecimal), CALL,
            totals_text('totals', call.totals), answer_text(left.answer), list_of('chapter_left', left.chapter, hexadecimal),
            list_of('marks_left', left.marks), list_of('totals_left', left.totals)]


# ---- the proof

EQUATIONS = {
    'answers': 'exchange_answer call totals ≡ answer',
    'leaves-chapter': 'exchange_chapter call totals ≡ chapter_left',
    'leaves-marks': 'exchange_marks call totals ≡ marks_left',
    'leaves-totals': 'totals_words (exchange_totals call totals) ≡ totals_left',
}

# What the laws speak of: the outcomes, the totals before and after, and that they are those of the call.
FOUND = 'outcomes_found totals_before totals_after found-outcomes found-before found-after'

# What an accepted call leaves, from its outcomes and totals.
COMPUTED = {
    'answer': 'accepted (length (new_tree call) ∷ recomputed_in outcomes_found ∷ []) ≡ answer',
    'chapter': 'new_chapter call ≡ chapter_left',
    'marks': 'refit (count * size_of call.table) (flatten (map set_in outcomes_found)) marks ≡ marks_left',
    'totals': 'totals_words (moved_totals totals totals_before totals_after) ≡ totals_left',
}


def computed(name, statement):
    """A fact that holds by computing the published definitions."""
    return fact(name, statement, unfolding=published() + ['ones', 'ones_in'])


def outcome_text(outcome):
    how, words = outcome
    return f'{how} ({inline(map(str, words))})'


def early_facts(number):
    """The refusal of a call whose record plays no part."""
    return [computed('found-fault', f'words_fault call ≡ {number}'),
            fact('fault-is', f'fault call totals ≡ {number}', f'refused-early call totals {number} refl found-fault')]


def worked_facts(work, number):
    """The outcomes, the totals before and after, and the refusal, which is none or 27."""
    return [list_of('outcomes_found', work.outcomes, outcome_text, 4, 'Outcome'), totals_text('totals_before', work.old),
            totals_text('totals_after', work.new), computed('found-outcomes', 'outcomes call ≡ outcomes_found'),
            computed('found-before', 'quick_totals call.table (list_from (stored_in call) 0 count) ≡ totals_before'),
            computed('found-after', 'quick_totals call.table (map set_in outcomes_found) ≡ totals_after'),
            computed('found-fault', f'with27 call (wrong_totals totals totals_before totals_after) ≡ {number}'),
            fact('fault-is', f'fault call totals ≡ {number}', f'judged call totals {FOUND} ∙ found-fault')]


def proved(call):
    """The equations and their proofs."""
    early = refusals.first(refusals.of_exchange(call))
    number = early or refusal(call)
    facts = early_facts(early) if early else worked_facts(work_of(call), number)
    if number:
        proofs = [f'refused-{name} call totals {number} refl fault-is' for name in COMPUTED]
    else:
        facts += [computed(f'found-{name}', statement) for name, statement in COMPUTED.items()]
        proofs = [f'accepted-{name} call totals {FOUND} fault-is ∙ found-{name}' for name in COMPUTED]
    facts += [fact(name, equation, proof) for (name, equation), proof in zip(EQUATIONS.items(), proofs)]
    both = '\n    × '.join(f'({equation})' for equation in EQUATIONS.values())
    return [*facts, f'pub certified :\n    {both}\ncertified = ({", ".join(EQUATIONS)})\n']


# ---- the whole


def text_of(call, left):
    uses, laws = with_laws('exchange_laws.txt')
    numbers = '-- ==== The call, and what it leaves\n\n' + '\n'.join(stated(call, left))
    proof = '-- ==== Proof\n\n' + '\n'.join(proved(call))
    return '\n'.join([HEADER.format(digest=digest(call)) + uses, laws, numbers, proof])


def is_exchange(text):
    return re.search('^replacement =', text, re.MULTILINE) is not None


def read(text):
    """The call of a certificate, which has to be as `text_of` writes it, and what it leaves."""
    names = ('alphabet', 'table', 'chapter', 'marks', 'replacement', 'chapter_left', 'marks_left', 'totals_left')
    lists = {name: numbers_of(text, name) for name in names}
    single = {name: re.search(rf'^{name} = (\d+)$', text, re.MULTILINE) for name in ('count', 'element')}
    answer = re.search(r'^answer = (accepted \((\d+) ∷ (\d+) ∷ \[\]\)|refused (\d+))$', text, re.MULTILINE)
    fields = '; '.join(rf'{name} = (\d+)' for name in TOTALS)
    totals = re.search(rf'^totals = record \{{ {fields} \}}$', text, re.MULTILINE)
    if None in lists.values() or None in single.values() or answer is None or totals is None:
        raise NoCertificate('it has no call and answer')
    values = [int(value) for value in answer.groups()[1:] if value is not None]
    left = Left([answer[1].split()[0], *values], lists.pop('chapter_left'), lists.pop('marks_left'), lists.pop('totals_left'))
    call = Call(**lists, **{name: [int(found[1])] for name, found in single.items()}, totals=[int(total) for total in totals.groups()])
    if text != text_of(call, left):
        raise NoCertificate('it is not as ./judge writes it for its numbers and these definitions')
    return call, left
