"""Asks the kit's checker about a certificate, in a scratch repository that holds published definitions (specs/) alone."""

import os
import re
import shutil
import signal
import subprocess
import sys
import tempfile
import time
from pathlib import Path

HOME = Path(__file__).resolve().parents[2]
# The crates whose specs/ a certificate may cite, each with those below it.
PUBLISHED = {
    'words': '',
    'language': 'words',
    'automaton': 'words language',
    'operations': 'words language automaton',
    'encoding': 'words',
    'lines': 'words encoding',
    'report': 'words language automaton operations encoding lines',
}

# The files of specs/ that serve the code alone: one speaks of a type of the code, the other of what its inner functions are given.
CODE = {'words': ('Decoded',), 'report': ('Stages',)}

ACCEPTED, REFUSED, COULD_NOT_TELL = 'accepted', 'refused', 'could not tell'


class NoKit(Exception):
    """The kit's command is not there."""


def unfoldable():
    """The published definitions that a proof has to name before it may compute them, by module."""
    names = {}
    for crate in PUBLISHED:
        for file in sorted((HOME / 'crates' / crate / 'specs').glob('*.antt')):
            if file.stem in CODE.get(crate, ()):
                continue
            found = re.findall(r'^ *unfoldable pub (\S+)', file.read_text(encoding='utf-8'), re.MULTILINE)
            if found:
                names[f'Rattle.{crate}.specs.{file.stem}'] = found
    return names


def add_crate(scratch, crate):
    """A crate that has no code. Those below it are not listed: the checker is given their sources (`sources_below`)."""
    (scratch / 'crates' / crate / 'src').mkdir()
    (scratch / 'crates' / crate / 'src' / 'lib.rt').write_text('')
    with open(scratch / 'crates.txt', 'a', encoding='utf-8') as crates:
        crates.write(f'{crate}: core\n')


def publish(scratch):
    """Writes the published definitions into the scratch repository. What serves the code alone (CODE) is left out: there is no
    code here, and no crate of it."""
    for crate in PUBLISHED:
        specs = scratch / 'crates' / crate / 'specs'
        shutil.copytree(HOME / 'crates' / crate / 'specs', specs)
        for name in CODE.get(crate, ()):
            (specs / f'{name}.antt').unlink()
            listed = (specs / 'Lib.antt').read_text(encoding='utf-8')
            (specs / 'Lib.antt').write_text(listed.replace(f'pub mod {name}\n', ''), encoding='utf-8')
        add_crate(scratch, crate)


def lay_out(scratch, text):
    """Writes the scratch repository: the published definitions, and the certificate as a crate above them."""
    publish(scratch)
    certificate = scratch / 'crates' / 'certificate' / 'specs'
    certificate.mkdir(parents=True)
    (certificate / 'Lib.antt').write_text('pub mod Certificate\n')
    (certificate / 'Certificate.antt').write_text(text, encoding='utf-8')
    add_crate(scratch, 'certificate')


def sources_below(crate):
    """The flags that have the checker read the crates below this one from their sources, in the one run: building each of them first would
    take much longer, and what other runs on this machine built of them could be taken instead."""
    flags = []
    for name in PUBLISHED.get(crate, ' '.join(PUBLISHED)).split():
        used = ','.join(['core', 'std', *PUBLISHED[name].split()])
        flags += ['--lib', f'{name}:{used}=../{name}/src/lib.rt']
    return flags


def run(scratch, crate='certificate'):
    """Runs the checker, with a line of progress every ten seconds; gives its status and what it said."""
    log = scratch / 'log'
    with open(log, 'wb') as out:
        process = subprocess.Popen(['rt', 'check', '--jobs', '1', *sources_below(crate)], cwd=scratch / 'crates' / crate,
                                   stdin=subprocess.DEVNULL, stdout=out, stderr=subprocess.STDOUT, start_new_session=True)
        began = time.monotonic()
        while True:
            try:
                status = process.wait(10)
                break
            except subprocess.TimeoutExpired:
                print(f'judge: the checker computes the definition, {time.monotonic() - began:.0f} s', file=sys.stderr, flush=True)
            except BaseException:
                os.killpg(process.pid, signal.SIGTERM)
                process.wait()
                raise
    return status, log.read_text(encoding='utf-8', errors='replace')


def ask(text):
    """What the checker says of a certificate's text, and its reason where it does not accept it."""
    if shutil.which('rt') is None:
        raise NoKit
    signal.signal(signal.SIGTERM, lambda *_: sys.exit(128 + signal.SIGTERM))
    scratch = Path(tempfile.mkdtemp(prefix='judge-'))
    try:
        lay_out(scratch, text)
        status, said = run(scratch)
    finally:
        shutil.rmtree(scratch, ignore_errors=True)
    last = (said.splitlines() or [''])[-1]
    if status == 0 and last.startswith('logic=proved '):
        return ACCEPTED, ''
    reasons = [line for line in said.splitlines() if 'error:' in line] or [last]
    could_not = status != 1 or not last.startswith('logic=not-proved') or 'step limit' in said
    return (COULD_NOT_TELL if could_not else REFUSED), re.sub(r'^\S*Certificate\.antt:', 'certificate, line ', reasons[0])
