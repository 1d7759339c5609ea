"""The library behind tests/driver.c, held to the second implementation: both are asked the same.

  built(folder)                        the driver, in this folder
  ask(driver, what, data, questions)   asks of these bytes; the test ends where an answer of the library is not the one that is wanted. The answers
"""
import pathlib
import subprocess

from archive import archive
from second import answer, answers, line

LOOKUP = 7                      # numbers that a lookup answers
ABSENT = '255 88 88 88 88 88'   # of a search without a trail


def built(folder):
    driver = pathlib.Path(folder) / 'driver'
    source = pathlib.Path(__file__).with_name('driver.c')
    subprocess.run(['cc', '-O1', '-Wall', '-Werror', '-o', str(driver), str(source), archive()], check=True)
    return driver


def told(driver, what, data, questions):
    """The library's answers."""
    book = driver.parent / 'book'
    book.write_bytes(data)
    out = subprocess.run([str(driver), str(book)], input=''.join(q + '\n' for q in questions), capture_output=True, text=True, check=True).stdout.splitlines()
    if len(out) != len(questions):
        raise SystemExit('%s: %d answers to %d questions' % (what, len(out), len(questions)))
    return out


def right(data, question, got, want):
    """Whether an answer is the wanted one; one by K24 is absent, or found where the asked name stands."""
    if want != 'K24':
        return got == want
    code, place, size = got.split()[:3]
    return got == ABSENT or code == '0' and answer(data, line('A', place, size, question.split()[-1])) == '1'


def ask(driver, what, data, questions, wanted=None):
    """Other answers may be wanted than those that the second implementation gives for these bytes."""
    wanted = wanted or answers(data, questions)
    for question, got, want in zip(questions, told(driver, what, data, questions), wanted):
        if not right(data, question, got, want):
            raise SystemExit('%s, %s: %s, not %s' % (what, question[:200], got[:4000], want[:4000]))
    return wanted
