"""What is right, by the second implementation (host/second): its program `judge`, started once and asked many questions. No other file of these tests has the rules of
docs/FORMAT.md; they make cases, ask the library, the programs and the tool, and compare with this.

  answers(data, questions, other)    a line for each question of host/second/src/bin/judge, on these bytes and, for two books, these others
  opened(data)                       ('book', record), or the refusal: ('refused', number, place)
  entries(data)                      the entries of a book that opens, an Entry each
  lookup(data, record, name, places) ('found', report, trail, comparisons), ('absent', trail, comparisons), or the refusal
  frames(data), frames(one, two)     the text that the program `list` prints for an input, `diff` for two
  head(..)                           ('head', its bytes), or the refusal, from entries, density, time, language, content length and room
  line(..), hexed(name)              numbers and lists of numbers, and a name, as questions and answers have them

A record is a dict with the keys of RECORD. A report is (place of the name in the file, length of the name, section, offset, length).
"""
import atexit
import collections
import pathlib
import subprocess

from books import RECORD

host = pathlib.Path(__file__).resolve().parents[1] / 'host'
Entry = collections.namedtuple('Entry', 'report name own')      # own: the entry's own bytes
started = []


class Judge:
    def __init__(self):
        words = ['--release', '--offline', '--locked', '--quiet', '--target-dir', str(host / 'target'), '-p', 'second', '--bin', 'judge']
        subprocess.run(['cargo', 'build', *words], cwd=host, check=True)
        self.run = subprocess.Popen([str(host / 'target/release/judge')], stdin=subprocess.PIPE, stdout=subprocess.PIPE)
        self.held = {'one': b'', 'two': b''}
        atexit.register(self.run.communicate)       # it ends with its input

    def send(self, request, data):
        self.run.stdin.write(b'%s %d\n' % (request.encode(), len(data)))
        self.run.stdin.write(data)

    def ask(self, questions, **books):
        for name, data in books.items():
            if data != self.held[name]:
                self.send(name, data)
                self.held[name] = bytes(data)
        self.send('ask', ''.join(q + '\n' for q in questions).encode())
        self.run.stdin.flush()
        out = [self.run.stdout.readline() for _ in questions]
        if out and not out[-1]:
            raise SystemExit('the second implementation ended with %s' % self.run.wait())
        return [line[:-1].decode() for line in out]


def answers(data, questions, other=b''):
    if not started:
        started.append(Judge())
    return started[0].ask(questions, one=data, two=other)


def answer(data, question, other=b''):
    return answers(data, [question], other)[0]


def numbers(line):
    return list(map(int, line.split()))


def line(*numbers):
    return ' '.join(str(n) for group in numbers for n in (group if isinstance(group, (list, tuple)) else [group]))


def hexed(name):
    return name.hex() or '-'


def refused(code):
    return 'refused', code % 256, code // 256


def opened(data):
    code, *record = numbers(answer(data, 'o'))
    return refused(code) if code else ('book', dict(zip(RECORD, record)))


def entries(data):
    code, *told = numbers(answer(data, 'E'))
    if code:
        raise ValueError('no book: refused by %d' % (code % 256))
    return [entry(data, told[i:i + 7]) for i in range(0, len(told), 7)]


def entry(data, seven):
    place, size, *_, own, length = seven
    return Entry(tuple(seven[:5]), bytes(data[place:place + size]), bytes(data[own:own + length]))


def asked(letter, record, *words):
    """A question with a record."""
    return line(letter, [record[k] for k in RECORD], *words)


def lookup(data, record, name, places=5):
    code, many, *rest = numbers(answer(data, asked('l', record, places, hexed(name))))
    report, count, trail = tuple(rest[:5]), rest[5], rest[6:6 + many]
    return ('found', report, trail, count) if code == 0 else ('absent', trail, count) if code == 255 else refused(code)


def frames(*books):
    return ''.join(frame + '\n' for frame in answer(books[0], 'LD'[len(books) - 1], *books[1:]).split())


def head(entries, density, time, language, content_length, room):
    code, *bytes_of = answer(entries, line('W', density, time, language, content_length, room)).split()
    return ('head', bytes.fromhex(bytes_of[0])) if bytes_of else refused(int(code))
