"""What is built of the crates, where programs and tests look for it: the static libraries in target/staticlib, the programs in target/bin. Each is made where it is missing or older
than a file that it is made of. `rt` proves a crate before it builds it, so tests and benchmarks share what was built once.

  archive.py [NAME..]      the library for C, or these libraries and programs; prints where they are
"""
import functools
import os
import pathlib
import re
import shutil
import subprocess
import sys

top = pathlib.Path(__file__).resolve().parents[1]
LISTED = r'(\w+)(?: [^:#]*)?:(.*)'      # a line of crates.txt: a crate, what kind it is where it is no plain one, and what it depends on
PARTS = 'src', 'specs', 'proofs'        # of a crate, what is proved
OF_A_CRATE = {'hodsplinter': 'hodsplinter_c'}       # the crate that a library is made of, where that has another name


def below(crate):
    """The crate with those that it is built over."""
    rows = (re.match(LISTED, row) for row in (top / 'crates.txt').read_text().split('\n'))
    depends = {m[1]: m[2].split() for m in rows if m}
    found, todo = [], [crate]
    while todo:
        one = todo.pop()
        if one in depends and one not in found:
            found.append(one)
            todo += depends[one]
    return found


def newest(crates=None, parts=(*PARTS, 'must-fail')):
    """When the latest of the files of these crates, or of all, was changed."""
    folders = [top / 'crates' / crate for crate in crates] if crates else list(top.glob('crates/*'))
    files = [p for folder in folders for part in parts for p in (folder / part).rglob('*') if p.is_file()]
    return max(p.stat().st_mtime for p in [top / 'crates.txt', *files])


def made_by(word, crate, file, is_well):
    """Has `rt` make a file in the crate's folder, and fails with what it said unless that went well."""
    folder = top / 'crates' / crate
    done = subprocess.run(['rt', word], cwd=folder, stdin=subprocess.DEVNULL, stdout=subprocess.PIPE, stderr=subprocess.STDOUT, text=True, errors='replace')
    if not is_well(done) or not file.exists():
        sys.stderr.write(done.stdout[-4000:])
        raise SystemExit('`rt %s` in %s did not make %s' % (word, folder.relative_to(top), file.relative_to(top)))


def is_new(file, crate):
    return file.exists() and file.stat().st_mtime > newest(below(crate), PARTS)


def put(made, place):
    """A copy, which appears whole."""
    place.parent.mkdir(parents=True, exist_ok=True)
    part = place.with_name('%s.%d' % (place.name, os.getpid()))
    shutil.copyfile(made, part)
    shutil.copymode(made, part)
    os.replace(part, place)
    return str(place)


@functools.lru_cache(maxsize=None)
def archive(name='hodsplinter'):
    """The path of a static library."""
    crate, place = OF_A_CRATE.get(name, name), top / 'target/staticlib' / ('lib%s.a' % name)
    made = top / 'crates' / crate / 'out' / ('lib%s.a' % crate)
    if is_new(place, crate):
        return str(place)
    if not is_new(made, crate):
        made_by('lib', crate, made, lambda done: done.returncode == 0)
    return put(made, place)


@functools.lru_cache(maxsize=None)
def program(name):
    """The path of a program. `rt ci` leaves each in its crate's folder; `rt run` makes it too, and then runs it, here on no input, and ends as it does."""
    place, made = top / 'target/bin' / name, top / 'crates' / name / 'out' / name
    if is_new(place, name):
        return str(place)
    if not is_new(made, name):
        made_by('run', name, made, lambda done: 'rt: running out/' in done.stdout)
    return put(made, place)


def main(names):
    for name in names or ['hodsplinter']:
        print(program(name) if (top / 'crates' / name / 'src/main.rt').exists() else archive(name))


if __name__ == '__main__':
    main(sys.argv[1:])
