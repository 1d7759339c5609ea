"""Packages of the system's archive, read or unpacked and not installed, so that a test changes nothing on the machine and needs no rights.

  files(package, endings)          (name, bytes) of its files with such an ending; None where it cannot be had
  taken(package, folder)           unpacks it there; False where it cannot be had
  program(name, package, folder)   the path of a program, the one at hand or else the package's; None where there is neither

  packages.py FOLDER PACKAGE...    unpacks for a script: the status is 1 where a package cannot be had
"""
import pathlib
import shutil
import subprocess
import sys
import tarfile
import tempfile

QUICKLY = ['-o', 'Acquire::Retries=1', '-o', 'Acquire::http::Timeout=15', '-o', 'Acquire::https::Timeout=15']
refreshed = []


def run(words, limit, **more):
    try:
        return subprocess.run(words, capture_output=True, text=True, timeout=limit, **more)
    except (OSError, subprocess.TimeoutExpired):
        return None


def downloaded(package, folder):
    for _ in 'ab':
        got = run(['apt-get', *QUICKLY, 'download', package], 120, cwd=folder)
        if got and got.returncode == 0:
            return next(pathlib.Path(folder).glob('*.deb'), None)
        if refreshed:
            break
        # a fresh machine may have no lists of packages yet
        refreshed.append(run(['apt-get', *QUICKLY, 'update', '-qq'], 120))
    return None


def taken(package, folder):
    with tempfile.TemporaryDirectory() as work:
        file = downloaded(package, work)
        got = file and run(['dpkg', '-x', str(file), str(folder)], 120)
        return bool(got) and got.returncode == 0


def files(package, endings):
    with tempfile.TemporaryDirectory() as work:
        file = downloaded(package, work)
        if not file:
            return None
        with subprocess.Popen(['dpkg-deb', '--fsys-tarfile', str(file)], stdout=subprocess.PIPE) as unpacked:
            with tarfile.open(fileobj=unpacked.stdout, mode='r|') as tar:
                return [(m.name.split('/')[-1], tar.extractfile(m).read()) for m in tar if m.isfile() and m.name.lower().endswith(endings)]


def versions(package):
    """The packages with a version in their name that this one only points to."""
    got = run(['apt-cache', 'depends', package], 60)
    said = [line.split()[-1] for line in got.stdout.splitlines()] if got else []
    return [n for n in dict.fromkeys(said) if n.startswith(package + '-') and n[-1].isdigit()]


def program(name, package, folder):
    folder = pathlib.Path(folder)
    if shutil.which(name):
        return shutil.which(name)
    for p in [package] + versions(package):
        if taken(p, folder):
            for found in sorted(folder.glob('usr/bin/' + name + '*')):
                if found.name == name or found.name.startswith(name + '-'):
                    return str(found)
    return None


if __name__ == '__main__':
    sys.exit(not all([taken(p, sys.argv[1]) for p in sys.argv[2:]]))
