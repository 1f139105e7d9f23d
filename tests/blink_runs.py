"""Runs of the command, and what is asked of every one of them."""
import os
import re
import resource
import shutil
import signal
import stat
import subprocess
import tempfile
import unittest
from pathlib import Path
from typing import NamedTuple

ROOT = Path(__file__).resolve().parent.parent
SAMPLES = ROOT / 'samples'
NOBODY = 65534
WORDS = {int(line[:2]): line[3:] for line in (ROOT / 'include/faults.txt').read_text().splitlines()}
COMMAND = {'path': str(ROOT / 'target/blink')}  # command.py may be told another one


class Answer(NamedTuple):
    status: int  # below 0: the signal that ended it
    out: bytes
    err: bytes

    @property
    def lines(self):
        return self.out.decode('utf-8', 'backslashreplace').split('\n')

    @property
    def first(self):
        return self.lines[0]

    @property
    def complaints(self):
        return self.err.decode('utf-8', 'backslashreplace').splitlines()


def run(arguments, folder, stdin=b'', stdout=subprocess.PIPE, before=None, path=None, around=(), timeout=60, **how):
    """Runs the command in the folder. `before` is called in its process first, and the words of `around` stand before its own."""
    given = {'stdin': stdin} if hasattr(stdin, 'fileno') else {'input': stdin}
    done = subprocess.run([*around, path or COMMAND['path'], *arguments], cwd=folder, stdout=stdout, stderr=subprocess.PIPE,
                          preexec_fn=before, timeout=timeout, **given, **how)
    return Answer(done.returncode, done.stdout or b'', done.stderr)


def limited(**limits):
    """Limits of the system, with the signals as a shell would leave them: limited(FSIZE=100)."""
    def before():
        signal.signal(signal.SIGXFSZ, signal.SIG_DFL)
        signal.signal(signal.SIGPIPE, signal.SIG_DFL)
        for name, most in limits.items():
            resource.setrlimit(getattr(resource, 'RLIMIT_' + name), (most, most))
    return before


def closing(*descriptors):
    """Closes some of 0, 1 and 2, as `blink .. >&-` does."""
    def before():
        for descriptor in descriptors:
            os.close(descriptor)
    return before


def status_for(first):
    """The status that goes with a first line: 0 accepted, done or answered, 1 refused, 2 error."""
    return 2 if first == 'error' else 1 if first.startswith('refused ') else 0


def file_contents(path):
    """What there is under a name: the bytes, or a word on what else it is."""
    kind = os.lstat(path).st_mode
    if stat.S_ISLNK(kind):
        return 'link to ' + os.readlink(path)
    if stat.S_ISREG(kind):
        return Path(path).read_bytes()
    return 'folder' if stat.S_ISDIR(kind) else 'fifo' if stat.S_ISFIFO(kind) else 'something else'


def folder_contents(folder):
    """Every name below a folder, and what is there."""
    return {os.path.relpath(path, folder): file_contents(path) for path in
            (os.path.join(at, name) for at, folders, files in os.walk(folder) for name in folders + files)}


def has_strace():
    try:
        return subprocess.run(['strace', '-qq', '-o', os.devnull, 'true'], stderr=subprocess.DEVNULL).returncode == 0
    except OSError:
        return False


needs_strace = unittest.skipUnless(has_strace(), 'strace is missing, or may not trace')
needs_root = unittest.skipUnless(os.geteuid() == 0, 'only root can become another user')


class Shop(unittest.TestCase):
    """Each test has a folder of its own, with the samples in it."""
    maxDiff = 2000

    def shortDescription(self):
        """By its name, not by a sentence of it."""

    def setUp(self):
        self.folder = tempfile.mkdtemp(prefix='blink-')
        self.addCleanup(shutil.rmtree, self.folder, ignore_errors=True)
        self.fresh()

    def fresh(self):
        """The samples are in the folder, and nothing else."""
        for name in os.listdir(self.folder):
            path = self.path(name)
            shutil.rmtree(path) if os.path.isdir(path) and not os.path.islink(path) else os.unlink(path)
        os.chmod(self.folder, 0o755)
        for sample in SAMPLES.iterdir():
            shutil.copyfile(sample, self.path(sample.name))

    def path(self, name):
        return os.path.join(self.folder, name)

    def put(self, name, contents, mode=None):
        Path(self.path(name)).write_bytes(contents)
        if mode is not None:
            os.chmod(self.path(name), mode)

    def get(self, name):
        return file_contents(self.path(name))

    def remove(self, *names):
        for name in names:
            if os.path.lexists(self.path(name)):
                os.unlink(self.path(name))

    def mode(self, name):
        return stat.S_IMODE(os.stat(self.path(name)).st_mode)

    def blink(self, *arguments, **how):
        return run(arguments, self.folder, **how)

    def expect(self, arguments, first, reason=None, files=(), **how):
        """A run answers with this first line, the status that goes with it and, of an error, this reason. The folder is as it was,
        but for these files: nothing is damaged, and nothing left behind."""
        due = {**folder_contents(self.folder), **dict(files)}
        answer = self.blink(*arguments, **how)
        told = '%s: %s' % (arguments, answer)
        self.same_folder(due, told)
        self.assertEqual(answer.first, first, told)
        self.for_people(answer, told)
        if reason is not None:
            self.assertEqual(answer.complaints[:1], ['blink: ' + reason], told)
        self.has_status(answer, status_for(first), told)
        return answer

    def same_folder(self, due, told):
        found = folder_contents(self.folder)
        self.assertEqual(sorted(due), sorted(found), 'the folder\'s names: ' + told)
        for name in due:
            self.assertTrue(due[name] == found[name], '%s has other contents: %s' % (name, told))

    def for_people(self, answer, told):
        """A refusal is explained on standard output, an error on standard error, and nothing else is said there."""
        refusal = re.fullmatch(r'refused (\d+) at \d+', answer.first)
        if refusal:
            self.assertEqual(answer.lines[1], WORDS[int(refusal[1])], told)
        if answer.first == 'error':
            self.assertEqual(answer.out, b'error\n', told)
            self.assertTrue(answer.complaints, told)
            self.assertEqual([line for line in answer.complaints if not line.startswith('blink: ')], [], told)
        else:
            self.assertEqual(answer.err, b'', told)

    def has_status(self, answer, status, told=None):
        self.assertEqual(answer.status, status, told or answer)

    # With strace: the calls of a run, and runs in which one of them fails or is the last.

    def calls(self, arguments):
        """The calls of a run that saves a file, from the making of the new file on: name, number among those of that name, and text."""
        self.blink(*arguments, around=['strace', '-qq', '-o', self.path('trace')])
        seen, calls = {}, []
        for line in Path(self.path('trace')).read_text().splitlines():
            name = line.split('(')[0]
            seen[name] = seen.get(name, 0) + 1
            if (calls or 'O_EXCL' in line) and name != 'exit_group':
                calls.append((name, seen[name], line))
        self.remove('trace')
        self.assertTrue(calls, 'no new file is made beside the old one')
        return calls

    def tampered(self, arguments, name, how):
        return self.blink(*arguments, around=['strace', '-qq', '-o', os.devnull, '-e', 'trace=' + name,
                                              '-e', 'inject=%s:%s' % (name, how)])
