#!/usr/bin/env python3
"""The command `blink`, tried as a shop floor would: full disks, closed descriptors, odd files, damaged inputs.

    python3 tests/command.py [PATH_OF_BLINK] [-v] [-k PATTERN] ..

The command is target/blink where no other is named; what follows is unittest's. Nothing but Python is needed. Where strace is missing,
or mounting or becoming another user is not allowed, the tests that want it are skipped and say so.
"""
import functools
import itertools
import math
import multiprocessing
import os
import random
import re
import resource
import shutil
import socket
import subprocess
import sys
import tempfile
import time
import unittest
from pathlib import Path

sys.dont_write_bytecode = True

from blink_bytes import *
from blink_runs import (COMMAND, NOBODY, ROOT, SAMPLES, WORDS, Answer, Shop, closing, file_contents, folder_contents, limited, needs_root,
                        needs_strace, run, status_for)
from blink_text import HIDDEN, NAMES, bare, file_name, quoted, show_lines, value_text

OLD = b'what was there before'


def sample(name):
    return (SAMPLES / name).read_bytes()


# The sample table and a message of it, as blink_bytes has them.
BLANK = Table([Group(1, [Field(STRING), Field(U32), Field(U32), Field(ENUMERATION), Field(STRING, optional=True)])], [[0, 1, 2, 3]])
GOOD = Dynamic(0, ['QZ-2026-11-0417', 2650, 5728, 2, 'small chip at the rim'])
SHEET = sheet_bytes(BLANK, GOOD)

# A message of 64 KB is a line for each of its bytes.
BYTES = Table([Group(1, [Field(U8, sequence=True)])])
LONGEST = Dynamic(0, [[n % 251 for n in range(65536 - 24)]])


def deepest():
    """A message as long, as deep in groups as they go: eight levels, each with static groups four deep, and the items in the last. Each
    of its lines begins far from the edge."""
    groups = [Group(None, [Field(U8, sequence=True), Field(OBJECT, optional=True)])]
    groups += [Group(n // 4 or None, [Field(STATIC, reference=n - 1)]) for n in range(1, 5)]
    table = Table(groups)

    def message(count):
        made = None
        for level in range(8):
            made = Dynamic(4, [[[[[[5] * (count if level == 0 else 0), made]]]]])
        return made
    return table, message(65536 - len(message_bytes(table, message(0))))


DEEP, DEEPEST = deepest()


def each_type():
    """A table with every type, each also optional, in a sequence and both, and messages of it: the fields absent, empty and full."""
    numbers = [Field(kind) for kind in range(U8, NANO_OF_DAY + 1)]
    others = [Field(STRING), Field(STRING, size=9), Field(BINARY), Field(BINARY, size=255), Field(FIXED, size=3), Field(ENUMERATION),
              Field(STATIC, reference=0), Field(DYNAMIC, reference=1), Field(OBJECT)]
    fields = numbers + others
    fields = fields + [field._replace(optional=True) for field in fields]
    fields = [Group(10, fields), Group(11, [field._replace(sequence=True) for field in fields])]
    table = Table([Group(None, [Field(U8), Field(STRING, optional=True)]), Group(1, [Field(I16)]),
                   Group(2, [Field(I16), Field(STRING)], above=1), *fields], [[-7, 0, 7], [5]])
    low = [0, -128, 0, -2 ** 15, 0, -2 ** 31, 0, -2 ** 63, 1 << 63, (-2 ** 63, -128), False, -2 ** 31, -2 ** 63, -2 ** 63, 0, 0,
           '', '', b'', b'', b'\0\0\0', -7, [0, None], Dynamic(1, [-1]), Dynamic(1, [-1])]
    high = [255, 127, 2 ** 16 - 1, 2 ** 15 - 1, 2 ** 32 - 1, 2 ** 31 - 1, 2 ** 64 - 1, 2 ** 63 - 1, float_bits(2650.5),
            (2 ** 63 - 1, 127), True, 2 ** 31 - 1, 2 ** 63 - 1, 2 ** 63 - 1, 86399999, 86399999999999, 'Qu\u00e4rz \U0001f48e', 'nine byte',
            bytes(range(256)), bytes(255), b'\xff\0\xff', 7, [255, 'in a static group'], Dynamic(2, [3, 'below']),
            Dynamic(2, [4, 'any'], [Dynamic(1, [5])])]
    unknown = u32(15) + u64(99) + b'unknown'
    absent = [None] * len(low)
    both = [[a, b] for a, b in zip(low, high)]
    return table, [Dynamic(3, low + absent), Dynamic(3, high + low), Dynamic(3, low + high, [Dynamic(1, [6]), unknown]),
                   Dynamic(4, [[]] * len(low) + absent), Dynamic(4, both + [[]] * len(low)), Dynamic(4, [[]] * len(low) + both)]


TYPES, TYPED = each_type()


def with_each_saver(test):
    """The test is done with `sheet`, `write` and `rewrite`, each in a fresh folder: its arguments but OUT, and what is due there."""
    @functools.wraps(test)
    def tried(self):
        for arguments, due in [(['sheet', 'blank.table', 'padded.message'], SHEET),
                               (['write', 'blank.table', 'padded.sheet'], sample('good.message')),
                               (['rewrite', 'blank.table', 'padded.message'], sample('good.message'))]:
            with self.subTest(arguments[0]):
                self.fresh()
                self.put('padded.sheet', SHEET)
                test(self, arguments, due)
    return tried


class Saving(Shop):
    """1. OUT is whole or as it was. Full disk, write error, killed in the middle (file size limit): the old file's bytes stay, a new
    one is not left behind, and the answer is `error`. Where OUT is no regular file, it is written to straight."""

    def saved(self, arguments, due, out='out', files=None, **how):
        """The bytes are in OUT, and no other name of the folder changed."""
        self.expect([*arguments, out], 'done %d' % len(due), files={out: due} if files is None else files, **how)

    def failed(self, arguments, reason, out='out', **how):
        """Nothing changed."""
        self.expect([*arguments, out], 'error', '%s: %s' % (out, reason), **how)

    @with_each_saver
    def test_new_and_old_file(self, arguments, due):
        self.remove('out')
        self.saved(arguments, due)
        self.saved(arguments, due)
        self.put('out', 100 * OLD)
        self.saved(arguments, due)

    def test_refusal(self):
        self.put('cut.sheet', SHEET[:-1])
        for old in [True, False]:
            self.put('out', OLD) if old else self.remove('out')
            self.expect(['sheet', 'blank.table', 'dusty.message', 'out'], 'refused 9 at 41')
            self.expect(['rewrite', 'blank.table', 'dusty.message', 'out'], 'refused 9 at 41')
            self.expect(['write', 'blank.table', 'cut.sheet', 'out'], 'refused 40 at %d' % (len(SHEET) - 2))
            self.expect(['sheet', 'stale.table', 'good.message', 'out'], 'refused 20 at 0')

    @with_each_saver
    def test_full_device(self, arguments, due):
        self.failed(arguments, 'No space left on device', '/dev/full')

    @with_each_saver
    def test_file_size_limit(self, arguments, due):
        for most in [0, 1, 16, len(due) - 1]:
            self.remove('out')
            self.failed(arguments, 'File too large', before=limited(FSIZE=most))
            self.put('out', OLD)
            self.failed(arguments, 'File too large', before=limited(FSIZE=most))
        self.saved(arguments, due, before=limited(FSIZE=len(due)))

    def full_disk(self, options):
        os.mkdir(self.path('disk'))
        mounted = subprocess.run(['mount', '-t', 'tmpfs', '-o', options, 'none', self.path('disk')], capture_output=True)
        if mounted.returncode != 0:
            self.skipTest('mounting is not allowed: ' + mounted.stderr.decode().strip())
        self.addCleanup(subprocess.run, ['umount', self.path('disk')], check=True)

    def long_message(self):
        """12,000 bytes, and a sheet of them: three pages and more."""
        self.put('bytes.table', table_bytes(BYTES))
        message = Dynamic(0, [[7] * 12000])
        self.put('long.message', message_bytes(BYTES, message))
        self.put('long.sheet', sheet_bytes(BYTES, message))
        return [['sheet', 'bytes.table', 'long.message'], ['write', 'bytes.table', 'long.sheet'],
                ['rewrite', 'bytes.table', 'long.message']]

    def test_full_disk(self):
        savers = self.long_message()
        self.full_disk('size=16k')
        for arguments in savers:
            with self.subTest(arguments[0]):
                self.remove('disk/new')
                self.put('disk/out', OLD)
                self.put('disk/other', bytes(4096))
                self.failed(arguments, 'No space left on device', 'disk/out')
                self.failed(arguments, 'No space left on device', 'disk/new')

    def test_full_disk_for_a_store(self):
        self.full_disk('size=8k')
        self.put('disk/store', store_bytes([(7, 1, [4])], free=3))
        self.put('disk/other', bytes(4096))
        self.expect(['settings', 'new', 'disk/new', '4'], 'error', 'disk/new: No space left on device')
        self.expect(['settings', 'add', 'disk/store', '7', '2'], 'error', 'disk/store: No space left on device')

    def test_disk_without_room_for_a_name(self):
        savers = self.long_message()
        self.full_disk('size=1m,nr_inodes=2')
        self.put('disk/out', OLD)
        for arguments in savers:
            with self.subTest(arguments[0]):
                self.failed(arguments, 'No space left on device', 'disk/out')
                self.failed(arguments, 'No space left on device', 'disk/new')

    def as_nobody(self):
        shutil.copyfile(COMMAND['path'], self.path('blink'))
        os.chmod(self.path('blink'), 0o755)
        return {'path': self.path('blink'), 'user': NOBODY, 'group': NOBODY, 'extra_groups': []}

    @needs_root
    @with_each_saver
    def test_read_only_folder(self, arguments, due):
        self.put('out', OLD, 0o666)
        self.put('store', store_bytes([(7, 1, [4])], free=3), 0o666)
        how = self.as_nobody()
        self.failed(arguments, 'Permission denied', **how)
        self.failed(arguments, 'Permission denied', 'new', **how)
        self.expect(['settings', 'add', 'store', '7', '2'], 'error', 'store: Permission denied', **how)
        self.expect(['settings', 'new', 'new', '7'], 'error', 'new: Permission denied', **how)

    @needs_root
    @with_each_saver
    def test_file_that_may_not_be_written(self, arguments, due):
        os.chmod(self.folder, 0o777)
        self.put('out', OLD, 0o444)
        self.put('store', store_bytes([(7, 1, [4])], free=3), 0o444)
        how = self.as_nobody()
        self.failed(arguments, 'Permission denied', **how)
        self.saved(arguments, due, 'new', **how)
        self.expect(['settings', 'add', 'store', '7', '2'], 'error', 'store: Permission denied', **how)

    @needs_root
    @with_each_saver
    def test_owner_where_the_system_refuses_it(self, arguments, due):
        os.chmod(self.folder, 0o777)
        self.put('out', OLD, 0o666)
        how = self.as_nobody()
        self.saved(arguments, due, **how)
        self.assertEqual(self.mode('out'), 0o666)

    @needs_root
    @with_each_saver
    def test_owner_and_group_stay(self, arguments, due):
        self.put('out', OLD)
        os.chown(self.path('out'), NOBODY, NOBODY)
        os.chmod(self.path('out'), 0o640)
        self.saved(arguments, due)
        found = os.stat(self.path('out'))
        self.assertEqual((found.st_uid, found.st_gid, self.mode('out')), (NOBODY, NOBODY, 0o640))

    @with_each_saver
    def test_link_stays_and_leads_to_the_new_bytes(self, arguments, due):
        os.mkdir(self.path('here'))
        os.mkdir(self.path('there'))
        links = {'plain': 'target', 'there/up': '../target', 'absolute': self.path('target'), 'first': 'here/second',
                 'here/second': '../there/third', 'there/third': './/../target', 'through': 'plain'}
        for name, target in links.items():
            os.symlink(target, self.path(name))
        for name in links:
            self.put('target', OLD, 0o640)
            self.saved(arguments, due, name, files={'target': due})
            self.assertEqual(self.mode('target'), 0o640)
            self.remove('target')
            self.saved(arguments, due, name, files={'target': due})

    @with_each_saver
    def test_link_stays_on_failure(self, arguments, due):
        os.symlink('target', self.path('link'))
        os.symlink('missing/target', self.path('nowhere'))
        os.symlink('loop', self.path('loop'))
        os.symlink('/dev/full', self.path('full'))
        self.put('target', OLD)
        self.failed(arguments, 'File too large', 'link', before=limited(FSIZE=10))
        self.failed(arguments, 'No such file or directory', 'nowhere')
        self.failed(arguments, 'Too many levels of symbolic links', 'loop')
        self.failed(arguments, 'No space left on device', 'full')

    @with_each_saver
    def test_linked_folder(self, arguments, due):
        os.mkdir(self.path('real'))
        os.symlink('real', self.path('folder'))
        self.put('real/out', OLD)
        self.saved(arguments, due, 'folder/out', files={'real/out': due})
        self.saved(arguments, due, 'folder/../out', files={'out': due})

    @with_each_saver
    def test_hard_links_keep_the_old_bytes(self, arguments, due):
        self.remove('out', 'second')
        self.put('out', OLD)
        os.link(self.path('out'), self.path('second'))
        self.saved(arguments, due)

    @with_each_saver
    def test_mode_stays(self, arguments, due):
        for mode in [0o600, 0o640, 0o644, 0o666, 0o755, 0o777]:
            for mask in [0, 0o022, 0o077]:
                self.put('out', OLD, mode)
                self.saved(arguments, due, umask=mask)
                self.assertEqual(oct(self.mode('out')), oct(mode))

    @with_each_saver
    def test_mode_of_a_new_file(self, arguments, due):
        for mask in [0, 0o022, 0o027, 0o077]:
            self.remove('out')
            self.saved(arguments, due, umask=mask)
            self.assertEqual(oct(self.mode('out')), oct(0o666 & ~mask))

    @with_each_saver
    def test_long_names(self, arguments, due):
        self.remove(255 * 'n')
        self.saved(arguments, due, 255 * 'n')
        self.saved(arguments, due, 255 * 'n')
        self.failed(arguments, 'File name too long', 256 * 'n')
        answer = self.expect([*arguments, './' * 2100 + 'out'], 'error')
        self.assertIn('File name too long', answer.complaints[0])

    @with_each_saver
    def test_path_of_the_longest_length(self, arguments, due):
        """The new file's name has to fit behind the folder's."""
        for length in [4069, 4070]:
            name = './' * ((length - 10) // 2)
            name += (length - len(name)) * 'n'
            self.remove(name.lstrip('./'))
            self.saved(arguments, due, name, files={name.lstrip('./'): due})
            self.saved(arguments, due, name, files={name.lstrip('./'): due})
        for length in [4094, 4095]:
            answer = self.expect([*arguments, './' * ((length - 3) // 2) + 'out'], 'error')
            self.assertIn('File name too long', answer.complaints[0])

    @with_each_saver
    def test_names(self, arguments, due):
        os.mkdir(self.path('folder'))
        os.mkdir(self.path('folder/deep'))
        odd = 'a name with spaces, \u00e4 and \\'
        for name in ['out', './out', 'folder/out', 'folder//out', 'folder/deep/../out', self.path('folder/deep/out'), odd, './-',
                     '.hidden', './--settings']:
            self.saved(arguments, due, name, files={os.path.relpath(self.path(name), self.folder): due})

    @with_each_saver
    def test_names_that_are_no_files(self, arguments, due):
        os.mkdir(self.path('folder'))
        with socket.socket(socket.AF_UNIX) as odd:
            odd.bind(self.path('socket'))
            self.failed(arguments, 'No such file or directory', 'missing/out')
            self.failed(arguments, 'Not a directory', 'good.message/out')
            self.failed(arguments, 'Is a directory', 'folder')
            self.failed(arguments, 'Is a directory', '.')
            self.expect([*arguments, 'out/'], 'error')
            self.expect([*arguments, ''], 'error')
            self.failed(arguments, 'No such device or address', 'socket')

    @with_each_saver
    def test_pipe_with_a_name(self, arguments, due):
        os.mkfifo(self.path('fifo'))
        reader = os.open(self.path('fifo'), os.O_RDONLY | os.O_NONBLOCK)
        self.addCleanup(os.close, reader)
        self.saved(arguments, due, 'fifo', files={})
        self.assertEqual(os.read(reader, 1000), due)

    @with_each_saver
    def test_device(self, arguments, due):
        self.saved(arguments, due, '/dev/null', files={})

    @with_each_saver
    def test_standard_output_by_a_name(self, arguments, due):
        """The bytes alone are there, and the answer is on standard error."""
        for name in ['/dev/stdout', '/dev/fd/1', '/proc/self/fd/1']:
            answer = self.blink(*arguments, name)
            self.assertEqual((answer.out, answer.complaints), (due, ['done %d' % len(due)]), name)
            self.has_status(answer, 0)

    @with_each_saver
    def test_standard_output_is_a_file(self, arguments, due):
        for name in ['/dev/stdout', 'file', './file', self.path('file'), '-']:
            for mode, start in [('wb', b''), ('ab', OLD)]:
                self.put('file', OLD)
                due_folder = {**folder_contents(self.folder), 'file': start + due}
                with open(self.path('file'), mode) as out:
                    answer = self.blink(*arguments, name, stdout=out)
                self.same_folder(due_folder, '%s, opened by %s' % (name, mode))
                self.assertEqual(answer.complaints, ['done %d' % len(due)])
                self.has_status(answer, 0)

    @with_each_saver
    def test_name_of_the_new_file_is_taken(self, arguments, due):
        """Whoever guesses it gets nothing: the file or link of that name stays as it is."""
        def before():
            os.symlink('victim', '.blink-%d.new' % os.getpid())
        self.put('victim', OLD)
        self.put('out', OLD)
        answer = self.blink(*arguments, 'out', before=before)
        self.assertIn((answer.first, self.get('out')), [('error', OLD), ('done %d' % len(due), due)])
        self.assertEqual(self.get('victim'), OLD)
        self.has_status(answer, status_for(answer.first))

    # With strace: calls that fail, and the command killed at each of them.

    @needs_strace
    @with_each_saver
    def test_failing_calls(self, arguments, due):
        self.put('out', OLD)
        calls = self.calls([*arguments, 'out'])
        renamed = [name.startswith('rename') for name, _, _ in calls].index(True)
        found = [name for name, _, _ in calls[:renamed + 1]]
        self.assertTrue({'fsync', 'fdatasync'} & set(found), 'the bytes are not forced to the disk before the name: %s' % found)
        self.assertIn('close', found[found.index('write'):], 'the new file is not closed before the name')
        for name, number, line in calls[:renamed + 1]:
            if re.match('(open|openat|write|fsync|fdatasync|close|rename.*)$', name):
                self.put('out', OLD)
                due_folder = folder_contents(self.folder)
                answer = self.tampered([*arguments, 'out'], name, 'error=EIO:when=%d' % number)
                self.same_folder(due_folder, line)
                self.assertEqual((answer.first, answer.complaints[:1]), ('error', ['blink: out: Input/output error']), line)
                self.has_status(answer, 2, line)

    @needs_strace
    @with_each_saver
    def test_killed(self, arguments, due):
        self.put('out', OLD)
        for name, number, line in self.calls([*arguments, 'out']):
            self.put('out', OLD)
            self.tampered([*arguments, 'out'], name, 'signal=KILL:when=%d' % number)
            self.assertIn(self.get('out'), [OLD, due], line)

    @needs_strace
    @with_each_saver
    def test_owner_that_may_not_be_given(self, arguments, due):
        """It is no error where the system refuses the old file's owner."""
        self.put('out', OLD, 0o640)
        answer = self.tampered([*arguments, 'out'], 'fchown', 'error=EPERM')
        self.assertEqual((answer.first, self.get('out'), self.mode('out')), ('done %d' % len(due), due, 0o640))

    @needs_strace
    @with_each_saver
    def test_failing_reads(self, arguments, due):
        """An input that fails is said by its name, whether at its first read or later."""
        for name in arguments[1:]:
            for when in [1, 2]:
                due_folder = folder_contents(self.folder)
                answer = self.blink(*arguments, 'out', around=[
                    'strace', '-qq', '-o', os.devnull, '-P', self.path(name), '-e', 'trace=read', '-e',
                    'inject=read:error=EIO:when=%d' % when])
                self.same_folder(due_folder, name)
                self.assertEqual((answer.first, answer.complaints[:1]), ('error', ['blink: %s: Input/output error' % name]))
                self.has_status(answer, 2)


class Settings(Shop):
    """1, for STORE: `settings add` leaves the store whole or as it was, and `settings new` a whole store or none."""
    RECORDS = [(7, 1, [4, 6, 8]), (12, 1, []), (7, 2, [4])]
    BEFORE = store_bytes(RECORDS, free=2)
    AFTER = store_bytes(RECORDS + [(12, 2, [4, 8])], free=1)
    ADD = ['settings', 'add', 'store', '12', '2', '4', '8']

    def setUp(self):
        super().setUp()
        self.put('store', self.BEFORE)

    def test_new(self):
        for records in [1, 5, 7281]:
            self.remove('new')
            self.expect(['settings', 'new', 'new', str(records)], 'done %d' % (9 * records), files={'new': bytes(9 * records)})
            self.expect(['settings', 'new', 'new', str(records)], 'error', 'new: File exists')

    def test_new_where_there_is_something(self):
        os.symlink('nowhere', self.path('link'))
        os.mkdir(self.path('folder'))
        for name in ['store', 'link', 'folder', '/dev/null', '/dev/full']:
            self.expect(['settings', 'new', name, '5'], 'error', name + ': File exists')

    def test_new_is_whole_or_not_there(self):
        for most in [0, 1, 44]:
            self.expect(['settings', 'new', 'new', '5'], 'error', 'new: File too large', before=limited(FSIZE=most))
        self.expect(['settings', 'new', 'missing/new', '5'], 'error', 'missing/new: No such file or directory')
        self.expect(['settings', 'new', 'new', '5'], 'done 45', files={'new': bytes(45)}, before=limited(FSIZE=45))

    def test_mode_of_a_new_store(self):
        for mask in [0, 0o022, 0o077]:
            self.remove('new')
            self.expect(['settings', 'new', 'new', '5'], 'done 45', files={'new': bytes(45)}, umask=mask)
            self.assertEqual(oct(self.mode('new')), oct(0o666 & ~mask))

    def test_add_and_get(self):
        self.expect(self.ADD, 'done 45', files={'store': self.AFTER})
        self.expect(['settings', 'get', 'store', '12', '2'], 'ignores 4 8')
        self.expect(['settings', 'get', 'store', '12', '1'], 'ignores nothing')
        self.expect(['settings', 'get', 'store', '12', '3'], 'refused 59 at 0')
        self.expect(self.ADD, 'refused 50 at 36')
        self.expect(['settings', 'add', 'store', '65535', '65535', '8', '6', '4'], 'done 45',
                    files={'store': store_bytes(self.RECORDS + [(12, 2, [4, 8]), (65535, 65535, [4, 6, 8])])})
        self.expect(['settings', 'add', 'store', '1', '1'], 'refused 51 at 0')
        listed = self.expect(['settings', 'store'], 'accepted')
        self.assertEqual(listed.lines[1:], ['customer 7 version 1 ignores 4 6 8', 'customer 12 version 1 ignores nothing',
                                            'customer 7 version 2 ignores 4 (governs)', 'customer 12 version 2 ignores 4 8 (governs)',
                                            'customer 65535 version 65535 ignores 4 6 8 (governs)', ''])

    def test_add_is_whole_or_not_done(self):
        for most in [0, 1, 27, 44]:
            self.expect(self.ADD, 'error', 'store: File too large', before=limited(FSIZE=most))
        self.expect(self.ADD, 'done 45', files={'store': self.AFTER}, before=limited(FSIZE=45))

    def test_add_to_a_link(self):
        os.symlink('store', self.path('link'))
        self.expect(['settings', 'add', 'link', '12', '2', '4', '8'], 'done 45', files={'store': self.AFTER})

    def test_add_leaves_hard_links_and_mode(self):
        os.link(self.path('store'), self.path('second'))
        os.chmod(self.path('store'), 0o640)
        self.expect(self.ADD, 'done 45', files={'store': self.AFTER})
        self.assertEqual((self.mode('store'), self.get('second')), (0o640, self.BEFORE))

    def test_long_name(self):
        name = 255 * 's'
        self.expect(['settings', 'new', name, '5'], 'done 45', files={name: bytes(45)})
        self.expect(['settings', 'add', name, '1', '1'], 'done 45', files={name: store_bytes([(1, 1, [])], free=4)})

    def test_damaged_store(self):
        self.put('store', b'x' + self.BEFORE[1:])
        self.expect(['settings', 'store'], 'refused 50 at 0')
        self.expect(['settings', 'get', 'store', '7', '1'], 'refused 50 at 0')
        self.expect(self.ADD, 'refused 50 at 0')

    @needs_strace
    def test_add_killed(self):
        for name, number, line in self.calls(self.ADD):
            self.put('store', self.BEFORE)
            self.tampered(self.ADD, name, 'signal=KILL:when=%d' % number)
            self.assertIn(self.get('store'), [self.BEFORE, self.AFTER], line)


class ExitStatus(Shop):
    """2. Exit status: 0 accepted, done or answered; 1 refused; 2 error."""
    STORE = ['--settings', 'customers.store', '--customer']

    def setUp(self):
        super().setUp()
        self.put('good.sheet', SHEET)
        self.put('cut.sheet', SHEET[:-1])
        self.put('full.store', store_bytes([(7, 1, [4])]))

    def test_accepted(self):
        for command in ['check', 'show', 'dump']:
            self.expect([command, 'blank.table', 'good.message'], 'accepted')
            self.expect([command, 'blank.table', 'rubbish.message', *self.STORE, '12'], 'accepted')
            self.expect([*self.STORE, '12', command, 'blank.table', 'rubbish.message'], 'accepted')
        self.expect(['check', 'blank.table'], 'accepted')
        self.expect(['table', 'blank.table'], 'accepted')
        self.expect(['settings', 'customers.store'], 'accepted')

    def test_done(self):
        self.expect(['sheet', 'blank.table', 'good.message', 'out'], 'done %d' % len(SHEET), files={'out': SHEET})
        good = sample('good.message')
        self.expect(['write', 'blank.table', 'good.sheet', 'out'], 'done 81', files={'out': good})
        self.expect(['rewrite', 'blank.table', 'padded.message', 'out'], 'done 81', files={'out': good})
        clean = sample('good-no-note.message')
        self.expect(['rewrite', 'blank.table', 'rubbish.message', 'out', *self.STORE, '12'], 'done 56', files={'out': clean})
        self.expect(['settings', 'new', 'store', '2'], 'done 18', files={'store': bytes(18)})
        self.expect(['settings', 'add', 'store', '1', '2', '6'], 'done 18', files={'store': store_bytes([(1, 2, [6])], free=1)})

    def test_answered(self):
        self.expect(['read', 'blank.table', 'good.message', '1'], 'u32 2650')
        self.expect(['read', 'blank.table', 'good.message', '0', '0'], 'string "QZ-2026-11-0417"')
        self.expect(['read', 'blank.table', 'rubbish.message', '1', *self.STORE, '12'], 'u32 2647')
        self.expect(['settings', 'get', 'customers.store', '7', '1'], 'ignores 4 6 8')
        self.has_status(self.blink('faults'), 0)
        self.has_status(self.blink('faults', '9'), 0)
        self.has_status(self.blink('help'), 0)
        self.has_status(self.blink('version'), 0)

    def test_refused_message(self):
        for command, more in [('check', []), ('read', ['1']), ('show', []), ('dump', []), ('sheet', ['out']), ('rewrite', ['out'])]:
            self.expect([command, 'blank.table', 'dusty.message', *more], 'refused 9 at 41')
            self.expect([command, 'blank.table', 'rubbish.message', *more], 'refused 4 at 33')
            self.expect([command, 'blank.table', 'rubbish.message', *more, *self.STORE, '7'], 'refused 6 at 37')
            answer = self.expect([command, 'stale.table', 'good.message', *more], 'refused 20 at 0')
            self.assertEqual(answer.lines[2:4], ['the table: refused 37 at 80', WORDS[37]])
            self.expect([command, 'blank.table', 'good.message', *more, '--settings', 'good.message', '--customer', '7'],
                        'refused 50 at 0')

    def test_refused_otherwise(self):
        self.expect(['check', 'forgetful.table'], 'refused 36 at 176')
        self.expect(['check', 'stale.table'], 'refused 37 at 80')
        self.expect(['table', 'stale.table'], 'refused 37 at 80')
        self.expect(['read', 'blank.table', 'good.message', '5'], 'refused 28 at 0')
        self.expect(['read', 'blank.table', 'good.message', '0', '1'], 'refused 28 at 0')
        self.expect(['read', 'blank.table', 'good-no-note.message', '4'], 'refused 29 at 0')
        self.expect(['write', 'blank.table', 'cut.sheet', 'out'], 'refused 40 at %d' % (len(SHEET) - 2))
        self.expect(['write', 'stale.table', 'good.sheet', 'out'], 'refused 20 at 0')
        self.expect(['settings', 'good.message'], 'refused 50 at 0')
        self.expect(['settings', 'get', 'customers.store', '7', '9'], 'refused 59 at 0')
        self.expect(['settings', 'add', 'customers.store', '7', '1'], 'refused 50 at 45')
        self.expect(['settings', 'add', 'full.store', '9', '1'], 'refused 51 at 0')

    def test_missing_file(self):
        missing = 'missing: No such file or directory'
        for command, more in [('check', []), ('read', ['1']), ('show', []), ('dump', []), ('sheet', ['out']), ('write', ['out']),
                              ('rewrite', ['out'])]:
            self.expect([command, 'missing', 'good.message', *more], 'error', missing)
            self.expect([command, 'blank.table', 'missing', *more], 'error', missing)
            if command != 'write':
                self.expect([command, 'blank.table', 'good.message', *more, '--settings', 'missing', '--customer', '7'],
                            'error', missing)
        for arguments in [['check', 'missing'], ['table', 'missing'], ['settings', 'missing'], ['settings', 'get', 'missing', '7', '1'],
                          ['settings', 'add', 'missing', '7', '1']]:
            self.expect(arguments, 'error', missing)


class StandardOutput(Shop):
    """3. Standard output is tested: a lost answer (full device, closed pipe) is said on standard error and is status 2. Output is
    buffered: `show` of a 64 KB message makes hundreds of writes, not 2.6 million."""
    QUESTIONS = [['check', 'blank.table'], ['check', 'blank.table', 'good.message'], ['check', 'blank.table', 'dusty.message'],
                 ['check', 'blank.table', 'good.message', 'dusty.message'], ['check', 'missing'], ['table', 'blank.table'],
                 ['read', 'blank.table', 'good.message', '1'], ['show', 'blank.table', 'good.message'],
                 ['dump', 'blank.table', 'good.message'], ['tape', 'blank.table', 'shift.tape'], ['settings', 'customers.store'],
                 ['settings', 'get', 'customers.store', '7', '1'],
                 ['faults'], ['faults', '9'], ['help'], ['--help'], ['version'], ['show', 'bytes.table', 'longest.message'],
                 ['dump', 'bytes.table', 'longest.message'], ['sheet', 'blank.table', 'good.message', '-'],
                 ['sheet', 'bytes.table', 'longest.message', '-'], ['rewrite', 'blank.table', 'good.message', '/dev/stdout']]

    def setUp(self):
        super().setUp()
        self.put('bytes.table', table_bytes(BYTES))
        self.put('longest.message', message_bytes(BYTES, LONGEST))
        self.put('deep.table', table_bytes(DEEP))
        self.put('deep.message', message_bytes(DEEP, DEEPEST))

    def lost(self, reason, **how):
        for arguments in self.QUESTIONS:
            with self.subTest(arguments):
                due = folder_contents(self.folder)
                answer = self.blink(*arguments, **how)
                self.same_folder(due, str(arguments))
                self.assertIn('standard output: ' + reason, answer.err.decode())
                self.has_status(answer, 2)

    def test_full_device(self):
        with open('/dev/full', 'wb') as full:
            self.lost('No space left on device', stdout=full)

    def test_closed_pipe(self):
        reader, writer = os.pipe()
        os.close(reader)
        with open(writer, 'wb') as pipe:
            self.lost('Broken pipe', stdout=pipe, before=limited())

    def test_closed_descriptor(self):
        self.lost('Bad file descriptor', before=closing(1))

    def test_descriptor_for_reading(self):
        with open(os.devnull, 'rb') as null:
            self.lost('Bad file descriptor', stdout=null)

    def test_file_size_limit(self):
        with open(self.path('listing'), 'wb') as listing:
            answer = self.blink('show', 'bytes.table', 'longest.message', stdout=listing, before=limited(FSIZE=100000))
        self.assertIn('standard output: File too large', answer.err.decode())
        self.has_status(answer, 2)

    def test_pipe_closed_in_the_middle(self):
        """As `blink show .. | head -1` does."""
        for command in ['show', 'dump']:
            with subprocess.Popen([COMMAND['path'], command, 'bytes.table', 'longest.message'], cwd=self.folder, preexec_fn=limited(),
                                  stdout=subprocess.PIPE, stderr=subprocess.PIPE) as process:
                self.assertEqual(process.stdout.readline(), b'accepted\n')
                process.stdout.close()
                said = process.stderr.read()
                answer = Answer(process.wait(), b'', said)
            self.assertIn(b'standard output: Broken pipe', said)
            self.has_status(answer, 2)

    def test_done_but_not_said(self):
        """OUT is whole, and the status says that the answer is lost."""
        with open('/dev/full', 'wb') as full:
            answer = self.blink('sheet', 'blank.table', 'good.message', 'out', stdout=full)
        self.assertIn(self.get('out'), [SHEET])
        self.assertIn('standard output: No space left on device', answer.err.decode())
        self.has_status(answer, 2)

    def test_all_of_a_long_answer_comes(self):
        answer = self.expect(['show', 'bytes.table', 'longest.message'], 'accepted')
        self.assertTrue(answer.lines == show_lines(BYTES, LONGEST) + [''])
        answer = self.expect(['show', 'deep.table', 'deep.message'], 'accepted')
        self.assertTrue(answer.lines == show_lines(DEEP, DEEPEST) + [''])

    def test_time(self):
        """The processor's time, which others at work do not change."""
        for command in ['show', 'dump', 'check']:
            def used():
                spent = resource.getrusage(resource.RUSAGE_CHILDREN)
                return spent.ru_utime + spent.ru_stime
            start = used()
            with open(self.path('listing'), 'wb') as listing:
                self.blink(command, 'deep.table', 'deep.message', stdout=listing)
            self.assertLess(used() - start, 0.5, command)

    @needs_strace
    def test_number_of_writes(self):
        for command in ['show', 'dump']:
            trace = self.path('trace')
            try:
                self.blink(command, 'deep.table', 'deep.message', stdout=subprocess.DEVNULL, timeout=5,
                           around=['strace', '-qq', '--seccomp-bpf', '-f', '-e', 'trace=write,writev', '-o', trace])
            except subprocess.TimeoutExpired:
                pass
            self.assertLess(Path(trace).read_bytes().count(b'\n'), 1000, command)


def with_each_closed(test):
    """The test is done with each choice of the descriptors 0, 1 and 2 closed."""
    @functools.wraps(test)
    def tried(self):
        for closed in itertools.chain.from_iterable(itertools.combinations([0, 1, 2], count) for count in range(4)):
            with self.subTest(closed=closed):
                self.fresh()
                test(self, closed)
    return tried


class ClosedDescriptors(Shop):
    """1 and 3, where the caller closed 0, 1 or 2: no file gets their numbers, so none is damaged by an answer or a complaint, and the
    status is still right: 2 where the answer is lost, else that of the answer."""

    def tried(self, closed, arguments, first, files=(), before=lambda: None):
        """The answer where it can be said. Where it can't, the named files may be whole or as they were."""
        old = folder_contents(self.folder)
        new = {**old, **dict(files)}

        def prepare():
            before()
            closing(*closed)()
        answer = self.blink(*arguments, before=prepare)
        told = '%s: %s' % (arguments, answer)
        found = folder_contents(self.folder)
        self.assertTrue(found == new or (1 in closed and found == old), '%s: %s' % (told, sorted(found)))
        if 1 not in closed:
            self.assertEqual(answer.first, first, told)
        self.has_status(answer, 2 if 1 in closed else status_for(first), told)

    @with_each_closed
    def test_questions(self, closed):
        self.tried(closed, ['check', 'blank.table', 'good.message'], 'accepted')
        self.tried(closed, ['check', 'blank.table', 'dusty.message'], 'refused 9 at 41')
        self.tried(closed, ['check', 'blank.table', 'missing'], 'error')
        self.tried(closed, ['show', 'blank.table', 'good.message'], 'accepted')
        self.tried(closed, ['dump', 'blank.table', 'good.message'], 'accepted')
        self.tried(closed, ['table', 'blank.table'], 'accepted')
        self.tried(closed, ['read', 'blank.table', 'good.message', '1'], 'u32 2650')
        self.tried(closed, ['read', 'blank.table', 'good.message', 'x'], 'error')
        self.tried(closed, ['settings', 'customers.store'], 'accepted')

    @with_each_closed
    def test_saving(self, closed):
        self.remove('out')
        for _ in ['new', 'old']:
            self.tried(closed, ['sheet', 'blank.table', 'good.message', 'out'], 'done %d' % len(SHEET), {'out': SHEET})
        self.put('out', OLD)
        self.tried(closed, ['rewrite', 'blank.table', 'padded.message', 'out'], 'done 81', {'out': sample('good.message')})

    @with_each_closed
    def test_failed_saving(self, closed):
        self.put('out', OLD)
        for arguments in [['sheet', 'blank.table', 'good.message'], ['rewrite', 'blank.table', 'good.message']]:
            self.tried(closed, [*arguments, 'out'], 'error', before=limited(FSIZE=40))
            self.tried(closed, [*arguments, 'missing/out'], 'error')
            self.tried(closed, [*arguments, 'blank.table'], 'error')
            self.tried(closed, [*arguments, '/dev/full'], 'error')
        self.tried(closed, ['sheet', 'blank.table', 'dusty.message', 'out'], 'refused 9 at 41')

    @with_each_closed
    def test_settings(self, closed):
        store = store_bytes([(7, 1, [4])], free=2)
        self.put('store', store)
        self.remove('new')
        self.tried(closed, ['settings', 'add', 'store', '7', '2'], 'error', before=limited(FSIZE=10))
        self.tried(closed, ['settings', 'new', 'new', '3'], 'error', before=limited(FSIZE=10))
        self.tried(closed, ['settings', 'add', 'store', '7', '1'], 'refused 50 at 9')
        self.tried(closed, ['settings', 'add', 'store', '7', '2'], 'done 27', {'store': store_bytes([(7, 1, [4]), (7, 2, [])], 1)})
        self.tried(closed, ['settings', 'new', 'new', '3'], 'done 27', {'new': bytes(27)})

    @with_each_closed
    def test_standard_output_asked_for(self, closed):
        """The bytes go to standard output and the answer to standard error. Without the first it is an error."""
        for name in ['-', '/dev/stdout']:
            due = folder_contents(self.folder)
            answer = self.blink('sheet', 'blank.table', 'good.message', name, before=closing(*closed))
            self.same_folder(due, str(answer))
            self.assertEqual(answer.out, b'' if 1 in closed else SHEET)
            if 1 in closed:
                self.has_status(answer, 2)
            elif 2 not in closed:
                self.has_status(answer, 0)

    @with_each_closed
    def test_standard_input_asked_for(self, closed):
        """Nothing is accepted of an input that is not there."""
        if 0 in closed:
            for command in ['check', 'tape']:
                answer = self.blink(command, 'blank.table', '-', before=closing(*closed))
                self.assertNotIn(b'accepted', answer.out)
                self.assertNotEqual(answer.status, 0)


class Limits(Shop):
    """4. A file over the limit is asked about, not an error: `codec` answers 23, 42 or 30. Field and item take any decimal to 2^64 - 1
    (28 then); more is an error that names the argument. A failed first read says what failed."""
    MOST = 18446744073709551615

    def test_long_message(self):
        self.put('bytes.table', table_bytes(BYTES))
        self.put('long', message_bytes(BYTES, LONGEST))
        for command, more in [('check', []), ('read', ['0', '5']), ('show', []), ('dump', []), ('sheet', ['/dev/null']),
                              ('rewrite', ['/dev/null'])]:
            answer = self.blink(command, 'bytes.table', 'long', *more)
            self.assertNotIn(answer.first.split()[0], ['refused', 'error'])
            for length in [65537, 65540, 70000, 1048576, 1048577, 3000000]:
                self.put('longer', u32(length - 4) + u64(1) + bytes(length - 12))
                self.expect([command, 'bytes.table', 'longer', *more], 'refused 23 at 0')
            self.expect([command, 'bytes.table', '/dev/zero', *more], 'refused 23 at 0')
            self.expect([command, 'bytes.table', '-', *more], 'refused 23 at 0', stdin=bytes(65537))

    def longest_table(self):
        """4,096 records: enumerations, and the group."""
        table = Table(BYTES.groups, [list(range(256))] * 15 + [list(range(4096 - 15 * 257 - 3))])
        self.assertEqual(len(table_bytes(table)), 65536)
        return table_bytes(table)

    def test_long_table(self):
        self.put('table', self.longest_table())
        self.put('message', message_bytes(BYTES, Dynamic(0, [[1, 2, 3]])))
        self.expect(['check', 'table'], 'accepted')
        self.expect(['check', 'table', 'message'], 'accepted')
        self.assertEqual(len(self.expect(['table', 'table'], 'accepted').lines), 4096 + 2)
        for length in [65537, 65552, 100000, 3000000]:
            self.put('table', (50 * self.longest_table())[:length])
            self.expect(['check', 'table'], 'refused 30 at 0')
            self.expect(['table', 'table'], 'refused 30 at 0')
            for command, more in [('check', []), ('read', ['0']), ('show', []), ('dump', []), ('sheet', ['out']), ('write', ['out']),
                                  ('rewrite', ['out'])]:
                answer = self.expect([command, 'table', 'message', *more], 'refused 20 at 0')
                self.assertEqual(answer.lines[2:4], ['the table: refused 30 at 0', WORDS[30]])
        self.expect(['check', '/dev/zero'], 'refused 30 at 0')
        self.put('table', b'')
        self.expect(['check', 'table'], 'refused 30 at 0')
        self.expect(['check', '/dev/null'], 'refused 30 at 0')

    def test_long_sheet(self):
        self.put('bytes.table', table_bytes(BYTES))
        for length in [1048577, 1048578, 1500000, 3000000]:
            self.put('sheet', length * b'x')
            self.expect(['write', 'bytes.table', 'sheet', 'out'], 'refused 42 at 0')
        self.expect(['write', 'bytes.table', '/dev/zero', 'out'], 'refused 42 at 0')
        self.expect(['write', 'bytes.table', '-', 'out'], 'refused 42 at 0', stdin=bytes(1048577))
        self.put('sheet', 1048576 * b'x')
        self.expect(['write', 'bytes.table', 'sheet', 'out'], 'refused 41 at 0')
        self.put('sheet', sheet_bytes(BYTES, LONGEST))
        self.expect(['write', 'bytes.table', 'sheet', 'out'], 'done 65536', files={'out': message_bytes(BYTES, LONGEST)})
        self.put('sheet', sheet_bytes(BYTES, Dynamic(0, [LONGEST.values[0] + [1]])))
        self.expect(['write', 'bytes.table', 'sheet', 'out'], 'refused 47 at 0')

    def test_long_store(self):
        """No fault says that a store is too long, so it is an error."""
        under = ['--settings', 'store', '--customer', '7']
        self.put('store', bytes(65536))
        self.expect(['settings', 'store'], 'accepted')
        self.expect(['check', 'blank.table', 'good.message', *under], 'accepted')
        for length in [65537, 65538, 3000000]:
            self.put('store', bytes(length))
            for arguments in [['settings', 'store'], ['settings', 'get', 'store', '7', '1'], ['settings', 'add', 'store', '7', '1'],
                              ['check', 'blank.table', 'good.message', *under]]:
                self.assertTrue(self.expect(arguments, 'error').complaints[0].startswith('blink: store: '))
        self.expect(['check', 'blank.table', 'good.message', '--settings', '/dev/zero', '--customer', '7'], 'error')

    def test_field_and_item(self):
        for number in [5, 64, 255, 256, 65536, 2 ** 31, 2 ** 32, 2 ** 32 + 1, 999999999, 1000000000, 2 ** 63, self.MOST - 1, self.MOST]:
            self.expect(['read', 'blank.table', 'good.message', str(number)], 'refused 28 at 0')
            self.expect(['read', 'blank.table', 'good.message', '1', str(number)], 'refused 28 at 0')
            self.expect(['read', 'blank.table', 'good.message', str(number), str(number)], 'refused 28 at 0')
        for number in ['1', '01', '0000000000000001', '1'.rjust(40, '0')]:
            self.expect(['read', 'blank.table', 'good.message', number], 'u32 2650')
            self.expect(['read', 'blank.table', 'good.message', '1', number.replace('1', '0')], 'u32 2650')

    def test_field_and_item_that_are_none(self):
        for number in [self.MOST + 1, self.MOST + 2, 2 ** 65, 10 ** 20, 10 ** 30, 10 ** 300, 2 ** 64 + 2 ** 32, 'abc', '-1', '+1', '1x',
                       '0x1', '1.0', ' 1', '1 ', '', '1e3', '/', ':', '\u0663']:
            reason = '%s is not a number from 0 to 18446744073709551615' % number
            self.expect(['read', 'blank.table', 'good.message', str(number)], 'error', 'FIELD: ' + reason)
            self.expect(['read', 'blank.table', 'good.message', '1', str(number)], 'error', 'ITEM: ' + reason)

    def test_folder_as_input(self):
        os.mkdir(self.path('folder'))
        reason = 'folder: Is a directory'
        for command, more in [('check', []), ('read', ['1']), ('show', []), ('dump', []), ('tape', []), ('sheet', ['out']),
                              ('write', ['out']), ('rewrite', ['out'])]:
            self.expect([command, 'folder', 'good.message', *more], 'error', reason)
            self.expect([command, 'blank.table', 'folder', *more], 'error', reason)
        self.expect(['check', 'folder'], 'error', reason)
        self.expect(['table', 'folder'], 'error', reason)
        self.expect(['settings', 'folder'], 'error', reason)
        self.expect(['settings', 'get', 'folder', '1', '1'], 'error', reason)
        self.expect(['settings', 'add', 'folder', '1', '1'], 'error', reason)
        self.expect(['check', 'blank.table', 'good.message', '--settings', 'folder', '--customer', '1'], 'error', reason)

    def test_inputs_that_are_no_files(self):
        """Pipes with a name, that may come in pieces."""
        os.mkfifo(self.path('fifo'))
        pieces = '(head -c 20 good.message; sleep 0.05; tail -c +21 good.message) > fifo'
        for command in ['check', 'show']:
            with subprocess.Popen(['sh', '-c', pieces], cwd=self.folder):
                self.expect([command, 'blank.table', 'fifo'], 'accepted')
        self.expect(['check', 'blank.table', '/dev/stdin'], 'accepted', stdin=sample('good.message'))
        self.expect(['check', '/dev/fd/0', 'good.message'], 'accepted', stdin=sample('blank.table'))

    def test_long_names(self):
        self.expect(['check', 'blank.table', 256 * 'n'], 'error', 256 * 'n' + ': File name too long')
        answer = self.expect(['check', 'blank.table', 5000 * 'n'], 'error')
        self.assertIn('File name too long', answer.complaints[0])


class Text(Shop):
    """5. Text for people shows invisible and direction characters (U+200B to U+200F, U+2028 to U+202E, U+2066 to U+2069, FEFF, 061C
    and control characters) as their numbers, so that no barcode looks like another."""
    ONE = Table([Group(1, [Field(STRING)])])
    MANY = Table([Group(1, [Field(STRING, sequence=True)])])

    def setUp(self):
        super().setUp()
        self.put('one', table_bytes(self.ONE))
        self.put('many', table_bytes(self.MANY))

    def shown(self, texts):
        """Each of them as `show` has it."""
        self.put('message', message_bytes(self.MANY, Dynamic(0, [texts])))
        answer = self.expect(['show', 'many', 'message'], 'accepted')
        lines = answer.out.decode().split('\n')
        self.assertEqual(lines[1:3] + lines[-1:], ['group 1', '  0 string sequence of %d' % len(texts), ''])
        return [re.sub(r'^  0\[\d+\] string ', '', line) for line in lines[3:-1]]

    def test_each_hidden_character(self):
        codes = [code for first, last in HIDDEN for code in range(first, last + 1) if not 0xd800 <= code <= 0xdfff]
        self.assertEqual(self.shown(['a%cb' % code for code in codes]), ['"a\\u{%x}b"' % code for code in codes])

    def test_characters_beside_them(self):
        codes = sorted({code for first, last in HIDDEN for code in [first - 1, last + 1]} - {-1, 0xd7ff + 1, 0xdfff})
        codes = [code for code in codes if not any(first <= code <= last for first, last in HIDDEN)]
        due = {ord('"'): '"\\""', ord('\\'): '"\\\\"'}
        self.assertEqual(self.shown([chr(code) for code in codes]), [due.get(code, '"%c"' % code) for code in codes])

    def test_halves(self):
        """Text by document 01's forms, but no characters."""
        codes = [0xd800, 0xd801, 0xdbff, 0xdc00, 0xdfff]
        self.assertEqual(self.shown([chr(code) for code in codes]), ['"\\u{%x}"' % code for code in codes])
        self.assertEqual(self.shown(['\ud83d\udc8e']), ['"\\u{d83d}\\u{dc8e}"'])

    def test_quotes(self):
        texts = ['', '"', '\\', '\\"', 'a"b', '\\u{200b}', '\u200b', '\\\u200b', '"\\"', "'", '\t', '\\t', '\n', '\r\n', '\0', '\x1b[31m']
        self.assertEqual(self.shown(texts), [quoted(text) for text in texts])

    def test_every_character(self):
        """16,000 to a message."""
        codes = [code for code in range(0x110000) if not 0xd800 <= code <= 0xdfff]
        for start in range(0, len(codes), 16000):
            text = ''.join(map(chr, codes[start:start + 16000]))
            self.put('message', message_bytes(self.ONE, Dynamic(0, [text])))
            answer = self.blink('show', 'one', 'message')
            self.assertTrue(answer.out.decode() == 'accepted\ngroup 1\n  0 string %s\n' % quoted(text), 'from U+%x on' % codes[start])
            answer = self.blink('read', 'one', 'message', '0')
            self.assertTrue(answer.out.decode() == 'string %s\n' % quoted(text), 'from U+%x on' % codes[start])

    def test_different_texts_are_shown_differently(self):
        """What is shown can be read back."""
        def meant(shown):
            return re.sub(r'\\(?:u\{([0-9a-f]+)\}|(.))', lambda found: chr(int(found[1], 16)) if found[1] else found[2], shown[1:-1])
        chance = random.Random(21)
        texts = [''.join(chance.choice('\\\\"u{}x20b\u200b\u200e\u202e\ufeff\n\0 a\u00e4') for _ in range(chance.randrange(12)))
                 for _ in range(2000)]
        shown = self.shown(texts)
        self.assertEqual([meant(line) for line in shown], texts)
        self.assertEqual(len(set(shown)), len(set(texts)))
        self.assertEqual([line for line in shown if not line.isprintable()], [])

    def test_in_every_place(self):
        """Inline, in static, dynamic and extension groups."""
        odd = 'a\u200b"'
        table = Table([Group(None, [Field(STRING), Field(STRING, size=9)]), Group(1, [Field(STRING, size=9), Field(STATIC, reference=0),
                                                                                       Field(OBJECT, optional=True)])])
        inner = Dynamic(1, [odd, [odd, odd], None])
        message = Dynamic(1, [odd, [odd, odd], inner], [inner])
        self.put('table', table_bytes(table))
        self.put('message', message_bytes(table, message))
        self.assertEqual(self.blink('show', 'table', 'message').lines, show_lines(table, message) + [''])
        self.expect(['read', 'table', 'message', '0'], 'string ' + quoted(odd))

    def test_file_names_in_answers(self):
        names = ['two words', 'a\u200bb', 'a"b', 'a\\b', '\u00e4', 'x\u202ey', 'line\nend', '\x1b[31m']
        names = [name.encode() for name in names] + [b'\xff', b'a\xc3', b'\xe2\x80.b']
        for name in names:
            Path(os.path.join(self.folder.encode(), name).decode('utf-8', 'surrogateescape')).write_bytes(sample('good.message'))
        answer = run(['check', 'blank.table', *names], self.folder)
        self.assertEqual(answer.out.decode(), ''.join('%s: accepted\n' % file_name(name) for name in names))
        self.has_status(answer, 0)


class Values(Shop):
    """5. Dates, times and f64 are shown as people read them, with the raw number beside; `read` and `show` name a type alike;
    extension groups are indented below their line."""

    def compare(self, kind, values):
        """As `show` has a sequence of them, and `read` the first and the last."""
        table = Table([Group(1, [Field(kind, sequence=True)])])
        self.put('table', table_bytes(table))
        width = item_width(table, Field(kind))
        for start in range(0, len(values), 65000 // width):
            part = values[start:start + 65000 // width]
            self.put('message', message_bytes(table, Dynamic(0, [part])))
            answer = self.expect(['show', 'table', 'message'], 'accepted')
            for line, value in zip(answer.lines[3:], part):
                self.assertEqual(line.partition('] ')[2], value_text(kind, value))
            self.assertEqual(len(answer.lines), len(part) + 4)
            for at in [0, len(part) - 1]:
                self.expect(['read', 'table', 'message', '0', str(at)], value_text(kind, part[at]))

    def test_examples(self):
        """Those of the command's page, word for word."""
        for kind, value, due in [(U32, 2650, 'u32 2650'), (BOOL, True, 'bool true'), (DECIMAL, (1234, -2), 'decimal 1234e-2'),
                                 (DATE, 9817, 'date 2026-11-17 (9817)'),
                                 (MILLITIME, 1794904200123, 'millitime 2026-11-17T08:30:00.123Z (1794904200123)'),
                                 (NANOTIME, 1794904200123456789, 'nanotime 2026-11-17T08:30:00.123456789Z (1794904200123456789)'),
                                 (MILLI_OF_DAY, 30600123, 'timeOfDayMilli 08:30:00.123 (30600123)'),
                                 (NANO_OF_DAY, 30600123456789, 'timeOfDayNano 08:30:00.123456789 (30600123456789)'),
                                 (F64, float_bits(2650.5), 'f64 2650.5 (40a4b50000000000)'),
                                 (F64, 0x7ff8000000000000, 'f64 nan (7ff8000000000000)'),
                                 (F64, float_bits(-0.0), 'f64 -0 (8000000000000000)'),
                                 (F64, float_bits(math.inf), 'f64 inf (7ff0000000000000)'),
                                 (F64, float_bits(-math.inf), 'f64 -inf (fff0000000000000)'),
                                 (F64, float_bits(1.0), 'f64 1 (3ff0000000000000)'),
                                 (F64, float_bits(1e300), 'f64 1e300 (7e37e43c8800759c)'),
                                 (F64, float_bits(1.5e-7), 'f64 1.5e-7 (3e8421f5f40d8376)'),
                                 (DATE, -1, 'date 1999-12-31 (-1)'), (DATE, -746401, 'date -0044-06-04 (-746401)'),
                                 (DATE, 3778591, 'date +12345-06-07 (3778591)')]:
            self.assertEqual(value_text(kind, value), due)
            self.compare(kind, [value])

    def test_dates(self):
        """Each day of 1999 to 2004 and of some turns of centuries, the ends of the years 0 and 9999, and days far away."""
        turns = [730119 - 365 * 4 + n for n in range(-800, 800)] + [day for year in range(-900, 1100, 100)
                                                                  for day in range(int(year * 365.2425) - 3, int(year * 365.2425) + 70)]
        ends = [first + n for first in (-730485, -730120, -730119, 2921940, 2921939, 2922305) for n in range(-2, 3)]
        chance = random.Random(1)
        far = [chance.randrange(-2 ** 31, 2 ** 31) for _ in range(5000)] + [-2 ** 31, 2 ** 31 - 1]
        near = [chance.randrange(-800000, 3000000) for _ in range(5000)]
        self.compare(DATE, list(range(-400, 1900)) + turns + ends + far + near)

    def test_times(self):
        chance = random.Random(2)
        for kind, digits in [(MILLITIME, 3), (NANOTIME, 9)]:
            unit = 10 ** digits
            edges = [days * 86400 * unit + n for days in (-1, 0, 1, 10957, 11016, 11017, -719162, -719528, -719529)
                     for n in (-unit, -1, 0, 1, unit - 1, unit)]
            edges += [-2 ** 63, -2 ** 63 + 1, 2 ** 63 - 1]
            edges += [2932896 * 86400 * unit + n for n in (-1, 0, 1)] if digits == 3 else []
            values = [n for n in edges if -2 ** 63 <= n < 2 ** 63]
            values += [chance.randrange(-2 ** bits, 2 ** bits) for bits in (20, 40, 50, 60, 63) for _ in range(1000)]
            self.compare(kind, values)

    def test_times_of_day(self):
        chance = random.Random(3)
        for kind, most in [(MILLI_OF_DAY, 86400 * 10 ** 3), (NANO_OF_DAY, 86400 * 10 ** 9)]:
            second = most // 86400
            edges = [0, 1, second - 1, second, 60 * second - 1, 60 * second, 3600 * second - 1, 3600 * second, most - 1]
            self.compare(kind, edges + [chance.randrange(most) for _ in range(3000)])

    def test_floats(self):
        """Beside Python's repr: powers, neighbours, short decimals, the smallest and random bits."""
        chance = random.Random(4)
        powers = [float_bits(2.0 ** n) + d for n in range(-1074, 1024) for d in (-1, 0, 1)]
        tens = [float_bits(float('%de%d' % (digit, n))) for n in range(-320, 309) for digit in (1, 9)]
        short = [float_bits(chance.randrange(10 ** 6) / 10 ** chance.randrange(8)) for _ in range(2000)]
        whole = [float_bits(float(n)) for n in [0, 1, 10, 2 ** 53 - 1, 2 ** 53, 10 ** 15, 10 ** 16, 10 ** 17, 123456789012345680]]
        edges = [0, 1, 2, 3, 0xfffffffffffff, 0x10000000000000, 0x7fefffffffffffff, 0x7ff0000000000000, 0x7ff0000000000001,
                 0x7fffffffffffffff, 0xffffffffffffffff, 0xfff8000000000000, 1 << 63]
        dense = [chance.getrandbits(64) for _ in range(8000)]
        self.compare(F64, [bits for bits in powers + tens + short + whole + edges if 0 <= bits] + dense)

    def test_numbers(self):
        for unsigned, signed, bits in [(U8, I8, 8), (U16, I16, 16), (U32, I32, 32), (U64, I64, 64)]:
            for kind, low, high in [(unsigned, 0, 2 ** bits), (signed, -2 ** (bits - 1), 2 ** (bits - 1))]:
                self.compare(kind, [low, low + 1, 0, 1, 9, 10, 99, 100, high - 2, high - 1])
        self.compare(DECIMAL, [(0, 0), (1, 1), (10, 0), (-1, -1), (2 ** 63 - 1, 127), (-2 ** 63, -128)])
        self.compare(BOOL, [True, False])

    def test_every_type(self):
        """All that `show` says, line by line, and the same words from `read`."""
        self.put('table', table_bytes(TYPES))
        for message in TYPED:
            self.put('message', message_bytes(TYPES, message))
            answer = self.expect(['show', 'table', 'message'], 'accepted')
            self.assertEqual(answer.lines, show_lines(TYPES, message) + [''])
            for number, (field, value) in enumerate(zip(TYPES.groups[message.group].fields, message.values)):
                for at, item in enumerate((value or []) if field.sequence else [value]):
                    if item is not None and field.type < STATIC:
                        self.expect(['read', 'table', 'message', str(number), str(at)], value_text(field.type, item))

    def test_groups_by_read(self):
        self.put('table', table_bytes(TYPES))
        self.put('message', message_bytes(TYPES, TYPED[0]))
        inner = message_bytes(TYPES, Dynamic(1, [-1])).hex()
        self.expect(['read', 'table', 'message', '22'], 'refused 48 at 0')
        self.expect(['read', 'table', 'message', '23'], 'dynamic group ' + inner)
        self.expect(['read', 'table', 'message', '24'], 'object ' + inner)

    def test_extension(self):
        table = Table([Group(1, [Field(U8)])])
        inner = Dynamic(0, [2], [Dynamic(0, [3]), u32(12) + u64(9) + u32(0)])
        self.put('table', table_bytes(table))
        self.put('message', message_bytes(table, Dynamic(0, [1], [inner, Dynamic(0, [4])])))
        answer = self.expect(['show', 'table', 'message'], 'accepted')
        self.assertEqual(answer.lines, ['accepted', 'group 1', '  0 u8 1', '  extension of 2', '    group 1', '      0 u8 2',
                                        '      extension of 2', '        group 1', '          0 u8 3',
                                        '        unknown group 090000000000000000000000', '    group 1', '      0 u8 4', ''])


class SameFile(Shop):
    """6. OUT that is the TABLE or MESSAGE by device and inode: decided and written down, and the table is never overwritten silently."""

    def setUp(self):
        super().setUp()
        self.put('padded.sheet', SHEET)
        os.mkdir(self.path('folder'))

    def names_of(self, name):
        """The same file by other names."""
        for other in ['hard', 'soft', 'far']:
            self.remove(other)
        os.link(self.path(name), self.path('hard'))
        os.symlink(name, self.path('soft'))
        os.symlink('folder/../soft', self.path('far'))
        return [name, './' + name, 'folder/../' + name, self.path(name), 'hard', 'soft', 'far']

    def test_table(self):
        for arguments in [['sheet', 'blank.table', 'good.message'], ['write', 'blank.table', 'padded.sheet'],
                          ['rewrite', 'blank.table', 'good.message']]:
            for name in self.names_of('blank.table'):
                answer = self.expect([*arguments, name], 'error')
                self.assertTrue(answer.complaints[0].startswith('blink: %s: ' % name), answer)

    def test_table_from_standard_input(self):
        for arguments in [['sheet', '-', 'good.message'], ['write', '-', 'padded.sheet'], ['rewrite', '-', 'good.message']]:
            with open(self.path('blank.table'), 'rb') as table:
                self.expect([*arguments, 'blank.table'], 'error', stdin=table)

    def test_store(self):
        under = ['--settings', 'customers.store', '--customer', '12']
        for command in ['sheet', 'rewrite']:
            for name in self.names_of('customers.store'):
                self.expect([command, 'blank.table', 'good.message', name, *under], 'error')

    def test_message_of_a_sheet(self):
        for name in self.names_of('good.message'):
            self.expect(['sheet', 'blank.table', 'good.message', name], 'error')

    def test_sheet_of_a_message(self):
        for name in self.names_of('padded.sheet'):
            self.expect(['write', 'blank.table', 'padded.sheet', name], 'error')

    def test_rewriting_in_place(self):
        good = sample('good.message')
        for name in ['padded.message', './padded.message', 'soft', 'far']:
            self.put('padded.message', sample('padded.message'), 0o640)
            self.names_of('padded.message')
            self.remove('hard')
            self.expect(['rewrite', 'blank.table', 'padded.message', name], 'done 81', files={'padded.message': good})
            self.assertEqual(self.mode('padded.message'), 0o640)
        self.expect(['rewrite', 'blank.table', 'dusty.message', 'dusty.message'], 'refused 9 at 41')
        self.put('padded.message', sample('padded.message'))
        self.expect(['rewrite', 'blank.table', 'padded.message', 'padded.message'], 'error', before=limited(FSIZE=80))

    def test_refusals_come_before_or_after_but_nothing_is_written(self):
        due = folder_contents(self.folder)
        answer = self.blink('sheet', 'blank.table', 'dusty.message', 'blank.table')
        self.same_folder(due, str(answer))
        self.assertIn(answer.first, ['error', 'refused 9 at 41'])


class Stack(Shop):
    """6. The command's own stack is under 1 MB."""
    MOST = 1 << 20

    def deepest(self):
        """Eight levels of groups, each with static groups four deep."""
        groups = [Group(None, [Field(U8)])]
        groups += [Group(None, [Field(STATIC, reference=n), Field(STRING)]) for n in range(4)]
        groups[4] = Group(1, [Field(STATIC, reference=3), Field(STATIC, sequence=True, reference=3), Field(OBJECT, sequence=True)])
        static = [7]
        for n in range(3):
            static = [static, 'depth %d' % n]
        message = Dynamic(4, [static, [static], []])
        for _ in range(7):
            message = Dynamic(4, [static, 3 * [static], [message]], [message] if len(message.values[2]) == 0 else [])
        return Table(groups), message

    def test_all_commands(self):
        before = limited(STACK=self.MOST)
        table, message = self.deepest()
        wide = Table(BYTES.groups, [list(range(256))] * 15 + [list(range(4096 - 15 * 257 - 3))])
        self.put('deep.table', table_bytes(table))
        self.put('deep.message', message_bytes(table, message))
        self.put('bytes.table', table_bytes(wide))
        self.put('longest.message', message_bytes(BYTES, LONGEST))
        self.put('longest.store', store_bytes([(n, 1, [6]) for n in range(7281)]))
        self.put('almost.store', store_bytes([(n, 1, [6]) for n in range(7280)], free=1))
        for kind, table, message in [('deep', table, message), ('bytes', BYTES, LONGEST)]:
            names = [kind + '.table', 'deep.message' if kind == 'deep' else 'longest.message']
            sheet = sheet_bytes(table, message)
            self.put('sheet', sheet)
            length = len(self.get(names[1]))
            for more in [[], ['--settings', 'longest.store', '--customer', '9']]:
                for command in ['check', 'show', 'dump']:
                    with self.subTest(command, table=kind):
                        self.expect([command, *names, *more], 'accepted', before=before)
                with self.subTest('sheet', table=kind):
                    self.expect(['sheet', *names, 'out', *more], 'done %d' % len(sheet), files={'out': sheet}, before=before)
                with self.subTest('rewrite', table=kind):
                    self.expect(['rewrite', *names, 'out', *more], 'done %d' % length, files={'out': self.get(names[1])}, before=before)
            with self.subTest('write', table=kind):
                self.expect(['write', names[0], 'sheet', 'out'], 'done %d' % length, files={'out': self.get(names[1])}, before=before)
            with self.subTest('table', table=kind):
                self.expect(['check', names[0]], 'accepted', before=before)
                self.expect(['table', names[0]], 'accepted', before=before)
            with self.subTest('several', table=kind):
                answer = self.blink('check', names[0], *4 * [names[1]], before=before)
                self.assertEqual(answer.lines, 4 * [names[1] + ': accepted'] + [''])
            with self.subTest('tape', table=kind):
                self.put('tape', 3 * self.get(names[1]))
                for more in [[], ['--settings', 'longest.store', '--customer', '9']]:
                    answer = self.blink('tape', names[0], 'tape', *more, before=before)
                    self.assertEqual(answer.lines[-2:], ['3 messages: 3 accepted, 0 refused', ''])
        with self.subTest('read'):
            self.expect(['read', 'bytes.table', 'longest.message', '0', '65511'], 'u8 %d' % LONGEST.values[0][-1], before=before)
        with self.subTest('settings'):
            self.expect(['settings', 'longest.store'], 'accepted', before=before)
            self.expect(['settings', 'get', 'longest.store', '7280', '1'], 'ignores 6', before=before)
            self.expect(['settings', 'add', 'longest.store', '1', '2'], 'refused 51 at 0', before=before)
            self.expect(['settings', 'add', 'almost.store', '7280', '1', '6'], 'done 65529',
                        files={'almost.store': self.get('longest.store')}, before=before)
            self.expect(['settings', 'new', 'new', '7281'], 'done 65529', files={'new': bytes(65529)}, before=before)
        for arguments in [['faults'], ['faults', '9'], ['help'], ['version']]:
            with self.subTest(arguments):
                self.has_status(self.blink(*arguments, before=before), 0)


class TableAlone(Shop):
    """7. `blink check TABLE` (a table alone), `blink table TABLE`: the table as text, a line a record: enumerations with their symbols,
    groups with number, id, super, width, fields with type, flags, size, reference."""

    def test_check(self):
        for name in ['blank.table', 'widths.table']:
            answer = self.expect(['check', name], 'accepted')
            self.assertEqual(answer.out, b'accepted\n')
        for name, first, around in [('stale.table', 'refused 37 at 80', 'bytes from 72: %s [47] 57 01 00 00 00 00 00'),
                                    ('forgetful.table', 'refused 36 at 176', 'bytes from 168: %s [47] 52 02 00 00 00 00 00')]:
            answer = self.expect(['check', name], first)
            self.assertIn(around % '00 00 00 00 00 00 00 00', answer.lines[2])

    def test_each_fault(self):
        """One table for each of 30 to 37."""
        good, stored = table_bytes(BLANK), table_bytes(BLANK, widths=True)

        def changed(at, *values):
            return good[:at] + bytes(values) + good[at + len(values):]
        wide = Table([Group(1, [Field(FIXED, size=255)] * 17)])
        for table, number, place in [(b'', 30, 0), (good[:-1], 30, 0), (good + b'\0', 30, 0), (b'XX' + good[2:], 31, 0),
                                     (good[:-16], 31, 160), (good + bytes(16), 31, 176), (changed(2, 0, 0), 31, 0), (changed(15, 1), 32, 0),
                                     (changed(99, 2), 32, 96), (changed(98, 24), 33, 96), (changed(98, 0), 33, 96),
                                     (changed(150, 1), 33, 144), (changed(34, 0), 34, 32), (table_bytes(wide), 35, 0),
                                     (sample('forgetful.table'), 36, 176), (stored[:94] + b'\x10' + stored[95:], 37, 80),
                                     (stored + good[80:], 31, 176)]:
            first = 'refused %d at %d' % (number, place)
            self.put('table', table)
            self.expect(['check', 'table'], first)
            self.expect(['table', 'table'], first)
            answer = self.expect(['check', 'table', 'good.message'], 'refused 20 at 0')
            self.assertEqual(answer.lines[2], 'the table: ' + first)

    def record_lines(self, table, widths=False):
        self.put('table', table_bytes(table, widths))
        answer = self.expect(['table', 'table'], 'accepted')
        lines = answer.lines[1:-1]
        self.assertEqual(len(lines), len(table_bytes(table)) // 16, 'a line a record')
        self.assertEqual([line for line in lines if not line.strip()], [])
        return lines

    def has_numbers(self, line, *numbers):
        """The line has these numbers, wherever they stand."""
        found = [int(number) for number in re.findall(r'(?<![\w-])-?\d+\b', line)]
        for number in numbers:
            self.assertIn(number, found, line)
            found.remove(number)

    def test_a_line_a_record(self):
        for table in [BLANK, TYPES, BYTES]:
            for widths in [False, True]:
                lines = iter(self.record_lines(table, widths))
                for number, symbols in enumerate(table.enumerations):
                    line = next(lines)
                    self.assertIn('enumeration', line)
                    self.has_numbers(line, number)
                    for symbol in symbols:
                        self.has_numbers(next(lines), symbol)
                for number, group in enumerate(table.groups):
                    line = next(lines)
                    self.assertIn('group', line)
                    self.has_numbers(line, number, group_width(table, number), *[] if group.type_id is None else [group.type_id],
                                     *[] if group.above is None else [group.above])
                    for at, field in enumerate(group.fields):
                        line = next(lines)
                        self.assertIn(NAMES[field.type], line)
                        self.assertEqual(('optional' in line, 'sequence' in line), (field.optional, field.sequence), line)
                        self.has_numbers(line, at, *[field.size] if field.size else [],
                                         *[field.reference] if field.type in (ENUMERATION, STATIC, DYNAMIC) else [])

    def test_samples(self):
        for name in ['blank.table', 'widths.table']:
            answer = self.expect(['table', name], 'accepted')
            self.assertEqual(len(answer.lines), len(sample(name)) // 16 + 2)


def dump_runs(lines):
    """The runs of a dump, each with its place, its bytes, the place that is marked (or None) and what it is."""
    runs = []
    for line in lines:
        found = re.fullmatch(r' *(\d+)  (\[?[0-9a-f]{2}\]?(?: \[?[0-9a-f]{2}\]?)*)(?: *|  +(\S.*))', line)
        if found:
            words = found[2].split(' ')
            marked = [int(found[1]) + at for at, word in enumerate(words) if word.startswith('[')]
            runs.append((int(found[1]), bytes.fromhex(''.join(words).replace('[', '').replace(']', '')), marked, found[3] or ''))
    return runs


class Dump(Shop):
    """7. `blink dump TABLE MESSAGE`: the message byte by byte, each run of bytes with what it is (size, type id, offset to .., field 2
    u32, text, pad), and on a refusal up to the faulty byte, which is marked, with the field that it belongs to."""

    def whole(self, arguments, message):
        """Every byte of the message comes once and in order, and every line says what it is or goes on with the line before."""
        answer = self.expect(['dump', *arguments], 'accepted')
        runs = dump_runs(answer.lines)
        at = 0
        for place, run_bytes, marked, _ in runs:
            self.assertEqual((place, marked), (at, []), answer)
            at += len(run_bytes)
        self.assertTrue(b''.join(run_bytes for _, run_bytes, _, _ in runs) == message, answer)
        self.assertEqual(len(runs), len(answer.lines) - 2, 'a line that is no run of bytes: %s' % (answer,))
        return runs

    def test_samples(self):
        for name in ['good.message', 'good-no-note.message', 'padded.message']:
            for table in ['blank.table', 'widths.table']:
                self.whole([table, name], sample(name))
        self.whole(['blank.table', 'rubbish.message', '--settings', 'customers.store', '--customer', '12'], sample('rubbish.message'))

    def test_every_type(self):
        self.put('table', table_bytes(TYPES))
        for message in TYPED:
            self.put('message', message_bytes(TYPES, message))
            self.whole(['table', 'message'], message_bytes(TYPES, message))

    def test_longest(self):
        self.put('table', table_bytes(BYTES))
        self.put('message', message_bytes(BYTES, LONGEST))
        self.whole(['table', 'message'], message_bytes(BYTES, LONGEST))

    def test_what_the_bytes_are(self):
        labels = {place: label for place, _, _, label in self.whole(['blank.table', 'padded.message'], sample('padded.message'))}
        for place, words in {0: ['size', '84'], 4: ['type id', '1'], 12: ['extension'], 16: ['field 0', 'string', 'offset', '69'],
                             20: ['field 1', 'u32'], 24: ['field 2', 'u32'], 28: ['field 3', 'enumeration'], 37: ['pad'],
                             40: ['field 4', 'string', '21'], 44: ['field 4', 'text'], 65: ['pad'], 69: ['field 0', 'string', '15'],
                             73: ['field 0', 'text']}.items():
            self.assertIn(place, labels)
            for word in words:
                self.assertIn(word, labels[place])

    def refused(self, table, message, first):
        self.put('message', message)
        answer = self.expect(['dump', table, 'message'], first)
        runs = dump_runs(answer.lines)
        shown = b''.join(run_bytes for _, run_bytes, _, _ in runs)
        self.assertEqual(shown, message[:len(shown)], answer)
        return runs, [place for _, _, marked, _ in runs for place in marked], answer

    def test_the_faulty_byte_is_marked(self):
        good, padded = sample('good.message'), sample('padded.message')
        for message, number, place in [(sample('dusty.message'), 9, 41), (sample('rubbish.message'), 4, 33),
                                       (good[:28] + b'\x09' + good[29:], 10, 28), (good[:32] + b'\x02' + good[33:], 11, 32),
                                       (good[:16] + b'\xff' + good[17:], 5, 16), (padded[:38] + b'x' + padded[39:], 6, 38),
                                       (good[:37] + b'\xff' + good[38:], 26, 37), (good[:4] + b'\x02' + good[5:], 2, 0)]:
            with self.subTest(number=number):
                runs, marked, answer = self.refused('blank.table', message, 'refused %d at %d' % (number, place))
                self.assertEqual(marked, [place], answer)

    def test_its_field_is_named(self):
        runs, _, answer = self.refused('blank.table', sample('dusty.message'), 'refused 9 at 41')
        self.assertIn('field 0', ' '.join(label for _, _, marked, label in runs if marked), answer)
        runs, _, answer = self.refused('blank.table', sample('rubbish.message'), 'refused 4 at 33')
        self.assertIn('field 4', ' '.join(label for _, _, marked, label in runs if marked), answer)


class Dash(Shop):
    """8. `-` is standard input, or standard output with the answer's line on standard error."""

    def setUp(self):
        super().setUp()
        self.put('good.sheet', SHEET)

    def test_input(self):
        for command, more, first in [('check', [], 'accepted'), ('read', ['1'], 'u32 2650'), ('show', [], 'accepted'),
                                     ('dump', [], 'accepted')]:
            plain = self.blink(command, 'blank.table', 'good.message', *more).out
            for arguments, name in [(['-', 'good.message'], 'blank.table'), (['blank.table', '-'], 'good.message')]:
                answer = self.expect([command, *arguments, *more], first, stdin=sample(name))
                self.assertEqual(answer.out, plain)
        self.expect(['check', '-'], 'accepted', stdin=sample('blank.table'))
        self.expect(['table', '-'], 'accepted', stdin=sample('blank.table'))
        self.expect(['check', 'blank.table', '-'], 'refused 9 at 41', stdin=sample('dusty.message'))
        self.expect(['check', 'blank.table', '-'], 'refused 22 at 0', stdin=b'')
        self.expect(['check', 'blank.table', 'rubbish.message', '--settings', '-', '--customer', '12'], 'accepted',
                    stdin=sample('customers.store'))
        self.expect(['write', 'blank.table', '-', 'out'], 'done 81', files={'out': sample('good.message')}, stdin=SHEET)
        self.expect(['sheet', 'blank.table', '-', 'out'], 'done %d' % len(SHEET), files={'out': SHEET}, stdin=sample('good.message'))

    def test_input_in_pieces(self):
        with subprocess.Popen(['sh', '-c', 'head -c 20 good.message; sleep 0.05; tail -c +21 good.message'], cwd=self.folder,
                              stdout=subprocess.PIPE) as feeder:
            self.expect(['check', 'blank.table', '-'], 'accepted', stdin=feeder.stdout)

    def test_asked_for_twice(self):
        reason = '-: standard input is asked for twice'
        for line in ['check - -', 'check blank.table - -', 'check - good.message -', 'read - - 1', 'show - -', 'dump - -', 'tape - -',
                     'sheet - - out', 'write - - out', 'rewrite - - out', 'check blank.table - --settings - --customer 7',
                     'check - good.message --settings - --customer 7', 'tape blank.table - --settings - --customer 7']:
            self.expect(line.split(), 'error', reason, stdin=sample('good.message'))

    def test_output(self):
        good = sample('good.message')
        for line, due in [('sheet blank.table good.message -', SHEET), ('write blank.table good.sheet -', good),
                          ('rewrite blank.table padded.message -', good)]:
            answer = self.blink(*line.split())
            self.assertEqual((answer.out, answer.complaints), (due, ['done %d' % len(due)]))
            self.has_status(answer, 0)
            self.assertFalse(os.path.lexists(self.path('-')))

    def test_refusal_and_error_on_standard_error(self):
        self.put('cut.sheet', SHEET[:-1])
        for line, first in [('sheet blank.table dusty.message -', 'refused 9 at 41'),
                            ('rewrite stale.table good.message -', 'refused 20 at 0'),
                            ('write blank.table cut.sheet -', 'refused 40 at %d' % (len(SHEET) - 2))]:
            answer = self.blink(*line.split())
            self.assertEqual((answer.out, answer.complaints[0]), (b'', first))
            self.assertEqual(answer.complaints[1], WORDS[int(first.split()[1])])
            self.has_status(answer, 1)
        answer = self.blink('sheet', 'blank.table', 'missing', '-')
        self.assertEqual(answer.out, b'')
        self.assertLessEqual({'error', 'blink: missing: No such file or directory'}, set(answer.complaints))
        self.has_status(answer, 2)

    def test_pipeline(self):
        line = '"$0" sheet blank.table - - < padded.message 2> said | "$0" write blank.table - - 2> said.too | "$0" check blank.table -'
        done = subprocess.run(['sh', '-c', line, COMMAND['path']], cwd=self.folder, capture_output=True)
        self.assertEqual((done.stdout, done.stderr), (b'accepted\n', b''))
        self.assertEqual((self.get('said'), self.get('said.too')), (b'done %d\n' % len(SHEET), b'done 81\n'))

    def test_file_of_that_name(self):
        self.put('-', sample('good.message'))
        self.expect(['check', 'blank.table', './-'], 'accepted')
        self.expect(['sheet', 'blank.table', './-', './-'], 'error')
        self.expect(['rewrite', 'blank.table', 'padded.message', './-'], 'done 81', files={'-': sample('good.message')})


class SeveralMessages(Shop):
    """8. Several messages for `check`, an answer line each with the file's name."""

    def answers(self, arguments, lines, status, **how):
        due = folder_contents(self.folder)
        answer = self.blink('check', *arguments, **how)
        self.same_folder(due, str(arguments))
        self.assertEqual(answer.lines, lines + [''])
        self.has_status(answer, status, answer)
        return answer

    def test_answers(self):
        self.answers(['blank.table', 'good.message', 'padded.message'], ['good.message: accepted', 'padded.message: accepted'], 0)
        self.answers(['blank.table', 'dusty.message', 'good.message'], ['dusty.message: refused 9 at 41', 'good.message: accepted'], 1)
        answer = self.answers(['blank.table', 'missing', './dusty.message', 'good.message', 'good.message'],
                              ['missing: error', './dusty.message: refused 9 at 41', 'good.message: accepted', 'good.message: accepted'], 2)
        self.assertEqual(answer.complaints[:1], ['blink: missing: No such file or directory'])

    def test_one_message_has_no_name(self):
        self.expect(['check', 'blank.table', 'good.message'], 'accepted')

    def test_table_refused(self):
        self.answers(['stale.table', 'good.message', 'dusty.message'],
                     ['good.message: refused 20 at 0', 'dusty.message: refused 20 at 0'], 1)

    def test_table_missing(self):
        answer = self.blink('check', 'missing', 'good.message', 'dusty.message')
        self.assertIn('blink: missing: No such file or directory', answer.complaints)
        self.has_status(answer, 2)

    def test_settings(self):
        under = ['--settings', 'customers.store', '--customer']
        self.answers(['blank.table', *under, '12', 'rubbish.message', 'good.message'],
                     ['rubbish.message: accepted', 'good.message: accepted'], 0)
        self.answers(['blank.table', 'rubbish.message', *under, '7', 'good.message'],
                     ['rubbish.message: refused 6 at 37', 'good.message: accepted'], 1)
        self.answers(['blank.table', 'good.message', 'good.message', '--settings', 'good.message', '--customer', '7'],
                     ['good.message: refused 50 at 0'] * 2, 1)

    def test_standard_input(self):
        self.answers(['blank.table', 'good.message', '-', 'dusty.message'],
                     ['good.message: accepted', '-: accepted', 'dusty.message: refused 9 at 41'], 1, stdin=sample('padded.message'))
        self.answers(['-', 'good.message', 'dusty.message'], ['good.message: accepted', 'dusty.message: refused 9 at 41'], 1,
                     stdin=sample('blank.table'))

    def test_one_answer_leaves_no_trace_in_the_next(self):
        """Messages of many lengths, among them too long ones and none, in an order by chance."""
        chance = random.Random(8)
        self.put('long', bytes(70000))
        self.put('empty', b'')
        self.put('cut', sample('good.message')[:50])
        os.mkdir(self.path('folder'))
        due = {'good.message': 'accepted', 'padded.message': 'accepted', 'dusty.message': 'refused 9 at 41',
               'rubbish.message': 'refused 4 at 33', 'long': 'refused 23 at 0',
               'empty': 'refused 22 at 0', 'cut': 'refused 22 at 0', 'folder': 'error', 'missing': 'error'}
        names = [chance.choice(list(due)) for _ in range(300)]
        self.answers(['blank.table', *names], ['%s: %s' % (name, due[name]) for name in names], 2)

    def test_thousands(self):
        start = time.monotonic()
        self.answers(['blank.table', *5000 * ['good.message']], 5000 * ['good.message: accepted'], 0)
        self.assertLess(time.monotonic() - start, 10)


class Tape(Shop):
    """`tape`: a line for each message of a tape, past those that are refused, and how many there are."""
    GOOD, DUSTY, CLEAN = [sample(name + '.message') for name in ('good', 'dusty', 'good-no-note')]
    BAD_STORE = ['--settings', 'good.message', '--customer', '7']
    NONE = '0 messages: 0 accepted, 0 refused'

    def answers(self, tape, lines, status, more=(), table='blank.table', name='tape', **how):
        self.put('tape', tape)
        due = folder_contents(self.folder)
        answer = self.blink('tape', table, name, *more, **how)
        self.same_folder(due, str(answer))
        self.assertEqual(answer.lines, [*lines, ''])
        self.assertEqual(answer.err, b'')
        self.has_status(answer, status)

    def test_samples(self):
        self.assertEqual(sample('shift.tape'), self.GOOD + self.DUSTY + self.CLEAN)
        self.assertEqual(sample('cut.tape'), sample('shift.tape')[:177])

    def test_all_accepted(self):
        self.answers(self.GOOD, ['0: accepted, 81 bytes', '1 message: 1 accepted, 0 refused'], 0)
        self.answers(2 * self.GOOD + self.CLEAN, ['0: accepted, 81 bytes', '81: accepted, 81 bytes', '162: accepted, 56 bytes',
                                                  '3 messages: 3 accepted, 0 refused'], 0)

    def test_refused_messages_are_passed_over(self):
        """Wherever they stand, the status is theirs."""
        self.answers(self.GOOD + self.DUSTY + self.CLEAN, ['0: accepted, 81 bytes', '81: refused 9 at 41', '137: accepted, 56 bytes',
                                                           '3 messages: 2 accepted, 1 refused'], 1)
        self.answers(self.DUSTY + self.GOOD, ['0: refused 9 at 41', '56: accepted, 81 bytes', '2 messages: 1 accepted, 1 refused'], 1)
        self.answers(self.GOOD + self.DUSTY, ['0: accepted, 81 bytes', '81: refused 9 at 41', '2 messages: 1 accepted, 1 refused'], 1)
        self.answers(self.DUSTY, ['0: refused 9 at 41', '1 message: 0 accepted, 1 refused'], 1)

    def test_empty(self):
        """It ends without a refusal, whatever the table and the store are."""
        for table in ['blank.table', 'stale.table', '/dev/null']:
            self.answers(b'', [self.NONE], 0, table=table)
            self.answers(b'', [self.NONE], 0, self.BAD_STORE, table=table)
        self.answers(b'', [self.NONE], 0, name='/dev/null')

    def test_cut_tail(self):
        for before, lines, refused in [(b'', [], 0), (self.GOOD, ['0: accepted, 81 bytes'], 0), (self.DUSTY, ['0: refused 9 at 41'], 1)]:
            at, total = len(before), '%d message%s: %d accepted, %d refused' % (len(lines) + 1, 's' if lines else '',
                                                                              len(lines) - refused, refused + 1)
            for left in range(1, len(self.GOOD)):
                said = '%d byte%s left' % (left, ' is' if left == 1 else 's are')
                why = 'too few for a size word' if left < 4 else 'and by its size word it has 81'
                self.answers(before + self.GOOD[:left], [*lines, '%d: refused 22 at %d' % (at, at),
                                                         'the tape ends inside this message: %s, %s' % (said, why), total], 1)

    def test_cut_tail_of_the_greatest_size(self):
        self.answers(b'\xff' * 4, ['0: refused 22 at 0', 'the tape ends inside this message: 4 bytes are left, and by its size word it has '
                                   '4294967299', '1 message: 0 accepted, 1 refused'], 1)

    def test_table_refused(self):
        """It is said once, and no message is looked at."""
        due = ['0: refused 20 at 0', *self.expect(['check', 'stale.table', 'good.message'], 'refused 20 at 0').lines[1:-1],
               '1 message: 0 accepted, 1 refused']
        for tape in [self.GOOD, self.DUSTY + self.GOOD, b'x', b'\xff' * 4]:
            self.answers(tape, due, 1, table='stale.table')
            self.answers(tape, due, 1, self.BAD_STORE, table='stale.table')

    def test_store_refused(self):
        """It is said of each message, after the tape's own 22 and a message's 23."""
        self.answers(self.GOOD + self.DUSTY, ['0: refused 50 at 0', '81: refused 50 at 0', '2 messages: 0 accepted, 2 refused'], 1,
                     self.BAD_STORE)
        self.answers(u32(65533) + bytes(65533) + b'x',
                     ['0: refused 23 at 0', '65537: refused 22 at 65537',
                      'the tape ends inside this message: 1 byte is left, too few for a size word', '2 messages: 0 accepted, 2 refused'], 1,
                     self.BAD_STORE)

    def test_settings(self):
        tape = self.GOOD + sample('rubbish.message') + self.CLEAN
        for customer, answer in [('12', 'accepted, 64 bytes'), ('7', 'refused 6 at 37'), ('300', 'refused 4 at 33'),
                                 ('9', 'refused 4 at 33')]:
            refused = int(answer.startswith('refused'))
            self.answers(tape, ['0: accepted, 81 bytes', '81: ' + answer, '145: accepted, 56 bytes',
                                '3 messages: %d accepted, %d refused' % (3 - refused, refused)], refused,
                         ['--settings', 'customers.store', '--customer', customer])

    def test_standard_input(self):
        lines = ['0: accepted, 81 bytes', '1 message: 1 accepted, 0 refused']
        self.answers(b'', lines, 0, name='-', stdin=self.GOOD)
        self.answers(b'', [self.NONE], 0, name='-')
        self.answers(self.GOOD, lines, 0, table='-', stdin=sample('blank.table'))
        self.answers(self.GOOD, lines, 0, ['--settings', '-', '--customer', '7'], stdin=sample('customers.store'))

    def test_each_answer_is_that_of_the_message_alone(self):
        """Whole and damaged messages in an order by chance, with sizes that none may have among them."""
        chance = random.Random(10)
        messages = [self.GOOD, self.DUSTY, self.CLEAN, sample('padded.message'), sample('rubbish.message')]
        messages += [u32(size) + bytes(size) for size in [0, 1, 11, 12, 32, 65532, 65533, 70000]]
        for _ in range(40):
            message = bytearray(chance.choice(messages[:5]))
            message[chance.randrange(4, len(message))] = chance.randrange(256)
            messages.append(bytes(message))
        for n, message in enumerate(messages):
            self.put('message%d' % n, message)
        names = ['message%d' % n for n in range(len(messages))]
        alone = self.blink('check', 'blank.table', *names).lines
        verdicts = [line.split(': ')[1] for line in alone[:-1]]
        order = [chance.randrange(len(messages)) for _ in range(400)]
        at, lines = 0, []
        for n in order:
            length = ', %d bytes' % len(messages[n]) if verdicts[n] == 'accepted' else ''
            lines.append('%d: %s%s' % (at, verdicts[n], length))
            at += len(messages[n])
        accepted = sum(verdicts[n] == 'accepted' for n in order)
        lines.append('400 messages: %d accepted, %d refused' % (accepted, 400 - accepted))
        self.answers(b''.join(messages[n] for n in order), lines, 1)

    def test_longest(self):
        """No fault says that a tape is too long, so it is an error."""
        most = 64 << 20
        self.answers(u32(most - 4) + bytes(most - 4), ['0: refused 23 at 0', '1 message: 0 accepted, 1 refused'], 1)
        self.put('tape', bytes(most + 1))
        self.expect(['tape', 'blank.table', 'tape'], 'error', 'tape: longer than 67108864 bytes')
        self.expect(['tape', 'blank.table', '/dev/zero'], 'error', '/dev/zero: longer than 67108864 bytes')

    def test_unreadable(self):
        self.expect(['tape', 'blank.table', 'missing'], 'error', 'missing: No such file or directory')
        self.expect(['tape', 'missing', 'shift.tape'], 'error', 'missing: No such file or directory')
        self.expect(['tape', 'blank.table', 'shift.tape', '--settings', 'missing', '--customer', '7'], 'error',
                    'missing: No such file or directory')

    def test_thousands(self):
        start = time.monotonic()
        lines = ['%d: accepted, 81 bytes' % (81 * n) for n in range(20000)]
        self.answers(20000 * self.GOOD, [*lines, '20000 messages: 20000 accepted, 0 refused'], 0)
        self.assertLess(time.monotonic() - start, 10)

    def test_pipe_closed_in_the_middle(self):
        self.put('tape', 20000 * self.GOOD)
        with subprocess.Popen([COMMAND['path'], 'tape', 'blank.table', 'tape'], cwd=self.folder, preexec_fn=limited(),
                              stdout=subprocess.PIPE, stderr=subprocess.PIPE) as process:
            self.assertEqual(process.stdout.readline(), b'0: accepted, 81 bytes\n')
            process.stdout.close()
            said = process.stderr.read()
            answer = Answer(process.wait(), b'', said)
        self.assertIn(b'standard output: Broken pipe', said)
        self.has_status(answer, 2)


class HelpAndVersion(Shop):
    """8. `--help`, `-h`, `--version`, `faults N`."""

    def test_help(self):
        text = self.blink('help')
        for word in ['check', 'read', 'show', 'dump', 'tape', 'table', 'sheet', 'write', 'rewrite', 'settings', 'faults', 'help', 'version',
                     '--settings', '--customer']:
            self.assertRegex(text.out.decode(), r'(?<!\w)%s\b' % word)
        self.assertEqual([line for line in text.lines if len(line) > 80], [])
        self.assertEqual(text.err, b'')
        for arguments in [['--help'], ['-h'], ['help', 'check'], ['--help', 'check', 'x'], ['-h', '--what']]:
            answer = self.blink(*arguments)
            self.assertEqual((answer.out, answer.err), (text.out, b''), arguments)
            self.has_status(answer, 0)

    def test_version(self):
        for word in ['version', '--version']:
            answer = self.blink(word)
            self.assertEqual((answer.out, answer.err), (b'blink 0.3.0\n', b''))
            self.has_status(answer, 0)

    def test_faults(self):
        answer = self.blink('faults')
        self.assertEqual(answer.out, (ROOT / 'include/faults.txt').read_bytes())
        for number, words in WORDS.items():
            answer = self.blink('faults', str(number))
            self.assertEqual((len(answer.lines), answer.err), (2, b''), answer)
            self.assertIn(words, answer.first)
            self.has_status(answer, 0)

    def test_faults_that_are_none(self):
        for number in ['0', '15', '19', '52', '99', '100', '255', '256', '265', '4294967305', '18446744073709551625', 'x', '', '-9']:
            answer = self.expect(['faults', number], 'error')
            self.assertIn(number, answer.complaints[0])


class WrongArguments(Shop):
    """8. A wrong argument is named: one line `blink: WHAT: REASON`, then `blink: try blink help`."""

    def wrong(self, arguments, reason):
        answer = self.expect(arguments, 'error')
        if isinstance(reason, str):
            self.assertEqual(answer.complaints, ['blink: ' + reason, 'blink: try blink help'])
        else:
            self.assertRegex(answer.complaints[0], reason)
            self.assertEqual(answer.complaints[1:], ['blink: try blink help'])

    def test_command(self):
        self.wrong(['chek', 'blank.table', 'good.message'], 'chek: no such command')
        for word in ['Check', 'checks', 'chec', '', 'good.message', 'a b', 'helpme', 20 * 'long', '-x', '-', '-help']:
            self.wrong([word], '%s: no such command' % word)
        answer = self.expect([], 'error')
        self.assertEqual(answer.complaints[-1], 'blink: try blink help')

    def test_missing(self):
        for line in ['check TABLE', 'read TABLE', 'read blank.table MESSAGE', 'read blank.table good.message FIELD', 'show TABLE',
                     'show blank.table MESSAGE', 'dump TABLE', 'dump blank.table MESSAGE', 'tape TABLE', 'tape blank.table TAPE',
                     'table TABLE', 'sheet TABLE',
                     'sheet blank.table MESSAGE', 'sheet blank.table good.message OUT', 'write TABLE', 'write blank.table SHEET',
                     'write blank.table good.sheet OUT', 'rewrite TABLE', 'rewrite blank.table MESSAGE',
                     'rewrite blank.table good.message OUT']:
            *arguments, name = line.split()
            self.wrong(arguments, '%s: %s is missing' % (arguments[0], name))
        for line in ['settings STORE', 'settings get customers.store CUSTOMER', 'settings get customers.store 7 VERSION',
                     'settings add customers.store CUSTOMER', 'settings add customers.store 7 VERSION', 'settings new new RECORDS']:
            *arguments, name = line.split()
            self.wrong(arguments, re.compile('^blink: settings.*: %s is missing$' % name))

    def test_extra(self):
        for line in ['read blank.table good.message 1 0', 'show blank.table good.message', 'dump blank.table good.message',
                     'tape blank.table shift.tape', 'table blank.table', 'sheet blank.table good.message out',
                     'write blank.table good.sheet out', 'rewrite blank.table good.message out']:
            arguments = line.split()
            self.wrong([*arguments, 'X'], '%s: extra argument: X' % arguments[0])
            self.wrong([*arguments, 'X', 'Y'], '%s: extra argument: X' % arguments[0])
            self.wrong([*arguments, *50 * ['Z']], '%s: extra argument: Z' % arguments[0])
        for line in ['settings get customers.store 7 1', 'settings new new 5', 'settings customers.store', 'faults 9', 'version']:
            self.wrong([*line.split(), 'X'], re.compile('^blink: .*extra argument: X$'))

    def test_options(self):
        files = ['check', 'blank.table', 'good.message']
        for more, reason in [(['--x'], '--x: no such option'), (['--customers', '7'], '--customers: no such option'),
                             (['--help'], '--help: no such option'), (['--'], '--: no such option'),
                             (['--customer', '7'], '--customer: goes with --settings STORE'),
                             (['--settings', 'customers.store'], '--settings: goes with --customer N'),
                             (['--settings'], '--settings: its value is missing'),
                             (['--settings', '--customer', '7'], '--settings: its value is missing'),
                             (['--settings', 'customers.store', '--customer'], '--customer: its value is missing'),
                             (['--settings', 'customers.store', '--customer', '7', '--customer', '7'], '--customer: given twice'),
                             (['--settings', 'x', '--settings', 'x', '--customer', '7'], '--settings: given twice')]:
            self.wrong([*files, *more], reason)

    def test_customer(self):
        for number in ['65536', '-1', 'x', '', '4294967303', '18446744073709551623']:
            self.wrong(['check', 'blank.table', 'good.message', '--settings', 'customers.store', '--customer', number],
                       re.compile('^blink: --customer: .*65535'))
            self.wrong(['settings', 'get', 'customers.store', number, '1'], re.compile('^blink: CUSTOMER: .*65535'))
            self.wrong(['settings', 'get', 'customers.store', '7', number], re.compile('^blink: VERSION: .*65535'))
            self.wrong(['settings', 'add', 'customers.store', number, '1'], re.compile('^blink: CUSTOMER: .*65535'))
            self.wrong(['settings', 'add', 'customers.store', '7', number], re.compile('^blink: VERSION: .*65535'))

    def test_options_elsewhere(self):
        under = ['--settings', 'customers.store', '--customer', '7']
        self.put('good.sheet', SHEET)
        for line in ['write blank.table good.sheet out', 'check blank.table', 'table blank.table', 'settings customers.store', 'faults',
                     'settings new new 5']:
            self.wrong([*line.split(), *under], re.compile('^blink: --settings: only for '))

    def test_settings(self):
        for faults in [['5'], ['4', '4'], ['4', '6', '8', '4'], ['x'], ['04'], ['']]:
            self.wrong(['settings', 'add', 'customers.store', '7', '3', *faults],
                       re.compile('^blink: FAULT: |^blink: settings.*extra argument: '))
        for records in ['0', '7282', 'x', '', '-1', '4294967297', '18446744073709551617']:
            self.wrong(['settings', 'new', 'new', records], re.compile('^blink: RECORDS: .*7281'))


class Every(Shop):
    """Tables and messages by chance, made by other means: `show`, `sheet`, `rewrite`, `write` and `read` say what was put in."""

    def table(self, chance):
        """Group 0 has numbers only, so that something can stand at the deepest level."""
        enumerations = [sorted({chance.randrange(-9, 9) for _ in range(5)}) for _ in range(2)]
        groups = [Group(1, [Field(chance.choice([U8, I64, STRING]), optional=chance.random() < .5)])]
        while len(groups) < 4:
            above = chance.choice([None, len(groups) - 1])
            fields = list(groups[above].fields) if above is not None else []
            for _ in range(chance.randrange(1, 7)):
                kind = chance.randrange(U8, OBJECT + 1)
                sizes = {FIXED: [1, 7, 20], STRING: [0, 15], BINARY: [0, 15]}
                references = {ENUMERATION: [0, 1], STATIC: range(len(groups)), DYNAMIC: range(len(groups))}
                fields.append(Field(kind, chance.random() < .3, chance.random() < .3, chance.choice(sizes.get(kind, [0])),
                                    chance.choice(references.get(kind, [0]))))
            groups.append(Group(len(groups) + 1, fields, above))
        return Table(groups, enumerations)

    def value(self, chance, table, field, level):
        kind = field.type
        if kind == STATIC:
            return self.values(chance, table, field.reference, level)
        if kind == DYNAMIC:
            below = [field.reference] + [n for n, group in enumerate(table.groups) if group.above == field.reference]
            return self.dynamic(chance, table, field.reference if level > 2 else chance.choice(below), level + 1)
        if kind == OBJECT:
            return self.dynamic(chance, table, 0 if level > 2 else chance.randrange(len(table.groups)), level + 1)
        if kind == ENUMERATION:
            return chance.choice(table.enumerations[field.reference])
        if kind == STRING:
            return ''.join(chance.choice('QZ-0417\u200b"\\') for _ in range(chance.randrange(6)))
        if kind in (BINARY, FIXED):
            return chance.randbytes(field.size if kind == FIXED else chance.randrange(10))
        if kind == DECIMAL:
            return chance.randrange(-2 ** 63, 2 ** 63), chance.randrange(-128, 128)
        if kind == BOOL:
            return chance.random() < .5
        if kind in (MILLI_OF_DAY, NANO_OF_DAY):
            return chance.randrange(86400 * 10 ** (3 if kind == MILLI_OF_DAY else 9))
        bits = 8 * item_width(table, field)
        return chance.randrange(-2 ** (bits - 1), 2 ** (bits - 1)) if FORMATS[kind].islower() else chance.getrandbits(bits)

    def values(self, chance, table, number, level):
        return [None if field.optional and chance.random() < .4 else
                [self.value(chance, table, field, level) for _ in range(chance.randrange(4 if level < 3 else 1))] if field.sequence else
                self.value(chance, table, field, level) for field in table.groups[number].fields]

    def dynamic(self, chance, table, number, level=1):
        extension = [chance.choice([u32(13) + u64(77) + b'12345', self.dynamic(chance, table, 0, level + 1)])
                     for _ in range(chance.randrange(3) if level < 3 and chance.random() < .3 else 0)]
        return Dynamic(number, self.values(chance, table, number, level), extension)

    def test_messages_by_chance(self):
        for seed in range(120):
            chance = random.Random(seed)
            table = self.table(chance)
            if max(group_width(table, number) for number in range(4)) > 4096:
                continue
            message = self.dynamic(chance, table, 3)
            wire, sheet = message_bytes(table, message), sheet_bytes(table, message)
            if len(wire) > 65536:
                continue
            with self.subTest(seed=seed):
                self.put('table', table_bytes(table, widths=chance.random() < .5))
                self.put('message', wire)
                self.put('sheet', sheet)
                self.assertEqual(self.expect(['show', 'table', 'message'], 'accepted').lines, show_lines(table, message) + [''])
                self.expect(['sheet', 'table', 'message', 'out'], 'done %d' % len(sheet), files={'out': sheet})
                self.expect(['write', 'table', 'sheet', 'out'], 'done %d' % len(wire), files={'out': wire})
                self.expect(['rewrite', 'table', 'message', 'out'], 'done %d' % len(wire), files={'out': wire})
                answer = self.expect(['dump', 'table', 'message'], 'accepted')
                self.assertTrue(b''.join(run_bytes for _, run_bytes, _, _ in dump_runs(answer.lines)) == wire)


# DAMAGED INPUTS

FIRST = re.compile(r'accepted|done \d+|refused \d+ at \d+|ignores (nothing|[468]( [468])*)|error|(%s) .*' % '|'.join(NAMES.values()), re.S)


def damage(chance, contents, others):
    """A few bytes changed, taken out, put in or put elsewhere."""
    room = bytearray(contents)
    for _ in range(chance.choice([1, 1, 1, 2, 3])):
        at, way = chance.randrange(len(room) + 1), chance.randrange(9)
        if way < 3 and at < len(room):
            room[at] = [room[at] ^ 1 << chance.randrange(8), chance.choice([0, 1, 2, 127, 128, 255]), chance.randrange(256)][way]
        elif way == 3:
            room[at:at + 4] = u32(chance.choice([0, 1, chance.randrange(100), 2 ** 31, 2 ** 32 - 1]))
        elif way == 4:
            del room[at:at + chance.randrange(1, 20)]
        elif way == 5:
            room[at:at] = chance.randbytes(chance.randrange(1, 20))
        elif way == 6:
            other = chance.choice(others)
            start = chance.randrange(len(other) + 1)
            room[at:at + 16] = other[start:start + 16]
        elif way == 7:
            del room[at:]
        elif 4 <= len(room) < 2 ** 16:
            room[0:4] = u32(len(room) - 4)
    return bytes(room)


def corpus():
    """Tables, with messages of each; and sheets of these."""
    found = [(sample('blank.table'), [sample(name + '.message') for name in ('good', 'padded', 'rubbish', 'dusty')], [SHEET]),
             (sample('widths.table'), [sample('good-no-note.message')], [SHEET])]
    for widths in [False, True]:
        found.append((table_bytes(TYPES, widths), [message_bytes(TYPES, message) for message in TYPED],
                      [sheet_bytes(TYPES, message) for message in TYPED]))
    return found


def try_damaged(seeds):
    """What is wrong with the answers on damaged inputs, one question for each seed: the seed, the question and what."""
    wrong = []
    with tempfile.TemporaryDirectory(prefix='blink-') as folder:
        def put(name, contents):
            Path(folder, name).write_bytes(contents)
        cases = corpus()
        for seed in seeds:
            chance = random.Random(seed)
            table, messages, sheets = chance.choice(cases)
            message, sheet, store = chance.choice(messages), chance.choice(sheets), sample('customers.store')
            struck = chance.choice(['table', 'message', 'message', 'message', 'sheet', 'store'])
            if struck == 'table':
                table = damage(chance, table, [other for other, _, _ in cases])
            elif struck == 'message':
                message = damage(chance, message, messages)
            elif struck == 'sheet':
                sheet = damage(chance, sheet, sheets)
            else:
                store = damage(chance, store, [store])
            for name, contents in [('table', table), ('message', message), ('sheet', sheet), ('store', store), ('out', OLD)]:
                put(name, contents)
            under = []
            if struck == 'store' or chance.random() < .2:
                under = ['--settings', 'store', '--customer', chance.choice(['7', '12', '300', '1'])]
            field, item = str(chance.randrange(60)), chance.choice([[], ['0'], ['1'], ['99']])
            questions = {'table': [['check', 'table'], ['table', 'table']],
                         'sheet': [['write', 'table', 'sheet', 'out']],
                         'store': [['settings', 'store'], ['settings', 'get', 'store', '7', '1'],
                                   ['settings', 'add', 'store', '12', '4', '8']],
                         'message': []}[struck]
            questions += [['check', 'table', 'message', *under], ['show', 'table', 'message', *under], ['dump', 'table', 'message', *under],
                          ['read', 'table', 'message', field, *item, *under], ['sheet', 'table', 'message', 'out', *under],
                          ['rewrite', 'table', 'message', 'out', *under]]
            arguments = chance.choice(questions)
            fault = try_question(folder, arguments)
            if fault:
                wrong.append('seed %d: %s: %s' % (seed, ' '.join(arguments), fault))
    return wrong


def try_question(folder, arguments):
    """What is wrong with an answer, or None."""
    before = folder_contents(folder)
    try:
        answer = run(arguments, folder, timeout=20)
    except subprocess.TimeoutExpired:
        return 'no answer in 20 seconds'
    after = folder_contents(folder)
    first = answer.first
    if answer.status < 0:
        return 'ended by signal %d' % -answer.status
    if not FIRST.fullmatch(first):
        return 'an unknown first line: %s' % (answer,)
    written = 'store' if arguments[:2] == ['settings', 'add'] else 'out'
    if {**after, written: None} != {**before, written: None}:
        return 'a file was changed or left behind: %s' % sorted(after)
    if first.startswith('done '):
        if len(after[written]) != int(first[5:]):
            return '%s, but there are %d bytes' % (first, len(after[written]))
    elif after != before:
        return 'OUT was written to, but the answer is %s' % first
    refusal = re.fullmatch(r'refused (\d+) at \d+', first)
    if refusal and (len(answer.lines) < 3 or answer.lines[1] != WORDS[int(refusal[1])]):
        return 'a refusal without its words: %s' % (answer,)
    if first == 'error' or answer.err:
        return 'an error on files that can be read and written: %s' % (answer,)
    if arguments[0] in ('show', 'dump', 'sheet', 'rewrite') and refusal:
        plain = [word for word in arguments[1:] if word != 'out']
        other = run(['check', *plain], folder)
        if other.first != first:
            return '%s, but check says %s' % (first, other.first)
    if arguments[0] == 'rewrite' and not refusal:
        again = run(['check', 'table', 'out'], folder)
        if again.first != 'accepted':
            return 'the rewritten message is not accepted: %s' % again.first
    if arguments[0] == 'dump' and not refusal:
        if b''.join(run_bytes for _, run_bytes, _, _ in dump_runs(answer.lines)) != before['message']:
            return 'the dump has not every byte once and in order'
    if answer.status != status_for(first):
        return 'status %d, but the answer is %s' % (answer.status, first)
    return None


class Damaged(unittest.TestCase):
    """Whatever the bytes: no crash, a first line of a known form and the status that goes with it, OUT untouched unless `done`, and no
    file left behind."""
    RUNS = 4000

    def test_damaged_inputs(self):
        parts = [range(start, min(start + 250, self.RUNS)) for start in range(0, self.RUNS, 250)]
        with multiprocessing.get_context('fork').Pool(2) as pool:
            wrong = [line for part in pool.map(try_damaged, parts, chunksize=1) for line in part]
        self.assertEqual(len(wrong), 0, '%d of %d:\n%s' % (len(wrong), self.RUNS, '\n'.join(wrong[:20])))


def main():
    words = sys.argv[1:]
    if words and not words[0].startswith('-'):
        COMMAND['path'] = os.path.abspath(words.pop(0))
    if not os.access(COMMAND['path'], os.X_OK):
        sys.exit('%s: no such command; `make command` builds it' % COMMAND['path'])
    unittest.main(argv=sys.argv[:1] + words)


if __name__ == '__main__':
    main()
