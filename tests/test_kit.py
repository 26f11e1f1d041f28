"""What is said before anything is proved or tested: that the toolchain is another kit than README
names, and which Debian packages are missing where they can't be installed."""
# needs: python3 bash
import contextlib
import io
import os
import pathlib
import re
import shutil
import subprocess
import sys
from unittest import mock

from command_modules import module_of
from room import TOP, TestCase

sys.path.insert(0, str(TOP / 'tools'))
import kit  # noqa: E402

NAMED = re.search(r'rattle-kit-\w+', (TOP / 'README.md').read_text())[0]


class Kit(TestCase):
    def toolchain(self, name):
        """A command rt of a kit of this name, the first on the PATH."""
        command = pathlib.Path(self.folder) / 'bin' / 'rt'
        command.parent.mkdir(exist_ok=True)
        command.write_text(f'#!/bin/sh\nif [ "$1" = version ]; then echo "{name} logic 0"\n'
                           'else echo "1 passed, 0 failed"\nfi\n')
        command.chmod(0o755)
        return os.environ | {'PATH': f'{command.parent}:{os.environ["PATH"]}'}

    def said_by_test(self, name):
        """What ./test says on standard error, and its last line, over tests of no length."""
        folder = pathlib.Path(self.folder)
        (folder / 'tests').mkdir(exist_ok=True)
        for it in ('test', 'README.md'):
            shutil.copy(TOP / it, folder / it)
        (folder / 'tests' / 'run').write_text('#!/bin/sh\necho "2 passed, 0 failed"\n')
        (folder / 'tests' / 'run').chmod(0o755)
        done = subprocess.run([folder / 'test'], env=self.toolchain(name), capture_output=True,
                              text=True)
        return done.stderr, done.stdout.splitlines()[-1]

    def test_gate(self):
        self.check('the kit', self.said_by_test(NAMED), ('', '3 passed, 0 failed'))
        self.check('another one', self.said_by_test('rattle-kit-9z'),
                   (f'test: the toolchain is rattle-kit-9z, and README.md names {NAMED}\n',
                    '3 passed, 0 failed'))

    def said_by_build(self, name):
        with mock.patch.dict(os.environ, self.toolchain(name)), (
                contextlib.redirect_stderr(io.StringIO())) as said:
            kit.report_other()
        return said.getvalue().partition(': ')[2]

    def test_build(self):
        self.check('the kit', self.said_by_build(NAMED), '')
        self.check('another one', self.said_by_build('rattle-kit-9z'),
                   f'the toolchain is rattle-kit-9z, and README.md names {NAMED}\n')


class Packages(TestCase):
    """Tests of which a package is missing are left out, which is said once."""

    def setUp(self):
        super().setUp()
        self.run = module_of('tests', 'run')
        self.modules = {}
        for name, needs in [('one', 'python3 nginx'), ('two', 'python3'), ('three', 'etcd nginx')]:
            file = pathlib.Path(self.folder) / f'test_{name}.py'
            file.write_text(f'"""A test."""\n# needs: {needs}\n')
            self.modules[name] = file

    def test_left_out(self):
        with mock.patch.object(self.run, 'provide', lambda package: package == 'python3'):
            without = self.run.left_out(self.modules)
        self.check('left out', without, {'one': ['nginx'], 'three': ['etcd', 'nginx']})
        with contextlib.redirect_stdout(io.StringIO()) as said:
            self.run.report(without)
        self.check('one line', said.getvalue().count('\n'), 1)
        for word in ('one', 'three', 'apt-get install etcd nginx'):
            self.check(word, word in said.getvalue(), True)

    def said(self, provide, ran):
        """The status of a run, and what it said below its first line about packages, if any."""
        with mock.patch.multiple(self.run, words=lambda: (False, self.modules), provide=provide,
                                 run=ran), contextlib.redirect_stdout(io.StringIO()) as said:
            status = self.run.main()
        return status, [it for it in said.getvalue().splitlines() if 'left out' not in it]

    def test_sum(self):
        """The others are run, and those that were left out count as failed."""
        found = self.said(lambda package: package == 'python3', lambda name: ('5 passed\n', 5, 0))
        self.check('what was said', found, (1, [
            '-- two', '5 passed', 'tests: not passed: one three', '5 passed, 2 failed']))

    def test_words(self):
        """Of a test that passed only the sum is shown, of another one all that it said."""
        found = self.said(lambda _: True, lambda name: (f'{name}:\nits sum\n', 5, name == 'two'))
        self.check('what was said', found, (1, [
            '-- one', 'its sum', '-- two', 'two:', 'its sum', '-- three', 'its sum',
            'tests: not passed: two', '15 passed, 1 failed']))

    def test_once_more(self):
        """A test of programs that have clocks of their own gets a second run, and no other one."""
        for fails, wanted in [(1, (1, ['tests: not passed: two', '15 passed, 1 failed'])),
                              (2, (1, ['tests: not passed: one two', '15 passed, 2 failed']))]:
            left = dict.fromkeys(('one', 'two'), fails)

            def ran(name):
                left[name] = left.get(name, 0) - 1
                return 'its sum\n', 5, int(left[name] >= 0)
            with mock.patch.object(self.run, 'TIMED', {'nginx'}):
                status, said = self.said(lambda _: True, ran)
            self.check(f'{fails}: the end', (status, said[-2:]), wanted)
            self.check(f'{fails}: who is run again', [it for it in said if 'once more' in it],
                       ['-- one, once more by itself'])

    def test_none(self):
        with mock.patch.object(self.run, 'provide', lambda _: True):
            self.check('left out', self.run.left_out(self.modules), {})

    def test_other_user(self):
        """Who isn't root installs nothing."""
        with mock.patch.object(os, 'geteuid', lambda: 1000), (
                mock.patch.object(self.run.subprocess, 'run')) as called:
            called.return_value.returncode = 1
            self.check('it is there', self.run.provide('no-such-package'), False)
        self.check('what was called', {it.args[0][0] for it in called.call_args_list}, {'dpkg'})
