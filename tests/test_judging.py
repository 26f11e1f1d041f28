"""What docs/JUDGING.md has a judge do, and CONTRIBUTING.md who is new: each command that reads is
run and prints what the page shows; of those that prove, the crates and the edits are there, and
each edit can be made. The promises of JUDGING's table are those of PROMISES.md. And what the judge
of edits makes of each way in which the prover refuses one."""
# needs: python3
import itertools
import re
import shlex
import subprocess
import sys
from unittest import mock

from documents import LINK
from room import TOP, TestCase

sys.path.insert(0, str(TOP / 'tools'))
import kit  # noqa: E402
from refusals import Refusal, refusal  # noqa: E402

PAGE = TOP / 'docs' / 'JUDGING.md'
# A block of commands or of what they print, with its language.
BLOCK = re.compile(r'^```(sh|text)\n(.*?)^```$', re.M | re.S)
CONTRIBUTING = TOP / 'CONTRIBUTING.md'
MINE = re.compile(r'>?edits/(\w+)/mine\.edit')


# What the prover says of an edited crate, as kit 13f does: of goals that are open, of a proof that
# names what is gone, of one that no longer fits, of what it can't read, and of a limit.
ENSURES = ('note: src/plans.rt:125:5: it is not proved that what the function ensures holds when '
           'it returns (`returns`); `search` gave up at one of its limits')
INVARIANT = ('note: src/lowest_division.rt:20:5: it is not proved that the invariant of the loop '
             'holds (`next`)')
REQUIRES = ('note: src/places.rt:31:9: it is not proved that what `place_in` requires holds at '
            'this call (`call`)')
UNFIT = ('./proofs/plans/Plan/areas/Answers.antt:8:67: error: `returns`: list the missing equation '
         'with its arguments, or rewrite by `rw` or `simp`')
LOST = ('./proofs/plans/Plan/areas/Answers.antt:8:18: error: `returns`: record `After-max` has no '
        'field `from`')
OUT_OF_SCOPE = './proofs/plans/Plan/areas/Answers.antt:9:21: error: `zone` is not in scope'
LAW = './proofs/PlanLaws.antt:14:5: error: `areas-le`: expected `3`, found `4`'
SPEC = './specs/Plans.antt:14:5: error: `areas_of`: expected `ℕ`, found `Bool`'
MUST = 'note: `returns` of proofs/plans/Plan/areas/Answers.antt must prove: [] ≡ c.args.self.now'
FRONT_END = 'src/plans.rt:127:9: error[unknown-name]: no `areas` here'
LIMIT = 'proofs/Roots.antt:9:1: error: `one_root`: antt ran out of stack'
NOT_PROVED = 'logic=not-proved functions=60'


def blocks(page=PAGE):
    return BLOCK.findall(page.read_text())


def commands(page=PAGE):
    return [line for kind, text in blocks(page) if kind == 'sh' for line in text.splitlines()]


def printed(command, folder=TOP):
    """What a command prints."""
    done = subprocess.run(command, shell=True, cwd=folder, stdin=subprocess.DEVNULL,
                          capture_output=True, text=True, timeout=180)
    return done.stdout if (done.returncode, done.stderr) == (0, '') else f'failed: {done}'


def changes(edit):
    """The file, the old text and the new one of each change of an edit."""
    place = re.search(r'^file: (.*)$', edit, re.M)[1]
    pairs = re.findall(r'^old: (.*)\nnew: (.*)$', edit, re.M)
    return [(place, *it) for it in pairs]


class Judging(TestCase):
    def test_what_is_printed(self):
        """A block that is printed follows the commands that print it, and is a part of that."""
        for (_, given), (kind, shown) in itertools.pairwise(blocks()):
            if kind == 'text':
                output = ''.join(map(printed, given.splitlines()))
                self.check(given.splitlines()[0], shown in output, True)

    def test_commands(self):
        """Each command reads, or is one whose parts are looked at."""
        for command in [*commands(), *commands(CONTRIBUTING)]:
            with self.subTest(command):
                self.look(command)

    def look(self, command):
        words = shlex.split(command.strip('()'))
        crates = re.findall(r'^(\w+):', (TOP / 'crates.txt').read_text(), re.M)
        match words:
            case ['cat' | 'grep', *_]:
                self.assertNotIn('failed: ', printed(command))
            case ['tools/edits', crate]:
                self.assertIn(crate, crates)
                self.assertTrue(list((TOP / 'edits' / crate).glob('*.edit')), 'it has no edits')
            case ['rt', 'must-fail', crate]:
                folder = TOP / 'crates' / crate / 'must-fail'
                self.assertTrue(list(folder.glob('*.edit')), 'it has no edits')
            case ['cd', folder, '&&', 'rt', 'plant', '--only', name]:
                texts = [it.read_text() for it in (TOP / folder / 'src').glob('*.rt')]
                self.assertTrue(any(f'pub fn {name}(' in it for it in texts), 'no such function')
            case ['printf', *_, to] if found := MINE.fullmatch(to):
                self.assertFalse((TOP / to[1:]).exists(), 'it is there')
                self.can_be_made(found[1], printed(command.replace(to, '')))
            case ['rm', file]:
                self.assertRegex(file, MINE)
            case ['cd', folder, '&&', 'rt', 'check']:
                self.assertTrue((TOP / folder / 'src').is_dir(), 'no such crate')
            case ['rt', 'version']:
                pass  # test_kit has what it prints
            case ['tools/try', stream]:
                self.assertTrue((TOP / stream.removeprefix('<')).is_file(), 'no such stream')
            case ['tools/proofs.py']:
                self.assertTrue((TOP / 'tools' / 'proofs.py').is_file())
            case ['tests/run', *names]:
                for name in names:
                    self.assertTrue((TOP / 'tests' / f'test_{name}.py').is_file(), name)
            case _:
                self.fail('an unknown command')

    def can_be_made(self, crate, edit):
        self.assertTrue(changes(edit), 'it changes nothing')
        for place, old, new in changes(edit):
            text = (TOP / 'crates' / crate / place).read_text()
            self.assertEqual(text.count(old), 1, f'{old!r} stands elsewhere than once')
            self.assertNotEqual(old, new)

    def test_edits(self):
        """Each edit that the page names can be made."""
        links = [path for _, path, _ in LINK.findall(PAGE.read_text()) if path.endswith('.edit')]
        cited = re.findall(r'\bedits/\S+\.edit', ' '.join(commands()))
        others = [TOP / it for it in cited if not MINE.match(it)]
        files = [PAGE.parent / it for it in links] + others
        self.assertGreater(len(files), 4)
        for file in files:
            crate = file.parent.name
            with self.subTest(file.name):
                self.can_be_made(file.parent.parent.name if crate == 'must-fail' else crate,
                                 file.read_text())

    def test_promises(self):
        """What the first column of the table names, and the promise that is followed, is a clause
        of a promise."""
        text = PAGE.read_text()
        first = [LINK.search(it)[1] for it in re.findall(r'^\| (.*?) \| \[', text, re.M)]
        promises = (TOP / 'docs' / 'PROMISES.md').read_text().partition('## Public names')[0]
        named = {name for name, _, line in LINK.findall(promises) if line}
        self.assertGreater(len(first), 3)
        self.check('others', {*first, 'report_once'} - named, set())


class Refusals(TestCase):
    def test_fit(self):
        """Each edit can be made of the text as it stands."""
        edits = [(crate, edit) for name, crate in kit.crates().items()
                 for edit in sorted((TOP / 'edits' / name).glob('*.edit'))]
        self.check('edits of a crate', len(edits), len(list((TOP / 'edits').glob('*/*'))))
        misfits = [(str(edit), why) for crate, edit in edits
                   if (why := kit.rt().edited(edit.read_text(), crate.folder)[1])]
        self.check('misfits', misfits, [])

    def test_wordings(self):
        """A refusal is at a goal where one is open, unless a proof names what is gone."""
        for name, lines, wanted in [
                ('a result', [ENSURES, MUST], Refusal.GOAL),
                ('a loop', [INVARIANT], Refusal.GOAL),
                ('a call', [REQUIRES], Refusal.GOAL),
                ('an answer that does not fit', [UNFIT], Refusal.GOAL),
                ('a field that is gone', [LOST], Refusal.NAME),
                ('a field that is gone, and a goal', [LOST, ENSURES], Refusal.NAME),
                ('a name that is gone', [OUT_OF_SCOPE, ENSURES], Refusal.NAME),
                ('a law that does not hold', [LAW], Refusal.GOAL),
                ('a definition that does not fit', [SPEC], Refusal.NO_GOAL),
                ('what cannot be read', [FRONT_END], Refusal.NO_GOAL),
                ('a limit', [LIMIT], Refusal.NO_GOAL)]:
            self.check(name, refusal(lines), wanted)

    def test_others(self):
        """A goal of another function, or a name that the proof of another lost, says nothing."""
        in_areas = {'is_meant': lambda path, line: (path, line) == ('src/plans.rt', 125),
                    'is_own': lambda proof: 'areas' in proof.split('/')}
        other = LOST.replace('areas', 'has')
        for name, lines, wanted in [('its own goal', [INVARIANT, ENSURES, other], Refusal.GOAL),
                                    ('its own answer', [UNFIT, other], Refusal.GOAL),
                                    ("another's goal", [INVARIANT], Refusal.NO_GOAL),
                                    ("another's answer", [UNFIT.replace('areas', 'has')],
                                     Refusal.NO_GOAL),
                                    ('its own name', [LOST, ENSURES], Refusal.NAME)]:
            self.check(name, refusal(lines, **in_areas), wanted)

    def judged(self, status, *lines):
        """Whether the judge takes an edit for refused, where its check ends so, and its report."""
        ran = subprocess.CompletedProcess([], status, '\n'.join(lines) + '\n')
        edit = sorted((TOP / 'edits' / 'room_place').glob('*.edit'))[0]
        with mock.patch.object(kit.rt(), 'checked', lambda *given: ran):
            kit.hear(kit.rt())
            return kit.judged(kit.crates()['room_place'], edit)

    def test_judge(self):
        for name, status, lines, wanted, says in [
                ('a goal', 1, [ENSURES, NOT_PROVED], True, 'it is not proved that'),
                ('a name', 1, [LOST, ENSURES, NOT_PROVED], False, 'names what is gone'),
                ('no goal', 1, [SPEC, NOT_PROVED], False, 'at no goal'),
                ('the front end', 1, [FRONT_END], False, 'BAD EDIT'),
                ('a limit', 3, [LIMIT], False, 'limit'),
                ('nothing', 0, ['logic=proved functions=60'], False, 'NOT REFUSED')]:
            is_refused, report = self.judged(status, *lines)
            self.check(name, is_refused, wanted)
            self.assertIn(says, report)
