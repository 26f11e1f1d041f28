"""docs/TUTORIAL.md as it stands: its blocks are typed into one shell, in an empty folder, and what
each prints is what the document shows below it. What differs from one day or one machine to the
next (moments, ages, how many calls were answered before a kill) is compared by its form, and the
counts with each other."""
# needs: curl
# builds: dispatch_room
import os
import re
import subprocess

from boards import typed
from documents import blocks
from room import TOP, TestCase, free_port

TUTORIAL = TOP / 'docs' / 'TUTORIAL.md'
ADDRESS = '127.0.0.1:8080'
# What bash says of a job that was killed: line 5: 4711 Killed ..
JOB = re.compile(r'^\S*: line \d+: +\d+ (Killed|Terminated)\b.*\n', re.M)

# What differs, and the form that it has.
FORMS = [(r'\w{3}, \d\d \w{3} \d{4} \d\d:\d\d:\d\d GMT', 'DATE'), (r'\b\d{10}\b', 'MOMENT'),
         (r'\b\d+:\d\d:\d\d\b', 'AGE'), (r'(?<= )4(?:80|7\d)\b', 'MINUTES'),
         (r'^(calls |verified |replayed |)\d+$', r'\1COUNT')]
LISTS_OF_A_BOARD = 6  # each a message
COUNT = re.compile(r'^(?:calls |verified |replayed )?(\d+)$', re.M)


def formed(text):
    """A text with what differs by its form."""
    for pattern, form in FORMS:
        text = re.sub(pattern, form, text, flags=re.M)
    return text


def steps():
    """The commands of the document, each block with what it is said to print."""
    found = []
    for block in blocks(TUTORIAL.read_text()):
        if block.language == 'sh':
            found.append([block, ''])
        elif block.language == 'text':
            found[-1][1] = block.text
    return found


class Tutorial(TestCase):
    maxDiff = None

    def printed(self, commands):
        """What a shell prints of each of some blocks."""
        path = self.folder / 'bin'
        path.mkdir()
        typed(path)
        script = ''.join(f'{it}echo @@@\n' for it in commands)
        script = f'trap "kill -9 \\$served 2>/dev/null" EXIT\n{script}'
        place = self.folder / 'empty'
        place.mkdir()
        out = self.folder / 'out'
        with out.open('wb') as to:
            subprocess.run(['bash', '-c', script.replace(ADDRESS, f'127.0.0.1:{free_port()}')],
                           cwd=place, stdin=subprocess.DEVNULL, stdout=to, stderr=subprocess.STDOUT,
                           env=os.environ | {'PATH': f'{path}:{os.environ["PATH"]}'}, timeout=1200)
        return JOB.sub('', out.read_text()).split('@@@\n')

    def test_as_it_stands(self):
        asked = steps()
        printed = self.printed(block.text for block, _ in asked)
        self.check('blocks that were typed', len(printed) - 1, len(asked))
        for (block, wanted), got in zip(asked, printed):
            self.check(f'line {block.line}', formed(got), formed(wanted))
        for what, texts in [('the document', [it for _, it in asked]), ('this run', printed)]:
            with self.subTest(f'the counts of {what}'):
                self.check_counts(''.join(texts))

    def check_counts(self, text):
        """Of a kill: the room has each call that was answered, or one more; then it was sent again,
        and is there once. And the list has each message, of which one may have no status."""
        answered, killed, calls, verified, replayed = map(int, COUNT.findall(text))
        self.assertIn(killed - answered, [2, 3])
        self.assertEqual(calls, answered + 3)
        shown = len(re.findall('^{', text, re.M)) + LISTS_OF_A_BOARD
        self.assertIn(verified - answered - shown, [0, 1])
        self.assertIn(verified - replayed, [0, 1])
