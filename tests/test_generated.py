"""What tools/tables.py writes is what is committed: what a file's schema is tested for, and what the
statements on each table say. And no line of a definition or a proof is wider than tools/layout.py
leaves it."""
# needs: python3
import filecmp
import pathlib
import subprocess
import sys
import tempfile

from room import TOP, TestCase

COMMITTED = TOP / 'crates'
MARK = b'Written by tools/tables.py'


def files_in(crates):
    """The files of the crates, beside what is built."""
    return sorted(it for part in ('src', 'specs', 'proofs') for it in crates.glob(f'*/{part}/**/*')
                  if it.is_file())


class Generated(TestCase):
    @classmethod
    def setUpClass(cls):
        cls.written = pathlib.Path(cls.enterClassContext(tempfile.TemporaryDirectory()))
        subprocess.run([sys.executable, TOP / 'tools' / 'tables.py', cls.written], check=True)

    def test_what_is_written_is_committed(self):
        files = files_in(self.written)
        self.assertTrue(files, 'tools/tables.py writes nothing')
        for file in files:
            committed = COMMITTED / file.relative_to(self.written)
            with self.subTest(committed.relative_to(TOP)):
                self.assertTrue(filecmp.cmp(file, committed, shallow=False),
                                'it is not what tools/tables.py writes')

    def test_what_says_so_is_written(self):
        says = [it.relative_to(COMMITTED) for it in files_in(COMMITTED) if MARK in it.read_bytes()]
        others = [str(it) for it in says if not (self.written / it).exists()]
        self.assertEqual(others, [])

    def test_lines_are_laid_out(self):
        done = subprocess.run([sys.executable, TOP / 'tools' / 'layout.py', '--check'],
                              capture_output=True, text=True)
        self.assertEqual((done.returncode, done.stdout), (0, ''))
