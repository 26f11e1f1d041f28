"""A day in the room, as examples/day.sh plays it: each answer is as the rules say. Moments and ages
are written as T, minutes that are left as M, the day as DAY."""
# needs: curl
# builds: dispatch_room
import subprocess

from documents import comparable
from room import TOP, TestCase, free_port


class Day(TestCase):
    maxDiff = None

    def test_day(self):
        # A file, for a server that is left behind where the day breaks off would hold a pipe open.
        day, port = self.folder / 'day', free_port()
        with day.open('wb') as out:
            subprocess.run([TOP / 'examples' / 'day.sh', self.folder, str(port)],
                           stdin=subprocess.DEVNULL, stdout=out, stderr=subprocess.STDOUT)
        lines = day.read_bytes().decode().replace(f':{port}', ':8192').split('\n')
        wanted = (TOP / 'examples' / 'day.out').read_bytes().decode()
        # Where they differ, lines with '-' are what was got and lines with '+' what was wanted.
        self.assertMultiLineEqual('\n'.join(comparable(it, self.folder) for it in lines), wanted)
