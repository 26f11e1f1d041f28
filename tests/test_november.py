"""What examples/1992/november.py does, at a small size: the room's memory does not grow with the
vehicles that are sent, and where that of three machines is killed which leads, no order is lost."""
# needs: python3 etcd-server
# builds: dispatch_room
import json
import subprocess
import sys

from machines import free_ports
from room import PROGRAM, TOP, TestCase

FOLDER = TOP / 'examples' / '1992'
sys.path.append(str(FOLDER))

import november  # noqa: E402

MANY, ORDERS = 2000, 40
FLAT = 1024  # KiB


class November(TestCase):
    def test_small(self):
        ports, held = free_ports()
        file = self.folder / 'november.json'
        with held:
            done = subprocess.run(
                [sys.executable, FOLDER / 'november.py', '--many', str(MANY), '--orders',
                 str(ORDERS), '--file', file, '--ports', str(ports), '--program', PROGRAM],
                stdin=subprocess.DEVNULL, capture_output=True, timeout=1800)
        self.check('it ends well', (done.returncode, done.stderr.decode()), (0, ''))
        seen = json.loads(file.read_text())
        sizes = [kib for _, kib in seen['memory']]
        self.check('as many were sent', seen['memory'][-1][0], MANY)
        self.check('it was looked at often', len(sizes) >= 40, True)
        self.check('it is flat', max(sizes[1:]) - min(sizes[1:]) <= FLAT, True)
        self.check('orders', (seen['orders'], seen['lost']), (ORDERS, 0))
        self.check('it was silent for a moment', seen['silence'] > 0, True)

    def test_an_order_that_is_lost_counts(self):
        """A machine that shows a crew another order, or none, has lost it."""
        shown = {'crewofA1': {'order': 1, 'incident': 7}, 'crewofA2': {'order': 1, 'incident': 9},
                 'crewofA3': None}

        class Terminal:
            def ask(self, token, line):
                return 200, {'order': shown[token]}

        orders = {'A1': (1, 7), 'A2': (1, 8), 'A3': (1, 9)}
        self.check('two are lost', november.lost(Terminal(), orders), 2)
