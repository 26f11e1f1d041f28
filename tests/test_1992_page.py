"""The page of examples/1992 in a browser, of a small day: on a desk's screen and on a phone nothing
is wider than the page, the clock moves both maps, a press on a map follows one call on both, and
clauses show their edits."""
# needs: python3 chromium chromium-driver
# builds: dispatch_room
import pathlib
import subprocess
import sys
import tempfile
import unittest

from browser import Browser
from pages import PHONE, nameless, weak_texts
from room import PROGRAM, TOP, TestCase

SIZES = (1280, 800), PHONE
DAY = {'calls': 160, 'other_calls': 20, 'vehicles': 34, 'side': 32, 'look': 300, 'stops': 0}
WIDE = 'return document.documentElement.scrollWidth - document.documentElement.clientWidth'
SHOWN = "return ['room', '1992'].map((it) => document.getElementById(`${arguments[0]}-${it}`)"
SET = """
const clock = document.getElementById('clock');
clock.value = arguments[0];
clock.dispatchEvent(new Event('input'));
return document.getElementById('now').textContent;
"""


def setUpModule():
    global PAGE, BROWSER
    folder = pathlib.Path(unittest.enterModuleContext(
        tempfile.TemporaryDirectory(ignore_cleanup_errors=True)))
    given = [it for name, value in DAY.items() for it in ('--set', f'{name}={value}')]
    subprocess.run([sys.executable, TOP / 'examples' / '1992' / 'play.py', folder / 'page', *given,
                    '--seeds', '2', '--rates', '0,3', '--program', PROGRAM], check=True,
                   stdin=subprocess.DEVNULL, stdout=subprocess.DEVNULL)
    PAGE = (folder / 'page' / 'index.html').as_uri()
    BROWSER = unittest.enterModuleContext(Browser(folder))


class Page(TestCase):
    def setUp(self):
        super().setUp()
        BROWSER.size(1280, 800)
        BROWSER.open(PAGE)

    def shown(self, what):
        """What stands beside both maps."""
        return BROWSER.run(f'{SHOWN}.textContent)', what)

    def drawn(self):
        return BROWSER.run(f'{SHOWN}.toDataURL())', 'map')

    def test_fits(self):
        for size in SIZES:
            BROWSER.size(*size)
            self.check(f'{size}: nothing is wider', BROWSER.run(WIDE), 0)

    def test_can_be_read(self):
        self.check('weak texts', weak_texts(BROWSER), [])
        self.check('without a name', nameless(BROWSER), [])

    def test_clock(self):
        self.check('it begins', BROWSER.text('#now'), '07:00')
        before, texts = self.drawn(), self.shown('sum')
        self.check('at noon', BROWSER.run(SET, 12 * 3600), '12:00')
        for nth in (0, 1):
            self.check(f'map {nth} moves', self.drawn()[nth] == before[nth], False)
            self.check(f'text {nth} moves', self.shown('sum')[nth] == texts[nth], False)

    def test_followed_call(self):
        BROWSER.run(SET, 15 * 3600)
        self.check('none is followed', self.shown('fate'), ['', ''])
        BROWSER.click_at('#map-room', 0, 0)
        fates = [it.partition(',')[0] for it in self.shown('fate')]
        self.check('the same on both', fates[0] == fates[1] and 'Emergency' in fates[0], True)

    def test_edit(self):
        self.check('edits are shut', BROWSER.is_shown('details pre'), False)
        BROWSER.click('summary')
        self.check('one is open', BROWSER.is_shown('details pre'), True)
        self.check('what it turns', 'new:' in BROWSER.text('details pre'), True)
