"""What the crew's page shows, over every order of events, in node without a browser: against a room
by the rules of docs/RULES.md. Of the first two events a press may be of any button, of the others
of those that change something. Five events; with EVERY_PLACE seven."""
# needs: nodejs
import json
import os
import subprocess

from documents import table_of_buttons
from room import TOP, TestCase

EVERY = 'EVERY_PLACE' in os.environ
DEPTH, ANY_BUTTON = (7 if EVERY else 5), 2
DESKS = TOP / 'examples' / 'desks'

# Lines of crew-view.js, crew-job.js or crew-buttons.js that are otherwise, the fault that it comes
# to, and how many events lead there.
MUTATIONS = [
    ('what was answered is not kept',
     'Math.max(0, ...messages.filter((it) => it.answer).map((it) => it.number))', '0', 'behind', 1),
    ('Home ends an order that came later', "button === 'home' && now.order !== null",
     "button === 'none' && now.order !== null", 'unseen', 2),
    ('an answer that differs is no news', ' || !isAsExpected', '', 'untrue', 3),
    ('a lost answer is not minded', ' || isUnsure', '', 'untrue', 5),
    ('a press about another order acts', 'order !== now.last) return', 'false) return',
     'untrue', 3),
    ('Return keeps the order', 'ENDS_TURN.includes(button) ? null : now.order', 'now.order',
     'untrue', 1),
    ('what was seen goes with the next answer', 'return isNew ? {', 'return true ? {', 'misread',
     2),
    ('what was seen stays with the next order', 'before?.order !== content.order.order', '!before',
     'misread', 2),
    ('notes are counted', 'text !== seen[passed]', 'passed >= seen.length', 'misread', 2),
    ('Seen is not kept', 'seen: allSeen(kept.room) });', 'seen: kept.seen });', 'misread', 3),
    ('a stand-down is no news', 'return mayBeOwn && status !== RETURNING ? 0', 'return before ? 0',
     'untold', 2),
    ('a Return is a stand-down', 'nowOf(before, messages).order ?? 0;',
     'before.room.order?.order ?? 0;', 'false', 3),
    ('a Home under way is a stand-down', '(!it.answer || isStray', '(it.answer && isStray',
     'false', 6),
]
FILES = 'crew-view.js', 'crew-job.js', 'crew-buttons.js'


class Orders(TestCase):
    def setUp(self):
        super().setUp()
        for it in FILES:
            (self.folder / it).write_text((DESKS / it).read_text())
        script = TOP / 'tests' / 'crew_orders.js'
        (self.folder / script.name).write_text(script.read_text())
        (self.folder / 'package.json').write_text('{"type":"module"}')
        table = table_of_buttons((TOP / 'docs' / 'RULES.md').read_text())
        (self.folder / 'table.json').write_text(json.dumps({
            status: {button.lower(): it for button, it in row.items()}
            for (status, _), row in table.items()}))

    def search(self, depth, any_button, *which):
        """The states that were passed, and the shortest way to each fault."""
        done = subprocess.run(
            ['node', 'crew_orders.js', 'table.json', str(depth), str(any_button), *which],
            cwd=self.folder, stdin=subprocess.DEVNULL, capture_output=True, timeout=3600)
        self.assertEqual(done.stderr.decode(), '')
        found = json.loads(done.stdout)
        return found['states'], found['faults']

    def test_page(self):
        states, faults = self.search(DEPTH, ANY_BUTTON)
        self.check('no fault', faults, {})
        self.check('many states', states > 20_000, True)

    def test_before(self):
        """The page that began with no answered report lost an order: opened again, it showed the
        job before, and its large button was Home."""
        _, faults = self.search(3, 1, 'before')
        self.check('the order is dropped', faults.get('shown'), ['status 2', 'reload'])
        self.check('and what is shown is untrue', faults.get('untrue'), ['status 2', 'reload'])

    def test_mutations(self):
        """Each line that guards against a fault is needed."""
        for what, old, new, fault, depth in MUTATIONS:
            self.check(f'{what}: it is found', fault in self.mutated(old, new, depth), True)

    def mutated(self, old, new, depth):
        texts = {it: (DESKS / it).read_text() for it in FILES}
        self.assertEqual(sum(it.count(old) for it in texts.values()), 1, old)
        for name, text in texts.items():
            (self.folder / name).write_text(text.replace(old, new))
        return self.search(depth, 0)[1]
