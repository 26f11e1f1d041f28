"""All pages for those who hear them and for those without a mouse, by the roles and names of
Chromium's accessibility tree: each control has a name, no two buttons of a region have the same,
and Tab comes to each in the order in which they are read. The rooms are played."""
# needs: chromium chromium-driver
import urllib.parse

from browser import of_module, until
from pages import companion, nameless, repeated, sign_in, spoken, unseen_focus
from room import TestCase
import test_allocator
import walls
from test_allocator import (NOW, Lists, PlayedRoom, entry, history, incident, loan, show, vehicle,
                            words_of)

BROWSER = None
STYLE = '<style>:focus { outline: 3px solid }</style>'
# Pages with a fault each, and what is found of it.
FAULTS = [
    ('a button without a name', '<button></button><button>One</button>', nameless, ['button']),
    ('a picture without one', '<a href="#x"><img src="data:,"></a>', nameless, ['link']),
    ('two buttons of one name', '<button>Take</button><button>Take</button>', repeated,
     ["button 'Take'"]),
    ('two in two lines', '<ul><li>A1 <button>Take</button><li>A2 <button>Take</button></ul>',
     repeated, []),
    ('two in one line', '<ul><li><button>Take</button> A2 <button>Take</button></ul>',
     repeated, ["button 'Take'"]),
    ('one that Tab never comes to', '<button>One</button><div tabindex="0" id="a">Two</div>'
     '<input aria-label="Three" onfocus="this.previousSibling.previousSibling.focus()">',
     unseen_focus, ['never: <input']),
    ('one that stands apart', '<button>One</button><button tabindex="1">Two</button>',
     unseen_focus, ['never: <button tabindex="1">']),
    ('one that comes too late',
     '<button onkeydown="event.preventDefault(); c.focus()">One</button><button id="b">Two</button>'
     '<button id="c" onkeydown="event.preventDefault(); b.focus()">Three</button>',
     unseen_focus, ['after what stands below it: <button id="b"']),
    ('three that look alike', '<input aria-label="a"><input aria-label="a"><input aria-label="a">',
     unseen_focus, []),
    ('a group of which one is reached', '<label><input type="radio" name="r">One</label>'
     '<label><input type="radio" name="r">Two</label><button>Three</button>', unseen_focus, []),
]


def setUpModule():
    global BROWSER
    BROWSER = test_allocator.BROWSER = of_module()


OTHER_ROLE = 403, 39


def desk():
    """What a desk has, and what a desk is answered."""
    answers = {
        'GET /incidents/3/propose': (200, {'proposals': [
            {'breaks': False, 'distance': 100, 'kind': 1, 'vehicle': it} for it in ('A1', 'A3')]}),
        'GET /incidents/3': (200, history(3, 'A2', note='no pulse')),
    }
    return Lists(answers, queue=[entry(1, 3), entry(4, 7, 'A2')],
                 incidents=[incident(3, 1), incident(4, 2)],
                 vehicles=[vehicle('A1'), vehicle('A2', 2), vehicle('A3')],
                 points=[{'cover': 2, 'held': 0, 'number': 1, 'place': [530000, 180000]}],
                 offers=[loan('B1', 2, 1)], loans=[loan('B2', 2, 1)])


def other(**answers):
    """What a crew or a call taker is answered, who have no lists."""
    found = Lists({f'GET /{name}': it for name, it in answers.items()})
    found.lists = {}
    return found


CREW = {'queue': OTHER_ROLE, 'last': (200, {'number': 4, 'order': 7}),
        'order': (200, {'post': None, 'status': 2, 'order': {
            'class': 1, 'division': 1, 'incident': 3, 'order': 7, 'place': [530000, 180000]}})}
JOB = {'class': 1, 'notes': ['no pulse'], **CREW['order'][1]}
TAKER = {'queue': OTHER_ROLE, 'order': OTHER_ROLE, 'last': (200, {'serial': 4})}


class Found(TestCase):
    def test_faults(self):
        for what, page, search, wanted in FAULTS:
            BROWSER.open('data:text/html,' + urllib.parse.quote(
                f'<!doctype html><title>A page</title>{STYLE}<main>{page}</main>'))
            found = [str(it) for it in search(BROWSER)]
            self.check(what, [it[:len(start)] for it, start in zip(found, wanted)], wanted)
            self.check(f'{what}: nothing else', len(found), len(wanted))


class Pages(TestCase):
    def serve(self, answers):
        """The pages over a room that is played; gives their address."""
        room = PlayedRoom(answers)
        self.addCleanup(room.server_close)
        self.addCleanup(room.shutdown)
        BROWSER.size(1600, 900)
        return self.enterContext(companion(room.port))

    def check_names(self, what):
        self.check(f'{what}: names', nameless(BROWSER), [])
        self.check(f'{what}: one name', repeated(BROWSER), [])

    def check_page(self, what):
        self.check_names(what)
        self.check(f'{what}: Tab', unseen_focus(BROWSER), [])

    def test_desk(self):
        """Each list with a line selected, each form, and an incident's own page."""
        show(self.serve(desk()))
        self.check_page('a desk')
        for keys in ['1', '3', '3 n', 'Escape 3 m', 'Escape 4 t', 'Escape 5 d', 'Escape 5 p',
                     'Escape 5 g', 'Escape 5 l', 'Escape 6', 'Escape 1 Enter', 'Escape i']:
            BROWSER.press(*keys.split())
            self.check_names(keys)
        BROWSER.press('Escape', '3', 'Home', 'o')
        self.check('the incident', bool(until(lambda: 'no pulse' in words_of('#incident'))), True)
        self.check_page("an incident's page")
        BROWSER.press('Escape', '?')
        self.check_names('all keys')

    def test_handover(self):
        """What is printed has headings, and each list under its own."""
        show(self.serve(desk()))
        BROWSER.devtools('Emulation.setEmulatedMedia', media='print')
        nodes = spoken(BROWSER)[0].values()
        BROWSER.devtools('Emulation.setEmulatedMedia', media='')
        headings = [it['name']['value'] for it in nodes if it['role']['value'] == 'heading']
        self.check('headings', [it for it in headings if not it.strip()], [])
        self.check('each once', len(headings), len(set(headings)))

    def test_taker(self):
        sign_in(BROWSER, self.serve(other(**TAKER)), 'taker', 'takerone')
        self.check_page("a call taker's page")
        BROWSER.click('#place')
        BROWSER.type('hall')
        self.check_names('places found')

    def test_crew(self):
        room = other(**CREW, job=(200, JOB))
        sign_in(BROWSER, self.serve(room), 'crew', 'crewofa1')
        self.check('the job', bool(until(lambda: 'no pulse' in words_of('#order'))), True)
        self.check_page("a crew's page")
        room.answers['GET /job'] = 200, JOB | {'notes': ['no pulse', 'a fall']}
        self.check('a note', bool(until(lambda: 'New: a fall' in words_of('#order'))), True)
        self.check_page('a note that is new')

    def test_signing_in(self):
        BROWSER.open(f'{self.serve(desk())}desks/index.html')
        self.check_page('where one signs in')

    def test_wall(self):
        def answer_of(token, what):
            return {'vehicles': [walls.vehicle('A1'), walls.vehicle('A2', 2)], 'points': [],
                    'incidents': [walls.incident(it) for it in range(1, 40)],
                    'queue': [{'number': it, 'rank': 1, 'vehicle': '', 'since': NOW - 60}
                              for it in range(1, 40)]}[what]

        room = walls.played(self, answer_of)
        BROWSER.open(self.enterContext(walls.wall(room.port, walls.plan_of(self.folder, 3))))
        until(lambda: walls.pictures(BROWSER))
        BROWSER.press('Space')
        self.check_page('the wall')
