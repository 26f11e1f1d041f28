"""The day of examples/1992 at a small size: what the room answers keeps its promises as seen from
outside, the list that is kept plays the day once more, the model with all promises answers as the
room, each promise that is turned moves a figure of the page, and what is kept of the table's days
is what comes of them. Whole days, and all days of the table, with --all."""
# needs: python3
# builds: dispatch_room
import dataclasses
import functools
import html.parser
import json
import os
import pathlib
import shutil
import subprocess
import sys
import tempfile

from room import PROGRAM, TOP, TestCase

FOLDER = TOP / 'examples' / '1992'
sys.path += [str(FOLDER), str(TOP / 'examples' / 'three')]

import agreement  # noqa: E402
import digest  # noqa: E402
import page  # noqa: E402
import parameters  # noqa: E402
import people  # noqa: E402
import promises  # noqa: E402
import runs  # noqa: E402
import summary  # noqa: E402
import table  # noqa: E402
from logs import Log, Queue  # noqa: E402
from model import Model  # noqa: E402
from proved_room import Exchange, desk  # noqa: E402
from rooms import Line  # noqa: E402
from watched import Watch  # noqa: E402
from world import World  # noqa: E402

EVERY = 'EVERY_PLACE' in os.environ  # tests/run --all
TENTH = {'calls': 160, 'other_calls': 80, 'vehicles': 34, 'side': 32, 'look': 300, 'desks': 2}
SMALL = {'calls': 40, 'other_calls': 5, 'vehicles': 18, 'side': 32, 'look': 600, 'desks': 2}
RATE = 2  # so that a tenth of a day has enough of each error
# Calls at a second, so many metres to the east, of a class, that need so many vehicles.
CALLS = [(0, 0, 2, 1), (0, 4000, 3, 1), (0, 8000, 1, 1), (0, 12_000, 1, 1), (900, 200, 1, 2),
         (900, -201, 3, 1), (901, 4000, 2, 1)]
# Where vehicles are on duty, and until when; two are equally near but for less than a metre.
SHIFTS = {'A001': (0, 1, 0), 'A002': (100, 13, 9000), 'A003': (2000, 0, 5000),
          'A004': (100, 4, 9000)}
HOMES = {8999: 'A002', 9000: 'A004'}  # who presses Home when, and who is stood down
STANDS_DOWN = {4999: 'A003'}
LOOKS = (0, 60, 61, 180, 181, 480, 481, 840, 841, 900, 901, 3600, 3601, 4999, 5000, 8999, 9000)
SEEN = {'call_once', 'desk_alike', 'report_once', 'sent_once'}


class Recorder(Watch):
    """A watch that keeps what it sees, and of each look whether the promise was kept."""

    def __init__(self, *desks):
        super().__init__(*desks)
        self.seen, self.looks = [], {}

    def see(self, it):
        self.seen.append(it)
        super().see(it)

    def look(self, promise, is_kept, it):
        super().look(promise, is_kept, it)
        key = promise, len(self.seen)
        self.looks[key] = self.looks.get(key, True) and is_kept


def in_model(settings, kept):
    """A day in the model."""
    return World(settings, 1, lambda it: Model(it, kept)).play()


def in_room(settings, folder):
    """The same in the room, with the model beside it."""
    world = World(settings, 1, functools.partial(agreement.Both, program=PROGRAM, folder=folder))
    world.watch = Recorder(lambda name: desk(world.crews[name].division),
                           lambda place: desk(world.city.division_of(place)))
    played = world.desks.room.room.room
    played.see = world.watch.see
    world.play()
    played.end()
    return world


def play(*words, **environment):
    """Runs the command; its status, and what it wrote to standard error."""
    done = subprocess.run([sys.executable, FOLDER / 'play.py', *map(str, words)],
                          stdin=subprocess.DEVNULL, capture_output=True, timeout=1200,
                          env=os.environ | environment)
    return done.returncode, done.stderr.decode()


class Day(TestCase):
    @classmethod
    def setUpClass(cls):
        cls.kept = pathlib.Path(cls.enterClassContext(tempfile.TemporaryDirectory()))
        cls.settings = parameters.at_rate(parameters.values({} if EVERY else TENTH), RATE)
        cls.world = in_room(cls.settings, cls.kept)
        cls.watch = cls.world.watch

    # ---- what is promised

    def test_promises(self):
        """Each message that could have broken a promise is a check."""
        for (promise, nth), is_kept in self.watch.looks.items():
            self.check(f'{promise} at message {nth}', is_kept, True)
        self.check('each was looked at', set(self.watch.looked), SEEN)

    def test_day(self):
        """It is a day in which something went wrong, and which goes on to its end."""
        counts, outcomes = self.world.counts, self.watch.outcomes
        self.check('reports came again', counts.repeated > 20, True)
        self.check('calls came again', counts.typed_again > 3, True)
        self.check('it stopped', self.settings.stops, 1)
        self.check('outcomes', set(outcomes), {'normal', 'skipped', 'wrong', 'late', 'stale'})
        self.check('vehicles were sent', counts.orders > len(self.world.emergencies) // 2, True)
        self.check('its last sample', self.world.samples[-1]['moment'], 86_400)

    def test_list(self):
        """The list plays the day once more, over the room before it."""
        copy = shutil.copy(self.kept / 'before.db', self.folder / 'copy.db')
        with (self.kept / 'day.list').open('rb') as text:
            done = subprocess.run([PROGRAM, 'replay', copy], stdin=text, capture_output=True,
                                  timeout=1200)
        self.check('it is replayed', (done.returncode, done.stdout, done.stderr),
                   (0, f'replayed {len(self.watch.seen)}\n'.encode(), b''))
        self.check('the room', digest.of_file(copy), digest.of_file(self.kept / 'room.db'))

    def test_model(self):
        """The model with all promises answers as the room, and comes to the same; without one it
        doesn't."""
        self.check('what it answers otherwise', self.world.desks.room.parted[:1], [])
        room, model, other = (summary.figures(it) for it in (
            self.world, *(in_model(self.settings, it) for it in (promises.KEPT, frozenset()))))
        self.check('figures', model, room)
        self.check('1992', other == room, False)

    # ---- each check fails on what must fail

    def broken(self, seen):
        """Which promises are seen to be broken by exchanges."""
        watch = Watch(self.watch.desk_of_vehicle, self.watch.desk_of_place)
        for it in seen:
            watch.see(it)
        return {name for name, found in watch.broken.items() if found}

    def nth(self, line, wanted=lambda it: True):
        """Where the first exchange is that begins so, is accepted, and is as wanted."""
        return next(at for at, it in enumerate(self.watch.seen)
                    if it.line.startswith(line) and it.status == 200 and wanted(it))

    def doctored(self, at, **changes):
        return [*self.watch.seen[:at], dataclasses.replace(self.watch.seen[at], **changes),
                *self.watch.seen[at + 1:]]

    def again(self, line):
        """Where a message stands that was sent before, word by word."""
        seen = set()
        for at, it in enumerate(self.watch.seen):
            key = it.token, it.line, str(it.body)
            if it.line == line and it.status == 200 and key in seen:
                return at
            seen.add(key)
        raise AssertionError(f'{line}: none is sent again')

    def test_undoctored(self):
        self.check('nothing is broken', self.broken(self.watch.seen), set())

    def test_answered_otherwise(self):
        for line, promise, changes in [
            ('POST /report', 'report_once', {'status': 409}),
            ('POST /report', 'report_once', {'content': {'status': 9}}),
            ('POST /call', 'call_once', {'content': {'incident': 9999}}),
        ]:
            listed = self.doctored(self.again(line), **changes)
            self.check(f'{line}, {changes}', self.broken(listed), {promise})

    def test_sent_twice(self):
        at = self.nth('POST /incidents', lambda it: it.line.endswith('mobilise'))
        sent = self.watch.seen[at]
        second = dataclasses.replace(sent, line='POST /incidents/9999/mobilise')
        listed = [*self.watch.seen[:at + 1], second]
        self.check('two orders', self.broken(listed), {'sent_once'})
        number = sent.line.split('/')[2]
        line = f'POST /incidents/{number}/close'
        closed = Exchange(sent.moment, sent.token, line, None, 200, {})
        self.check('closed on its way', self.broken([*self.watch.seen[:at + 1], closed]),
                   {'sent_once'})

    def rows(self, at, name, change):
        """The answer at a place with its first row changed."""
        first, *others = self.watch.seen[at].content[name]
        return self.doctored(at, content={name: [first | change, *others]})

    def test_shown_elsewhere(self):
        at = self.nth('GET /vehicles', lambda it: it.content['vehicles'][0]['incident'])
        self.check('another incident', self.broken(self.rows(at, 'vehicles', {'incident': 9999})),
                   {'sent_once'})
        self.check('none', self.broken(self.rows(at, 'vehicles', {'incident': None})),
                   {'sent_once'})

    def test_of_another_division(self):
        for line, name in [('GET /vehicles', 'vehicles'), ('GET /incidents', 'incidents')]:
            at = self.nth(line, lambda it: it.content[name])
            token = 'deskof02'
            with self.subTest(line):
                self.assertIn('desk_alike', self.broken(self.doctored(at, token=token)))


class Seeds(TestCase):
    def test_seeds(self):
        """Days that draw every number from its range, in the room and in the model; each other one
        is as before that day, with three divisions and with crews that are asked first."""
        for seed in range(10):
            before = {'divisions': 3, 'binding': 0} if seed % 2 else {}
            settings = parameters.drawn(before if EVERY else SMALL | before, seed)
            both, room, model = agreement.day(parameters.at_rate(settings, 3), PROGRAM)
            self.check(f'seed {seed}: answers otherwise', both.parted[:1], [])
            self.check(f'seed {seed}: figures', model, room)


class Edges(TestCase):
    def test_edges(self):
        """Each metre and second at which a rule begins to hold, for a day seldom comes to it."""
        settings = parameters.at_rate(parameters.values({'vehicles': len(SHIFTS)}), 0)
        self.world = World(settings, 1, functools.partial(agreement.Both, program=PROGRAM,
                                                          folder=self.folder))
        room, (east, north) = self.world.desks.room, people.MIDDLE
        for name, (to_east, to_north, until) in SHIFTS.items():
            self.world.crews[name].until = until
            room.on_duty(self.world.crews[name], (east + to_east, north + to_north))
        for self.world.now in LOOKS:
            for nth, (at, to_east, grade, needs) in enumerate(CALLS):
                if at == self.world.now:
                    room.call(people.Call(nth, (east + to_east, north), grade, needs))
            self.go_on(room)
        room.room.room.end()
        self.check('what the model answers otherwise', room.parted, [])

    def go_on(self, room):
        """A crew presses Home or is stood down, the desk looks at its list, and sends whom it
        can."""
        home, free = (self.world.crews.get(it.get(self.world.now)) for it in (HOMES, STANDS_DOWN))
        if home:
            room.report(home, people.Report(1, 'home', 0, home.home))
        if free:
            room.stand_down(free)
            room.terminal(free)
        room.lines(1)
        room.vehicles(1)
        for it in room.lacking(1):
            if name := room.proposed(it):
                room.mobilise(it, name)


class Command(TestCase):
    def test_same_numbers(self):
        """One seed gives the same numbers, however texts are hashed; another gives others."""
        words = [it for name, value in SMALL.items() for it in ('--set', f'{name}={value}')]
        words += ['--seeds', '2', '--rates', '0,3', '--program', PROGRAM]
        folders = [self.folder / name for name in ('one', 'two', 'other')]
        for nth, folder in enumerate(folders):
            more = ['--set', 'seed=1'] if nth == 2 else []
            printed = play(folder, *words, *more, PYTHONHASHSEED=str(nth))
            self.check(f'{folder.name}: it ends well', printed, (0, ''))
        for name in sorted(it.name for it in folders[0].iterdir()):
            one, two, other = ((it / name).read_bytes() for it in folders)
            self.check(f'{name}: the same', one == two, True)
            if name in ('day.list', 'day.csv', 'days.csv', 'index.html'):
                self.check(f'{name}: of another seed', one == other, False)
        self.look_at((folders[0] / 'index.html').read_text(), folders[0])

    def look_at(self, printed, folder):
        """The page names every number and every promise, and its links lead to what is there."""
        for it in parameters.ALL:
            self.check(f'the page names {it}', f'<code>{it}</code>' in printed, True)
        links = Links(printed)
        for it in promises.ALL:
            self.check(f'the page has {it.name}', page.clauses(it, folder) in printed, True)
        self.check('it links each', len(links.found) >= 2 * len(promises.ALL), True)
        for it in links.found:
            self.check(it, (folder / it.partition('#')[0]).is_file(), True)

    def test_words(self):
        for words, status, wanted in [
            (['--set', 'losst=0.1'], 2, "'losst' is no parameter"),
            (['--set', 'lost=2'], 2, 'lost is a share from 0 to 1'),
            (['--set', 'calls=0.5'], 2, 'calls is a whole number'),
            (['--rates', 'many'], 2, 'is no list of rates'),
            (['--program', '/no/program'], 1, '/no/program: there is no'),
        ]:
            found, printed = play(self.folder / 'page', *words)
            self.check(f'{words}', (found, wanted in printed), (status, True))

    def test_clauses(self):
        """Each clause and its edit are there, and the prover's refusal; what is not is refused."""
        self.check('refusals', list(json.loads(page.VERDICTS.read_text())),
                   [edit for it in promises.ALL for _, edit in it.clauses])
        for it in promises.ALL:
            links = Links(page.clauses(it, self.folder)).found
            self.check(f'{it.name}: links', len(links), 2 * len(it.clauses))
            for link in links:
                self.check(link, (self.folder / link.partition('#')[0]).is_file(), True)
        (name, edit), *_ = promises.ALL[0].clauses
        for named in (('no_such_clause', edit), (name, 'no such edit')):
            with self.assertRaises(page.NoClause):
                page.clause(*named, self.folder)


class Links(html.parser.HTMLParser):
    """Where the links of a page lead."""

    def __init__(self, text):
        super().__init__()
        self.found = []
        self.feed(text)

    def handle_starttag(self, tag, attrs):
        self.found += [value for name, value in attrs if name == 'href']


class Switches(TestCase):
    """A promise that is taken away moves figures of the page, as does a limit of both sides."""

    def figures(self, kept, rate=4, **given):
        """Those of a day that the page shows."""
        settings = parameters.at_rate(parameters.values(TENTH | given), rate)
        found = summary.figures(in_model(settings, kept))
        return {name: found[name] for name in summary.SHOWN}

    def test_each_moves_a_figure(self):
        """And each figure is moved by a promise: none is a constant."""
        few = {'screen': 3, 'vehicles': 24}
        for side, kept in (('room', promises.KEPT), ('1992', frozenset())):
            base, moved = self.figures(kept, **few), set()
            for it in promises.ALL:
                turned = self.figures(kept ^ {it.name}, **few)
                found = {name for name in base if turned[name] != base[name]}
                self.check(f'{side}, {it.name}', found == set(), False)
                moved |= found
            self.check(f'{side}: what moves', moved, set(base))

    def test_what_each_moves(self):
        base = self.figures(promises.KEPT)
        for name, figure in (('orders', 'at_two'), ('links', 'taken_twice')):
            turned = self.figures(promises.KEPT - {name})
            self.check(f'{name}: {figure}', turned[figure] > base[figure], True)
        self.check('at two', base['at_two'], 0)

    def test_limits_are_of_both_sides(self):
        for kept in (promises.KEPT, frozenset()):
            base = self.figures(kept)
            for name, value in (('slow', 1), ('desks', 1), ('screen', 0), ('clear', 900)):
                self.check(f'{name}, {len(kept)} promises',
                           self.figures(kept, **{name: value}) == base, False)

    def test_without_errors(self):
        """Without errors and stops the caricature does as well as the room: it is no straw man."""
        found, room = (self.figures(kept, rate=0, stops=0)
                       for kept in (frozenset(), promises.KEPT))
        self.check('never reached', found['never_reached'], 0)
        self.check('in time', found['sent_in_time'] >= room['sent_in_time'] - 1, True)


class Lists(TestCase):
    """What is on a screen of two lines, by hand."""

    def list(self, kind, stays, ranks=()):
        """A list with a line of each rank."""
        shown = kind(parameters.at_rate(parameters.values({'screen': 2, 'nag': 100}), 1), stays)
        for rank in ranks:
            shown.begin(line(rank))
        return shown

    def look(self, shown, now=0):
        shown.look(now)
        return [(it.rank, needs) for it, needs in shown.on_screen()]

    def test_exact_queue(self):
        shown = self.list(Queue, True, [4, 1, 2])
        self.check('the first two', self.look(shown), [(1, True), (2, True)])
        self.check('all wait', shown.waiting, 3)
        shown.end(line(1))
        self.check('the last moves up', self.look(shown), [(2, True), (4, True)])

    def test_queue_that_scrolls(self):
        shown = self.list(Queue, False, [4, 1, 2])
        self.check('the first two', self.look(shown), [(1, True), (2, True)])
        shown.end(line(2))
        self.check('the last is never seen', self.look(shown), [(1, True)])
        self.check('but waits', (shown.waiting, line(4) in shown), (2, True))
        shown.end(line(4))
        self.check('until it is over', (shown.waiting, line(4) in shown), (1, False))

    def test_log(self):
        shown = self.list(Log, False, [1, 2, 4])
        self.check('the newest two', self.look(shown), [(2, True), (4, True)])
        self.check('all wait', shown.waiting, 3)
        shown.end(line(2))
        self.check('one is over', self.look(shown), [(2, False), (4, True)])
        self.check('again', self.look(shown, 100), [(1, True), (4, True)])
        shown.take_off(line(1))
        self.check('taken off', self.look(shown, 101), [(4, True)])
        self.check('those beyond count', shown.waiting, 3)
        shown.end(line(1))
        self.check('until they are over', shown.waiting, 2)

    def test_log_that_stays(self):
        shown = self.list(Log, True, [1, 2, 4])
        self.check('the oldest two', self.look(shown), [(1, True), (2, True)])
        shown.take_off(line(1))
        self.check('the next one moves up', self.look(shown), [(2, True), (4, True)])


def line(rank):
    return Line(rank, 0, rank, 'A1')


class Kept(TestCase):
    """What stands in days.csv."""

    def test_is_the_table(self):
        self.check('its days', set(runs.read()) == set(table.Table().every()), True)

    def test_is_what_comes_of_days(self):
        kept = runs.read()
        rows = table.Table().days.values()
        for day in kept if EVERY else [it[nth % len(it)] for nth, it in enumerate(rows)]:
            self.check(str(day.row()), day.figures(), kept[day])

    def test_is_read_as_it_was_written(self):
        written = self.folder / 'days.csv'
        runs.write(written, runs.read())
        self.check('the same', written.read_text() == runs.DAYS.read_text(), True)


class Cells(TestCase):
    def test_median_and_interval(self):
        found = table.cell([5, 1, 9, 3, 7], [0, 0, 9, 0, 0])
        self.check('cell', (found.median, found.least, found.most, found.matters),
                   (5, 3, 7, False))
        self.check('it matters', table.cell([2] * 10, [1] * 9 + [2]).matters, True)
        self.check('it does not', table.cell([2] * 10, [1] * 8 + [2] * 2).matters, False)
