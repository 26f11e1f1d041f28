"""Every command in README.md, what stands beside it, docs/ and examples/: each block of a page is
typed here, in folders of the test's own, or is typed or compared by the test that is named for it,
or it is left out for a reason. A block that no test knows fails. What systemd starts and signals is
started and signalled by the unit's line; what needs root is done without."""
# needs: curl sqlite3 python3
# builds: dispatch_room
import contextlib
import json
import os
import re
import shutil
import subprocess
import sys
import time

import first_version
from boards import typed
from broken_rooms import WORK
from documents import blocks, commands
from journals import chain, entries
from played_days import DAYS, MONDAY, play
from room import (FLEET, PLAN, PROGRAM, TOP, TestCase, ask, call, dump, fleet_of, free_port, made,
                  message, on_terminal, run, sql)

sys.path.append(str(TOP / 'examples' / 'three'))
import digest  # noqa: E402

UNIT = TOP / 'examples' / 'dispatch_room.service'
ADDRESS = '127.0.0.1:8080'
QUEUE = message('deskone1', 'GET /queue')
CALLS = 'SELECT count(*) FROM calls'
CREW_TOKEN = "SELECT token FROM terminals WHERE callsign = 'A1'"
CALL = {'class': 2, 'needs': [1, 0, 0], 'note': '', 'place': 'TQ300800'}

# Pages of which a test reads every block.
WHOLE = {'TUTORIAL.md': 'tutorial', 'HTTP.md': 'http', 'JUDGING.md': 'judging',
         'CONTRIBUTING.md': 'judging'}

# Other blocks, by their first lines, with the test that reads them out of the page.
READ = {
    'OPERATING.md': {
        'sudo mkdir --parents --mode=700 /var/lib/dispatch-room': 'unit',
        '[Service]': 'operating',
        "cat >plan.csv <<'END'": 'five_desks',
        'sudo mkdir --parents --mode=700 /var/lib/dispatch-room /etc/dispatch-room': 'five_desks',
        "curl --silent --header 'X-Terminal: deskcentral' http://127.0.0.1:8082/room/vehicles":
            'five_desks',
        'sudo apt install nginx-light openssl': 'five_desks',
        'curl --silent --max-time 5 http://127.0.0.1:8080/queue | grep --quiet NoTerminal': 'unit',
        'option httpchk': 'unit'},
    'README.md': {
        '/// Whether the division may send the vehicle: it holds it, free and within its shift.':
            'documents'},
    'ARCHITECTURE.md': {
        'dispatch_room                 the program: hands on its words and streams': 'documents'},
}

# Commands that are typed by no test, with the test of what they do, and why.
LEFT_OUT = {
    './test': ('commands', 'it is the gate, and runs this test'),
    'tools/package': ('package', 'it is made there, and twice'),
    'sudo apt install ./out/dispatch-room_VERSION_amd64.deb':
        ('package', 'it is installed there by dpkg, below a folder'),
}

# The blocks that are typed here, by their first lines.
TYPED = {
    'README.md': ['./dispatch_room <examples/first-call.http'],
    'OPERATING.md': [
        'sudo systemctl stop dispatch-room', 'dispatch_room terminals room.db',
        'dispatch_room board 127.0.0.1:8080 deskone1',
        '$ journalctl --unit=dispatch-room --output=cat',
        'sudo systemctl kill --signal=STOP dispatch-room',
        'dispatch_room times room.db 1 2026-03-23 --and room.2026-04-01.db',
        'sqlite3 room.db ".backup /backup/room.db"',
        '(umask 077; sqlite3 room.db "PRAGMA page_size = 512; VACUUM INTO \'/backup/room.db\'")',
        'dispatch_room serve room.db 127.0.0.1:8080 --journal room.list',
        'dispatch_room restore room.db copy.db && : >room.list', '$ dispatch_room check room.db'],
    'FILES.md': [
        'what,number,a,b,c,d', 'callsign,division,kind,place,token',
        'incident,opened,activation', '-- Which vehicle is where, and sent to what?',
        "-- Incidents: the active, those since the day, and those with a call since then or a "
        "position's last.", 'version 2', 'cp room.db room.db-wal /backup/',
        'room 2 6b1f4e0c4d9d5a0f2a3f4a1c8f6f0f0e3f2f1c9d8b7a695847362514f0e1d2c3',
        'def entries(text):', 'list 2', 'def plain(text):'],
}

STUBS = {
    'sudo': '[ "$1" != -u ] || shift 2\nexec "$@"',
    'watch': 'while [ "$1" != dispatch_room ]; do shift; done\nexec "$@"',
    'journalctl': 'exec cat "$UNIT/log"',
    'systemctl': '''case $1 in
start)
  : >"$UNIT/serving"
  sh -c "exec $EXEC_START" >"$UNIT/serving" 2>>"$UNIT/log" </dev/null &
  echo $! >"$UNIT/pid"
  until grep --quiet serving "$UNIT/serving"; do kill -0 $! || exit 1; sleep 0.05; done ;;
stop)
  pid=$(cat "$UNIT/pid")
  kill -CONT "$pid"
  kill "$pid"
  until [ ! -e "/proc/$pid" ] || grep -q '^State:.Z' "/proc/$pid/status"; do sleep 0.05; done ;;
kill) kill "-${2#--signal=}" "$(cat "$UNIT/pid")" ;;
*) exit 1 ;;
esac''',
}


def pages():
    return [*sorted(TOP.glob('*.md')), *sorted((TOP / 'docs').glob('*.md'))]


def first_line(block):
    """The line by which a block is known: of a command without what is said beside it."""
    line = block.text.partition('\n')[0]
    return re.sub(r'(?<=\S) {3,}\S.*$', '', line) if not block.language else line


class Known(TestCase):
    """Each block of each page is known to a test, and what is known is there."""

    def test_blocks(self):
        seen = set()
        for page in pages():
            for block in blocks(page.read_text()):
                name = first_line(block)
                seen.add((page.name, name))
                with self.subTest(f'{page.name}, line {block.line}: {name}'):
                    self.assertTrue(self.is_known(page.name, block), 'no test knows it')
        named = {(page, it) for known in (READ, TYPED) for page, own in known.items() for it in own}
        self.check('what is known, and not there', sorted(named - seen), [])

    def is_known(self, page, block):
        name = first_line(block)
        return (page in WHOLE or name in READ.get(page, {}) or name in TYPED.get(page, [])
                or all(it in LEFT_OUT for it, _ in commands(block.text)))

    def test_tests(self):
        """The tests that are named are there, and read their pages."""
        for page, test in [*WHOLE.items(), *((page, test) for page, own in READ.items()
                                             for test in own.values())]:
            text = (TOP / 'tests' / f'test_{test}.py').read_text()
            self.check(f'{test} reads {page}', page.partition('.')[0] in text, True)
        for test, _ in LEFT_OUT.values():
            self.check(f'{test} is there', (TOP / 'tests' / f'test_{test}.py').exists(), True)


# The blocks of the pages beside the examples, by their first lines: the test that does what they
# say, and a word of it, or of what it imports, by which it does so. A block without one is left out
# for a reason.
BESIDE = {
    'examples/1992': {
        'examples/1992/play.py FOLDER': ('1992', 'play.py'),
        'examples/1992/play.py FOLDER --map-rate 1 --set slow=0 --set screen=40': ('1992', '--set'),
        'examples/1992/table.py && tools/pictures.py': ('1992', 'runs.write'),
        'examples/1992/agreement.py': ('1992', 'agreement.day'),
        'examples/1992/november.py': ('november', "'november.py'"),
        'cp FOLDER/before.db copy.db': ('1992', "'before.db'")},
    'examples/backup': {
        'sudo systemctl stop dispatch-room': ('backup', "'begin'"),
        'sudo cp dispatch-room-backup.service dispatch-room-backup.timer /etc/systemd/system/':
            ('unit', "'.timer'"),
        '2026-03-30.033000: replayed 2731, digest 6b1f4e0c..': ('backup', 'replayed'),
        'sudo backup.py night /var/lib/dispatch-room/room.list /var/lib/dispatch-room/copies':
            ('backup', "'night'"),
        'dispatch_room replay room.db <copies/NEXT.list': ('backup', "'replay'")},
    'examples/desks': {
        'examples/desks/desks.py 127.0.0.1:8080 --plan examples/plan.csv --places '
        'examples/desks/places.csv': ('desks', "'desks.py'"),
        'sudo apt install nginx-light openssl': ('desks', "'certificates.sh'"),
        'openssl pkcs12 -export -in desk1.pem -out desk1.p12': (None, 'it asks for a password')},
    'examples/haproxy': {
        'sudo apt install haproxy openssl': ('haproxy', "'certificates.sh'"),
        "curl --cacert authority.crt --cert desk1.pem --header 'X-Terminal: deskone1' "
        'https://room.example:8443/queue': ('haproxy', "'authority.crt'")},
    'examples/metrics': {
        'journalctl --follow --lines=0 --output=cat --unit=dispatch-room | '
        'examples/metrics/metrics.py --room 127.0.0.1:8080': ('metrics', "'--room'"),
        'sudo cp examples/metrics/dispatch_room_metrics.service /etc/systemd/system/':
            ('unit', 'OF_METRICS'),
        '$ sudo cat /etc/dispatch-room/desks': ('metrics', "'--desks'"),
        'scrape_configs:': ('metrics', 'scrape_configs')},
    'examples/three': {
        'sudo apt install etcd-server && sudo systemctl disable --now etcd     etcd, but not '
        "Debian's single member of it": ('three', 'three.until_done'),
        'prepare.py prepared 192.0.2.1 192.0.2.2 192.0.2.3': ('three_network', "'prepare.py'"),
        'sudo apt install etcd-server && sudo systemctl disable --now etcd':
            ('three_network', "'*.service'"),
        '. /etc/dispatch-room-three/companion.env': ('three_network', "'user'"),
        'companion.py begin room.db /var/lib/dispatch-room-three/room $REACH':
            ('three_network', "'begin'"),
        'companion.py import fleet.csv $REACH':
            ('three_changes', "'import'"),
        'companion.py replace 3 $REACH': ('three_network', "'replace'"),
        'companion.py drop-list $REACH': ('three_repair', "'drop-list'"),
        'prepare.py prepared 192.0.2.1 192.0.2.2 192.0.2.3 --renew':
            ('three_certificates', "'--renew'"),
        'scrape_configs:': ('three_watched', 'scrape_configs')},
    'examples/wall': {
        'examples/wall/wall.py 127.0.0.1:8080 examples/plan.csv':
            ('wall', "'wall.py'"),
        'sudo examples/haproxy/certificates.sh /etc/haproxy/dispatch-room room.example screen1':
            ('wall_front', "'certificates.sh'")},
}
# What is measured takes hours, wants a machine with nothing beside it, and is tried by nobody.
MEASURED = ['bench', 'bench/three']


def with_imports(test):
    """The text of a test, with those of what it imports of this folder, and these import."""
    texts, left = {}, [f'test_{test}']
    while left:
        file = TOP / 'tests' / f'{left.pop()}.py'
        if file.exists() and file.stem not in texts:
            texts[file.stem] = file.read_text()
            left += re.findall(r'^(?:from|import) (\w+)', texts[file.stem], re.M)
    return '\n'.join(texts.values())


class Beside(TestCase):
    """The pages beside examples and measurements: each block is known to a test, and what its
    commands run is there, and takes the words that it is given."""

    def setUp(self):
        super().setUp()
        found = [it for folder in ('examples', 'bench') for it in (TOP / folder).rglob('README.md')]
        self.pages = {str(it.parent.relative_to(TOP)): it for it in found}

    def test_blocks(self):
        self.check('pages', sorted(self.pages), sorted([*BESIDE, *MEASURED]))
        for name, known in BESIDE.items():
            firsts = [it.text.partition('\n')[0].removesuffix(' \\')
                      for it in blocks(self.pages[name].read_text())]
            shown = [it if it in known else re.sub(r'(?<=\S) {3,}\S.*$', '', it) for it in firsts]
            self.check(f'{name}: its blocks', sorted(shown), sorted(known))

    def test_tests(self):
        for name, known in BESIDE.items():
            for first, (test, word) in known.items():
                if test:
                    self.check(f'{name}: {first}: {word}', word in with_imports(test), True)

    def test_commands(self):
        for name, page in self.pages.items():
            text = '\n'.join(it.text for it in blocks(page.read_text()))
            for place, words in re.findall(r'\b((?:examples|bench)/[\w./]+|\w+\.py)\b(.*)', text):
                own = TOP / place if '/' in place else page.with_name(place)
                self.check(f'{name}: {place} is there', own.exists(), True)
                sources = ''.join(it.read_text() for it in own.parent.glob('*')
                                  if it.suffix in ('.py', '') and it.is_file())
                words = re.split(r' {3,}|\\|<|\|', words)[0]
                for option in re.findall(r'--[a-z][\w-]*|(?<=^ )[a-z]+$|(?<=^ )[a-z]+(?= )', words):
                    self.check(f'{place} takes {option}', option in sources, True)


class Typing(TestCase):
    """A folder with the room's files, and commands in front of those of the machine."""

    PAGE = None

    def setUp(self):
        super().setUp()
        self.port = free_port()
        for name in ('bin', 'unit', 'backup', 'state/dispatch-room', 'place'):
            (self.folder / name).mkdir(parents=True)
        for name, text in STUBS.items():
            (self.folder / 'bin' / name).write_text(f'#!/bin/sh\n{text}\n')
            (self.folder / 'bin' / name).chmod(0o755)
        typed(self.folder / 'bin')
        self.place = self.folder / 'place'
        self.room = self.place / 'room.db'
        self.unit_room = self.folder / 'state' / 'dispatch-room' / 'room.db'
        start = re.search('^ExecStart=(.*)$', UNIT.read_text(), re.M)[1]
        self.environment = os.environ | {
            'PATH': f'{self.folder}/bin:{os.environ["PATH"]}', 'UNIT': str(self.folder / 'unit'),
            'EXEC_START': self.here(start.replace('${ROOM_ADDRESS}', ADDRESS)
                                    .replace('/usr/bin/', f'{self.folder}/bin/'))}

    def here(self, text):
        """A text with the folders and the port of this test."""
        for one, other in [('/var/lib', f'{self.folder}/state'),
                           (ADDRESS, f'127.0.0.1:{self.port}'),
                           ('/backup/', f'{self.folder}/backup/')]:
            text = text.replace(one, other)
        return text

    def block(self, first):
        return next(it for it in blocks((TOP / 'docs' / self.PAGE).read_text())
                    if first_line(it) == first)

    def commands(self, first):
        return [it for it, _ in commands(self.block(first).text)]

    def type(self, text, status=0):
        """Types a text; gives what it printed."""
        out = self.folder / 'out'
        with out.open('wb') as to:  # (a file, since what is started in it would hold a pipe open)
            done = subprocess.run(['bash', '-e', '-c', self.here(text)], cwd=self.place, stdout=to,
                                  stderr=subprocess.STDOUT, stdin=subprocess.DEVNULL, timeout=1200,
                                  env=self.environment)
        self.check(f'{text}: its status', (done.returncode, out.read_text() if done.returncode
                                           != status else ''), (status, ''))
        return out.read_text()

    @contextlib.contextmanager
    def served(self):
        """The room of the unit, which is started."""
        run('init', self.unit_room, PLAN)
        run('import', self.unit_room, FLEET)
        try:
            self.type('systemctl start dispatch-room')
            yield
        finally:
            if (self.folder / 'unit' / 'pid').exists():
                self.type('systemctl stop dispatch-room')

    def made(self):
        """A room that is not served."""
        run('init', self.room, PLAN)
        run('import', self.room, FLEET)
        return self.room


class Readme(Typing):
    def test_first_call(self):
        """(The program is built: what builds it is tested in `examples`.)"""
        (self.place / 'dispatch_room').symlink_to(PROGRAM)
        (self.place / 'examples').symlink_to(TOP / 'examples')
        answer = (TOP / 'examples' / 'first-call.out').read_text()
        self.check('its answer', self.type(TYPED['README.md'][0]), answer)


class Operating(Typing):
    PAGE = 'OPERATING.md'

    def asked(self, *sent):
        return [it for it, _ in ask(self.port, *sent)]

    def test_lost_terminal(self):
        with self.served():
            token = self.type('\n'.join(self.commands('sudo systemctl stop dispatch-room'))).strip()
            self.check('a token', re.fullmatch('[A-Za-z0-9]{24}', token) is not None, True)
            self.check('is known, and no other', [
                self.asked(message(it, 'GET /order')) for it in (token, 'crewofa1')],
                [[200], [403]])

    def test_terminals(self):
        self.made()
        who, new, gone, kept = self.commands('dispatch_room terminals room.db')
        crews = ''.join(f'crew {it}\n' for it in ('A1', 'A2', 'A3', 'B1', 'C1'))
        self.check('who', self.type(who), f'desk 1\ndesk 2\nposition 1\n{crews}')
        self.check('a token', len(self.type(new)), 25)
        self.check('position 3', 'position 3\n' in self.type(who), True)
        self.check('gone', self.type(gone), 'revoked\n')
        self.check('no position 3', 'position 3\n' in self.type(who), False)
        before = shutil.copy(self.room, self.place / 'before.db')
        token = self.type(kept).strip()
        self.check('a token for A1', sql(self.room, CREW_TOKEN), f'{token}\n')
        self.check('it was another', sql(before, CREW_TOKEN), 'crewofa1\n')
        self.replayed(before, self.place / 'room.list')
        rows = [sorted(dump(it).splitlines()) for it in (before, self.room)]
        self.check('kept', rows[0], rows[1])

    def test_board(self):
        with self.served():
            ask(self.port, call(1))
            for words in self.commands('dispatch_room board 127.0.0.1:8080 deskone1'):
                printed = self.type(words)
                for what, wanted in [('Room at', True), ('Queue: ', True),
                                     ('Incident 1: active', '--incident' in words),
                                     ('\x1b[', 'always' in words)]:
                    self.check(f'{words}: {what}', what in printed, wanted)

    def test_log(self):
        [(command, shown)] = commands(self.block('$ journalctl --unit=dispatch-room '
                                                 '--output=cat').text)
        with self.served():
            ask(self.port, call(1), QUEUE)
            ask(self.port, message('nobody12', 'POST /report', '{}'))
            until, log = time.monotonic() + 180, ''
            while log.count('\n') < len(shown) and time.monotonic() < until:
                log = self.type(command)  # (a line comes behind its answer)
        formed = lambda it: re.sub(r'\d+ ms$', 'N ms', re.sub(r'^[-\dT:]{19}Z', 'MOMENT', it))
        self.check('lines', [formed(it) for it in log.splitlines()], [formed(it) for it in shown])

    def test_copy_of_a_served_room(self):
        with self.served():
            ask(self.port, call(1))
            self.type('\n'.join(self.commands('sudo systemctl kill --signal=STOP dispatch-room')))
            self.check('it is served on', self.asked(call(2)), [200])
        copy = self.folder / 'backup' / 'room.db'
        self.check('the copy', run('times', copy, 1, '2026-01-01')[0], 0)
        self.check('its calls', sql(copy, CALLS), '1\n')

    def typed_of(self, words):
        """Types the block that has these words."""
        [block] = [it for it in blocks((TOP / 'docs' / self.PAGE).read_text()) if words in it.text]
        return self.type(block.text)

    def test_restore(self):
        with self.served():
            ask(self.port, call(1))
            self.type('\n'.join(self.commands('sudo systemctl kill --signal=STOP dispatch-room')))
            ask(self.port, call(2))
            self.typed_of('dispatch_room restore /backup/room.db')
            self.check('it is served', self.asked(QUEUE), [200])
        self.check('the calls before the copy', sql(self.unit_room, CALLS), '1\n')
        old = self.unit_room.with_name('room.db.old')
        self.check('what was there', [run('check', old)[0], sql(old, CALLS)], [0, '2\n'])

    def replayed(self, copy, file):
        """Plays a list without messages to a copy."""
        done = subprocess.run([PROGRAM, 'replay', copy], input=file.read_bytes(),
                              capture_output=True, timeout=180)
        self.check('replayed', (done.returncode, done.stdout, done.stderr), (0, b'replayed 0\n', b''))

    def test_kept_import(self):
        (self.place / 'fleet.csv').write_text(fleet_of('Z1,1,1,TQ303804,crewofz1'))
        with self.served():
            before = shutil.copy(self.unit_room, self.folder / 'before.db')
            self.check('printed', self.typed_of('fleet.csv --journal'), 'Z1 added\n')
            self.check('Z1', self.asked(message('crewofz1', 'GET /order')), [200])
        self.replayed(before, self.unit_room.with_name('room.list'))
        self.check('kept', dump(before) == dump(self.unit_room), True)

    def test_another_plan(self):
        with self.served():
            (self.place / 'plan.csv').write_text(
                PLAN.read_text() + 'area,3,400000,100000,449999,199999\ndesk,3,deskthree3,,,\n')
            self.check('printed', self.typed_of('dispatch_room replan'), 'replanned\n')
            self.check('desk 3', self.asked(message('deskthree3', 'GET /queue')), [200])

    def test_copies(self):
        """Each by itself, of a room that has a log, as after a kill."""
        with self.served():
            ask(self.port, call(1))
        for name in ('room.db', 'room.db-wal'):
            shutil.copy(self.unit_room.with_name(name), self.place)
        shutil.copytree(self.place, self.folder / 'as it was')
        before = dump(self.unit_room)
        small = '(umask 077; sqlite3 room.db "PRAGMA page_size = 512; VACUUM INTO ' \
            '\'/backup/room.db\'")'
        for words in [*self.commands('sqlite3 room.db ".backup /backup/room.db"'),
                      *self.commands(small)]:
            shutil.rmtree(self.place)
            shutil.copytree(self.folder / 'as it was', self.place)
            shutil.rmtree(self.folder / 'backup')
            (self.folder / 'backup').mkdir()
            self.type(words)
            copy = self.folder / 'backup' / 'room.db'
            self.check(f'{words}: the copy', run('times', copy, 1, '2026-01-01')[0], 0)
            self.check(f'{words}: its rows', dump(copy) == before, True)

    def test_journal(self):
        [serve] = self.commands('dispatch_room serve room.db 127.0.0.1:8080 --journal room.list')
        begin, *others = self.commands('dispatch_room restore room.db copy.db && : >room.list')
        self.made()
        self.type(begin)
        first = (self.place / 'copy.db').read_bytes()
        process = subprocess.Popen(['bash', '-c', f'exec {self.here(serve)}'], cwd=self.place,
                                   env=self.environment, stdout=subprocess.PIPE)
        self.addCleanup(process.communicate)
        self.addCleanup(process.kill)
        self.check('it is served', process.stdout.readline(), b'serving\n')
        ask(self.port, call(1), call(2), QUEUE)
        process.terminate()
        process.wait()
        moments = [int(it[1]) for it in entries((self.place / 'room.list').read_bytes())
                   if it[0] == 'message']
        early = lambda: int(subprocess.check_output(['date', '-d', '03:15', '+%s']))
        for words in others:
            (self.place / 'copy.db').write_bytes(first)
            before = early()
            printed = self.type(words)
            if '--until' in words:  # (of the day on which that was typed, at midnight of either)
                wanted = [f'replayed {sum(at <= until for at in moments)}\n'
                          for until in (before, early())]
                with self.subTest(f'{words}, of {moments}, at {before}'):
                    self.assertIn(printed, wanted)
            elif 'verify' in words:
                self.check(words, printed.splitlines()[0], 'verified 3')
            else:
                self.check(words, printed, 'replayed 3\n')
                self.check('the room', dump(self.place / 'copy.db') == dump(self.room), True)

    def test_a_new_room(self):
        with self.served():
            ask(self.port, call(1))
            block = [it for it in blocks((TOP / 'docs' / self.PAGE).read_text())
                     if 'dispatch_room renew' in it.text][0]
            printed = self.type(block.text)
            self.check('what is in it', printed.splitlines()[0],
                       'renewed: incidents 1, calls 1, turns 0, reports 0')
            self.check('it is served', self.asked(call(1), QUEUE), [200, 200])
            [old] = self.unit_room.parent.glob('room.2*.db')
            self.check('the archive', [run('check', old)[0], sql(old, CALLS)], [0, '1\n'])

    def test_archive(self):
        """A day of an archive, by the line and by the script that the page names."""
        self.made()
        play(self.room, [(MONDAY, 'takerone', 'POST /call', CALL | {'serial': 1}),
                         (MONDAY, 'deskone1', 'POST /incidents/1/close', None),
                         (MONDAY + 4 * DAYS, 'takerone', 'POST /call', CALL | {'serial': 2})])
        archive = self.place / 'room.2026-04-01.db'
        for end in ('', '-wal'):
            os.rename(f'{self.room}{end}', f'{archive}{end}')
        self.assertEqual(run('renew', archive, self.room, '--since', '2026-03-25')[0], 0)
        wanted = f'incident,opened,activation\n1,{MONDAY},\n'
        [words] = self.commands('dispatch_room times room.db 1 2026-03-23 --and room.2026-04-01.db')
        self.check(words, self.type(words), wanted)
        text = (TOP / 'docs' / self.PAGE).read_text()
        script = re.search(r'`(examples/weekly/times.sh [^`]*)`', text)[1]
        self.check(script, self.type(f'{TOP}/{script}'), wanted)

    def test_what_is_explained(self):
        """As on a terminal. The fleet has its mistake in line 9."""
        self.made()
        rows = [f'V{it},1,1,TQ303804,crewofv{it}0' for it in range(7)]
        (self.place / 'fleet.csv').write_text(fleet_of(*rows, 'V9,9,1,TQ303804,crewofv90'))
        for command, shown in commands(self.block('$ dispatch_room check room.db').text):
            words = command.split()[1:]
            with contextlib.chdir(self.place), contextlib.ExitStack() as stack:
                if 'in use' in ''.join(shown):
                    process = stack.enter_context(subprocess.Popen(
                        [PROGRAM, 'serve', 'room.db', f'127.0.0.1:{self.port}'],
                        stdout=subprocess.PIPE))
                    stack.callback(process.kill)
                    process.stdout.readline()
                _, output = on_terminal(*words)
            formed = lambda it: re.sub(r'process \d+', 'process N', it)
            self.check(command, [formed(it) for it in output.splitlines()],
                       [formed(it) for it in shown])


class Files(Typing):
    PAGE = 'FILES.md'

    def put(self, name, first):
        (self.place / name).write_text(self.block(first).text)

    def played(self, *messages):
        """The room after messages, each with its moment."""
        room = self.made()
        sent = digest.head_of(room).encode()
        sent += b''.join(b'message %d %d\n%s\n' % (moment, len(it), it) for moment, it in messages)
        done = subprocess.run([PROGRAM, 'replay', room, '--answers', '--history'], input=sent,
                              capture_output=True, timeout=180)
        self.check('each is answered well', [done.returncode, done.stdout.count(b'HTTP/1.1 200')],
                   [0, len(messages)])
        return room

    def test_plan_and_fleet(self):
        self.put('plan.csv', 'what,number,a,b,c,d')
        self.put('fleet.csv', 'callsign,division,kind,place,token')
        self.check('init', self.type('dispatch_room init room.db plan.csv'),
                   'created: divisions 2, areas 2, terminals 3\n')
        self.check('import', self.type('dispatch_room import room.db fleet.csv'), 'A1 added\n')

    def test_report(self):
        day, later = 1774742400, 1774825199
        on_duty = message('deskone1', 'POST /vehicles/A1/duty',
                          f'{{"place":"TQ303804","until":{later}}}')
        send = message('deskone1', 'POST /incidents/1/mobilise', '{"vehicle":"A1"}')
        self.played((day, call(1)), (day, on_duty), (day + 120, send), (later, call(2, 'TQ350850')))
        self.check('the report', self.type('dispatch_room times room.db 1 2026-03-29'),
                   self.block('incident,opened,activation').text)

    def test_questions(self):
        """Each is answered; of a day in which there is something to answer."""
        until = int(time.time()) + 3600
        duty = [message('deskone1', f'POST /vehicles/{it}/duty',
                        f'{{"place":"TQ303804","until":{until}}}') for it in ('A1', 'A2')]
        send = message('deskone1', 'POST /incidents/1/mobilise', '{"vehicle":"A1"}')
        lend = message('deskone1', 'POST /vehicles/A2/lend', f'{{"to":2,"until":{until}}}')
        report = lambda number, button: message('crewofa1', 'POST /report', json.dumps(
            {'button': button, 'number': number, 'order': 1, 'place': 'TQ300800'}))
        room = self.played(*((1774742400, it) for it in [
            call(1), *duty, send, lend, message('desktwo2', 'POST /vehicles/A2/accept'),
            report(1, 'scene'), report(2, 'mobile')]))
        text = self.block('-- Which vehicle is where, and sent to what?').text
        questions = [it for it in text.split(';\n') if it.strip()]
        self.check('questions', len(questions), 5)
        found = [sql(room, f'\n{it}') for it in questions]  # or '--' would be an option
        self.check('no mistake', [it for it in found if 'Error' in it or 'sqlite3:' in it], [])
        self.check('rows', [it.count('\n') for it in found], [5, 1, 1, 2, 1])

    def test_renewed_rows(self):
        """What is left is what `renew` leaves."""
        days = [1774224000, 1774310400, 1774396800, 1774742400]
        duty = message('deskone1', 'POST /vehicles/A1/duty',
                       '{"place":"TQ303804","until":1774800000}')
        close = [message('deskone1', f'POST /incidents/{it}/close') for it in (1, 2)]
        report = [message('crewofa1', 'POST /report', json.dumps(
            {'button': 'scene', 'number': it, 'order': 0, 'place': 'TQ300800'}))
            for it in (1, 2, 3)]
        clear = message('deskone1', 'POST /queue/A1/1/clear')
        room = self.played((days[0], duty), (days[0], call(1)), (days[0], report[0]),
                           (days[0], clear), (days[0], close[0]), (days[1], call(2, 'TQ350850')),
                           (days[1], report[1]), (days[1], close[1]),
                           (days[3], call(3, 'TQ330830')), (days[3], report[2]))
        self.type('dispatch_room renew room.db new.db --since 2026-03-25')
        kept, of_reports = self.statements()
        with contextlib.closing(digest.opened(room)) as old, \
                contextlib.closing(digest.opened(self.place / 'new.db')) as new:
            rows = lambda file, text: sorted(file.execute(text, {'since': days[2]}).fetchall())
            incident, of = '(division, number) IN kept', '(division, incident) IN kept'
            for table, text in [
                    ('incidents', f'{kept} SELECT * FROM incidents WHERE {incident}'),
                    ('calls', f'{kept} SELECT * FROM calls WHERE {of}'),
                    ('turns', f'{kept} SELECT * FROM turns WHERE {of}'),
                    ('reports', of_reports)]:
                left, all_of = rows(old, text), rows(old, f'SELECT * FROM {table}')
                self.check(f'{table}: as renewed', rows(new, f'SELECT * FROM {table}'), left)
                if table in ('incidents', 'calls', 'reports'):
                    self.check(f'{table}: some stay behind', 0 < len(left) < len(all_of), True)

    def statements(self):
        """The beginning that says which incidents are kept, and the statement for reports."""
        name = next(it for it in TYPED['FILES.md'] if it.startswith('-- Incidents: the active'))
        first, _, last = [it for it in re.split(r'^--.*\n', self.block(name).text, flags=re.M)
                          if it.strip()][0].partition('SELECT * FROM incidents WHERE')
        of_reports = self.block(name).text.partition("vehicle's last.\n")[2].rstrip(';\n')
        self.check('all are read', bool(first and last and of_reports), True)
        return first, of_reports

    def test_check(self):
        sql(self.made(), WORK)
        self.check('a room with work', self.type('dispatch_room check room.db'),
                   self.block('version 2').text)

    def test_migrate(self):
        first_version.killed_room(self.room)
        self.check('migrated', self.type('\n'.join(self.commands('cp room.db room.db-wal '
                                                                 '/backup/'))), 'migrated\n')
        self.check('the copy', sql(self.folder / 'backup' / 'room.db',
                                   'SELECT version FROM meta'), '1\n')

    def function(self, first):
        """A function that stands on the page."""
        found = {'hashlib': __import__('hashlib')}
        exec(self.block(first).text, found)
        return found[re.match(r'def (\w+)', first)[1]]

    def test_entries(self):
        """The list on the page, and one that was kept, are read by what stands there."""
        entries = self.function('def entries(text):')
        text = self.block('room 2 6b1f4e0c4d9d5a0f2a3f4a1c8f6f0f0e3f2f1c9d8b7a695847362514f0e1d2c3'
                          ).text
        head, _, rest = text.partition('POST')
        sent, _, end = rest.partition('\n\n\n')
        sent = f'POST{sent}\n\n'.replace('\n', '\r\n')
        read = list(entries(f'{head}{sent}\n{end}'.encode()))
        self.check('of the page', [it[0] for it in read], ['room', 'message', 'answer'])
        self.check('its message', read[1][2], sent.encode())

    def test_plain(self):
        plain = self.function('def plain(text):')
        bodies = [b'room 2 %s\n' % (b'0' * 64), b'message 1 4\nwhat\n', b'end\n', b'answer 200\n']
        self.check('the records', plain(chain(bodies)), b''.join(it for it in bodies
                                                                 if it != b'end\n'))
        with self.assertRaises(AssertionError):
            plain(chain(bodies).replace(b'what', b'that'))

    def test_lengths_of_the_chain(self):
        """The lengths that the page shows are those of the records of the list above it."""
        shown = re.findall(r'^(\d{5}) ', self.block('list 2').text, re.M)
        head = 'room 2 6b1f4e0c4d9d5a0f2a3f4a1c8f6f0f0e3f2f1c9d8b7a695847362514f0e1d2c3'
        lines = self.block(head).text.splitlines()
        size = int(lines[1].split()[2])
        self.check('lengths', [int(it) for it in shown],
                   [len(head) + 1, len(lines[1]) + 1 + size + 1])
