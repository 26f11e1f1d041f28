"""The Debian package from outside: made twice with the same bytes, judged by Debian's lintian,
installed in an empty root, used from there where no toolchain is, and removed."""
# needs: python3 bash binutils curl dpkg groff-base lintian
# builds: dispatch_room
import contextlib
import gzip
import os
import pathlib
import re
import shutil
import subprocess
import tempfile
import threading

from documents import LINK, comparable
from room import TOP, TestCase, free_port

DOCUMENTS = 'usr/share/doc/dispatch-room'
UNIT = 'usr/lib/systemd/system/dispatch-room.service'
PAGES_UNIT = 'usr/lib/systemd/system/dispatch-desks.service'
PAGE = 'usr/share/man/man1/dispatch_room.1.gz'
COMPLETION = 'usr/share/bash-completion/completions/dispatch_room'
ROTATION = 'etc/logrotate.d/dispatch-room'
OF_DEBIAN = [f'{DOCUMENTS}/{it}' for it in ('copyright', 'changelog.gz', 'changelog.Debian.gz')]
EXAMPLES = TOP / 'examples'
SCRIPTS = ['1992/agreement.py', '1992/november.py', '1992/play.py', '1992/table.py',
           '1992/verdicts.py', 'backup/backup.py', 'change.sh', 'day.sh', 'desks/desks.py',
           'haproxy/certificates.sh', 'metrics/metrics.py', 'month/month.sh', 'three/companion.py',
           'three/prepare.py', 'three/three.py', 'wall/wall.py', 'weekly/renew.sh',
           'weekly/times.sh']

# What a day in the room calls beside the program.
TOOLS = ['bash', 'curl', 'date', 'dirname', 'sleep']
SECTIONS = ['NAME', 'SYNOPSIS', 'DESCRIPTION', 'COMMANDS', 'EXIT STATUS', 'DIAGNOSTICS', 'FILES',
            'SEE ALSO']

# What is typed up to a key that completes it, in a folder with a file plan.csv, and the words then.
TYPED = [
    ('ser', ['serve']),
    ('serve room.db 127.0.0.1:9 --connec', ['serve', 'room.db', '127.0.0.1:9', '--connections']),
    ('serve --journal-sync al', ['serve', '--journal-sync', 'always']),
    ('board --color ne', ['board', '--color', 'never']),
    ('init room.db pl', ['init', 'room.db', 'plan.csv']),
    ('serve --journal pl', ['serve', '--journal', 'plan.csv']),
    ('board --token pl', ['board', '--token', 'plan.csv']),
    ('serve --idle pl', ['serve', '--idle', 'pl']),
    ('board pl', ['board', 'pl']),
    ('check --color al', ['check', '--color', 'al']),
]


def output(*words, **named):
    """What a command prints; that it fails, or writes anything to standard error, is an error."""
    done = subprocess.run(list(map(str, words)), stdin=subprocess.DEVNULL, capture_output=True,
                          timeout=180, **named)
    assert (done.returncode, done.stderr) == (0, b''), f'{words}: {done}'
    return done.stdout.decode()


def starts_package(folder, mask, zone):
    """Starts to make the package in a folder, under a mask of modes and a time zone."""
    return subprocess.Popen([TOP / 'tools' / 'package', folder], stdin=subprocess.DEVNULL,
                            stdout=subprocess.PIPE, umask=mask, cwd=folder,
                            env=os.environ | {'TZ': zone})


def drain(screen):
    """Reads what a terminal shows until it is closed."""
    with contextlib.suppress(OSError):
        while screen.read(4096):
            pass


class Root:
    """An empty root with a database of packages, and what is installed in it."""

    def __init__(self, folder, package):
        self.folder = folder
        state = folder / 'var' / 'lib' / 'dpkg'
        for it in (state, state / 'info', state / 'updates'):
            it.mkdir(parents=True)
        (state / 'status').touch()
        self.dpkg('--install', package)

    def dpkg(self, *words):
        # The C library is not in this root, nor is its administrator who runs this.
        options = [f'--force-{it}' for it in ('depends', 'not-root', 'bad-path')]
        # A small machine may be set to leave documents out.
        options += [f'--path-include=/usr/share/{it}/*' for it in ('doc', 'man')]
        subprocess.run(['dpkg', f'--root={self.folder}', '--log=/dev/null', *options, *words],
                       check=True, stdin=subprocess.DEVNULL, stdout=subprocess.DEVNULL,
                       stderr=subprocess.DEVNULL)

    def state(self):
        words = ['dpkg-query', f'--admindir={self.folder}/var/lib/dpkg', '--show',
                 '--showformat=${Package} ${db:Status-Abbrev}\n']
        return subprocess.run(words, capture_output=True).stdout.decode()

    def files(self):
        """What lies in it, but for the database."""
        found = [it.relative_to(self.folder) for it in self.folder.rglob('*')]
        return sorted(str(it) for it in found if it.parts[:1] != ('var',))


class Package(TestCase):
    """The package, which is made twice at once, and what is installed of it."""

    @classmethod
    def setUpClass(cls):
        folder = pathlib.Path(cls.enterClassContext(tempfile.TemporaryDirectory()))
        made = []
        for name, mask, zone in [('one', 0o022, 'UTC'), ('two', 0o077, 'Asia/Tokyo')]:
            (folder / name).mkdir()
            made.append(starts_package(folder / name, mask, zone))
        cls.packages = [pathlib.Path(it.communicate(timeout=1200)[0].decode().strip())
                        for it in made]

    def setUp(self):
        super().setUp()
        self.root = Root(self.folder / 'root', self.packages[0])
        self.program = self.path('usr/bin/dispatch_room')
        self.examples = self.path(DOCUMENTS) / 'examples'

    def path(self, place):
        return self.root.folder / place

    # ---- what is in it

    def test_same_bytes(self):
        one, two = self.packages
        self.check('names', one.name, two.name)
        self.check('bytes', one.read_bytes() == two.read_bytes(), True)

    def test_control(self):
        field = lambda name: output('dpkg-deb', '--field', self.packages[0], name).strip()
        self.check('name', field('Package'), 'dispatch-room')
        self.check('architecture', field('Architecture'),
                   output('dpkg', '--print-architecture').strip())
        version = re.escape(output(self.program, '--version', env={}).split()[-1])
        with self.subTest('its version is that of the program, and the moment of the tree'):
            self.assertRegex(field('Version'), rf'^{version}\.\d{{8}}\.\d{{4}}-1~local$')
        unpacked = lambda name: gzip.decompress(self.path(f'{DOCUMENTS}/{name}').read_bytes())
        self.check('so says its changelog', unpacked('changelog.Debian.gz').decode().split()[:2],
                   ['dispatch-room', f'({field("Version")})'])
        self.check('it has all changes', unpacked('changelog.gz'),
                   (TOP / 'CHANGELOG.md').read_bytes())
        with self.subTest('the C library is all that it needs'):
            self.assertRegex(field('Depends'), r'^libc6 \(>= [0-9.]+\)$')
        control = self.folder / 'control'
        output('dpkg-deb', '--control', self.packages[0], control)
        self.check('it has no scripts', sorted(it.name for it in control.iterdir()),
                   ['conffiles', 'control', 'md5sums'])
        self.check('what may be changed', (control / 'conffiles').read_text(), f'/{ROTATION}\n')
        done = subprocess.run(['md5sum', '--check', '--quiet', control / 'md5sums'],
                              cwd=self.root.folder, capture_output=True)
        self.check('sums', (done.returncode, done.stdout), (0, b''))
        sums = (control / 'md5sums').read_text().splitlines()
        files = [it for it in self.root.files() if self.path(it).is_file()]
        files.remove(ROTATION)
        self.check('a sum for each file', sorted(it.split('  ')[1] for it in sums), files)

    def test_files(self):
        listed = output('dpkg-deb', '--contents', self.packages[0])
        rows = [it.split(maxsplit=5) for it in listed.splitlines()]
        self.check('owners', {row[1] for row in rows}, {'root/root'})
        self.check('modes of folders', {row[0] for row in rows if row[5].endswith('/')},
                   {'drwxr-xr-x'})
        modes = {row[5].removeprefix('./'): row[0] for row in rows if not row[5].endswith('/')}
        scripts = {f'{DOCUMENTS}/examples/{it}' for it in SCRIPTS}
        programs = scripts | {'usr/bin/dispatch_room'}
        documents = [*set(TOP.glob('*.md')) - {TOP / 'CHANGELOG.md'},
                     *(TOP / 'bench').glob('**/README.md'), TOP / 'bench' / 'figures.csv',
                     *EXAMPLES.glob('*.*'), *EXAMPLES.glob('*/*.*'), *(TOP / 'docs').glob('*.*')]
        others = {f'{DOCUMENTS}/{it.relative_to(TOP)}' for it in documents}
        others |= {UNIT, PAGES_UNIT, PAGE, COMPLETION, ROTATION, *OF_DEBIAN}
        wanted = dict.fromkeys(programs | others, '-rw-r--r--')
        wanted |= dict.fromkeys(programs, '-rwxr-xr-x')
        self.check('files', modes, wanted)

    def test_lintian(self):
        """Debian's own judge has no error and no warning."""
        words = ['lintian', '--allow-root', '--no-cfg', '--fail-on', 'error,warning']
        judged = lambda *more: subprocess.run([*words, *more], stdin=subprocess.DEVNULL,
                                              capture_output=True, timeout=600)
        done = judged(self.packages[0])
        self.check('lintian', (done.returncode, done.stdout.decode()), (0, ''))
        worse = self.folder / 'worse'
        output('dpkg-deb', '--raw-extract', self.packages[0], worse)
        (worse / DOCUMENTS / 'copyright').unlink()
        output('dpkg-deb', '--root-owner-group', '--build', worse)
        done = judged('--tags', 'no-copyright-file', f'{worse}.deb')
        self.check('a worse one', (done.returncode, done.stdout.decode()),
                   (2, 'E: dispatch-room: no-copyright-file\n'))

    def test_copyright(self):
        """Each library below the program that comes from elsewhere is named."""
        text = self.path(f'{DOCUMENTS}/copyright').read_text()
        lines = [it for it in (TOP / 'crates.txt').read_text().splitlines() if it[:1] != '#']
        own = {it.partition(':')[0] for it in lines}
        below = {name for it in lines for name in it.partition(':')[2].split()} - own
        self.check('there are libraries', {'clap', 'sqlite', 'jiff'} < below, True)
        for name in sorted(below):
            is_named = f'{name}/*' in text or re.match('(sqlite_|std_)', name) or name == 'libc'
            self.check(name, bool(is_named), True)
        self.check('a licence for each', set(re.findall('^License: (.*)$', text, re.M))
                   >= {'Expat', 'Apache-2.0', 'BSD-3-Clause'}, True)

    def test_stripped(self):
        done = subprocess.run(['nm', self.program], capture_output=True)
        self.check('no symbols', b'no symbols' in done.stderr, True)

    def test_links(self):
        """Links between documents lead somewhere, but for those into the sources."""
        for page in self.path(DOCUMENTS).rglob('*.md'):
            for name, link, _ in LINK.findall(page.read_text()):
                if '://' not in link and not re.search('(crates|edits)/', link):
                    self.check(f'{page.name}: {name}', (page.parent / link).exists(), True)

    # ---- its use

    def test_first_call(self):
        done = subprocess.run([self.program], env={}, cwd=self.root.folder, capture_output=True,
                              input=(self.examples / 'first-call.http').read_bytes())
        self.assertEqual((done.returncode, done.stdout, done.stderr),
                         (0, (EXAMPLES / 'first-call.out').read_bytes(), b''))

    def test_day(self):
        """A day in the room; nothing is on the PATH but what is installed, and a few commands."""
        tools, port = self.folder / 'tools', free_port()
        tools.mkdir()
        for name in TOOLS:
            (tools / name).symlink_to(shutil.which(name))
        day = self.folder / 'day'
        with day.open('wb') as out:
            subprocess.run(['bash', self.examples / 'day.sh', self.folder, str(port)],
                           env={'PATH': f'{self.program.parent}:{tools}'}, cwd=self.root.folder,
                           stdin=subprocess.DEVNULL, stdout=out, stderr=subprocess.STDOUT)
        lines = day.read_text().replace(f':{port}', ':8192').split('\n')
        self.assertMultiLineEqual('\n'.join(comparable(it, self.folder) for it in lines),
                                  (EXAMPLES / 'day.out').read_text())

    def test_unit(self):
        """What the unit starts serves a room."""
        unit = self.path(UNIT).read_text()
        self.check('it is the example', unit, (EXAMPLES / 'dispatch_room.service').read_text())
        program, serve, file, address, *more = re.search('^ExecStart=(.*)$', unit, re.M)[1].split()
        self.check('it serves', serve, 'serve')
        folder = re.search('^StateDirectory=(.*)$', unit, re.M)[1]
        self.check('its room', file, f'/var/lib/{folder}/room.db')
        room = self.folder / 'room.db'
        output(self.path(program[1:]), 'init', room, self.examples / 'plan.csv', env={})
        self.check('its address', address, '${ROOM_ADDRESS}')
        address = re.search('^Environment=ROOM_ADDRESS=(.*):', unit, re.M)[1] + f':{free_port()}'
        with subprocess.Popen([self.path(program[1:]), serve, room, address, *more], env={},
                              stdout=subprocess.PIPE) as process:
            self.check('it is served', process.stdout.readline(), b'serving\n')
            process.kill()

    def test_unit_of_the_pages(self):
        """What the unit starts serves the pages, out of the package by itself."""
        unit = self.path(PAGES_UNIT).read_text()
        self.check('it is the example', unit,
                   (EXAMPLES / 'desks' / 'dispatch_desks.service').read_text())
        line = re.search(r'^ExecStart=((?:.*\\\n)*.*)$', unit, re.M)[1].replace('\\\n', '')
        program, *words = line.split()
        files = {'%d/plan.csv': 'plan.csv', '%d/places.csv': 'desks/places.csv'}
        words = [str(self.examples / files[it]) if it in files else it for it in words]
        words += ['--listen', '127.0.0.1:0']
        with subprocess.Popen([self.path(program[1:]), *words], cwd=self.root.folder,
                              stdout=subprocess.PIPE) as process:
            address = process.stdout.readline().decode().partition(': ')[2].strip()
            page = output('curl', '--silent', f'{address}desks/allocator.html')
            self.check('it is served', page, (EXAMPLES / 'desks' / 'allocator.html').read_text())
            process.kill()

    def test_manual_page(self):
        source = gzip.decompress(self.path(PAGE).read_bytes())
        done = subprocess.run(['groff', '-man', '-Tascii', '-ww', '-P-cbou'], input=source,
                              capture_output=True, timeout=180)
        self.check('no warnings', (done.returncode, done.stderr), (0, b''))
        lines = done.stdout.decode().splitlines()
        headings = [it for it in lines[1:-1] if re.match('[A-Z]', it)]
        self.check('sections', headings, SECTIONS)
        shown = {it.strip() for it in lines}
        names = re.findall('^  ([a-z]+) ', output(self.program, '--help', env={}), re.M)
        self.check('commands', {'init', 'serve', 'help'} < set(names), True)
        for words in [[], *([it] for it in names if it != 'help')]:
            help_of = output(self.program, *words, '--help', env={}).splitlines()
            self.check(f'the help of {" ".join(words) or "all"} is in it',
                       {it.strip() for it in help_of} - shown, set())

    def test_errors_of_the_manual(self):
        """The manual page has each fault that the program reports, and each status."""
        source = gzip.decompress(self.path(PAGE).read_bytes())
        shown = subprocess.run(['groff', '-man', '-Tascii', '-P-cbou'], input=source,
                               capture_output=True, timeout=180).stdout.decode()
        part = ' '.join(shown.partition('DIAGNOSTICS')[2].partition('\nFILES')[0].split())
        endings = TOP / 'crates' / 'dispatch_room_exit' / 'src' / 'exit_status.rt'
        faults = re.findall(r'#\[error\("(.*)"\)\]', endings.read_text())
        self.check('there are faults', 'storage' in faults, True)
        for fault in faults:
            self.check(fault, fault.replace('{0}', 'K') in part, True)
        statuses = set(re.findall(r'\(status (\d)\)', part))
        self.check('statuses', sorted(statuses), list('0123456'))

    def test_completion(self):
        """What bash makes of words that are typed in part: a shell at a terminal is asked."""
        (self.folder / 'plan.csv').touch()
        for typed, words in TYPED:
            self.check(typed, self.completed(typed), words)

    def completed(self, typed):
        """The words of a line after the key that completes it. (Ctrl-A goes to its beginning.)"""
        reads, writes = os.pipe()
        main, side = os.openpty()
        shell = subprocess.Popen(
            ['bash', '--norc', '--noprofile', '-i'], stdin=side, stdout=side, stderr=side,
            cwd=self.folder, pass_fds=[writes], start_new_session=True,
            env={'PATH': os.environ['PATH'], 'TERM': 'dumb', 'HOME': str(self.folder)})
        os.close(side)
        os.close(writes)
        lines = [f'. {self.path(COMPLETION)}\n', f'dispatch_room {typed}\t',
                 f"\x01printf '%s\\n' >&{writes} \n", 'exit\n']
        os.write(main, ''.join(lines).encode())
        with os.fdopen(reads) as completions, os.fdopen(main, 'rb', buffering=0) as screen:
            drains = threading.Thread(target=drain, args=[screen])
            drains.start()
            words = completions.read().splitlines()
            shell.wait(timeout=180)
            drains.join()
        return words[1:]

    # ---- its end

    def test_removal(self):
        self.check('installed', self.root.state(), 'dispatch-room ii \n')
        self.check('files are there', 'usr/bin/dispatch_room' in self.root.files(), True)
        rotation = self.path(ROTATION)
        self.check('as it came', rotation.read_text(),
                   (EXAMPLES / 'backup' / 'logrotate.conf').read_text())
        self.root.dpkg('--remove', 'dispatch-room')
        self.check('removed, but for what may be changed', self.root.files(),
                   ['etc', 'etc/logrotate.d', ROTATION])
        self.root.dpkg('--purge', 'dispatch-room')
        self.check('nothing is left', (self.root.state(), self.root.files()), ('', []))
