"""Three machines of examples/three for tests: their processes, which are killed, held and brought
back, the clocks that they are given, and a witness of all that was ever put in their list."""
import base64
import collections
import contextlib
import http.client
import json
import os
import pathlib
import random
import select
import signal
import socket
import subprocess
import sys
import threading
import time

from room import PATIENCE, PROGRAM, TOP, held_port

THREE = TOP / 'examples' / 'three'
sys.path.insert(0, str(THREE))
import clocks  # noqa: E402
import etcd  # noqa: E402
import kept_list  # noqa: E402
import members  # noqa: E402
import three  # noqa: E402
import upkeep  # noqa: E402

COPY_EVERY = 3000
DEADLINE = 60.0  # seconds that a companion has for an answer, so that none is given up in a test
# Seconds that a command of it may take, which waits for all machines to make a change.
DOES_WITHIN = upkeep.CHANGES_WITHIN + PATIENCE
SHIFTED = pathlib.Path(__file__).resolve().parent / 'shifted.py'
three.STARTS_WITHIN = PATIENCE


def free_ports():
    """A port before three tens that are free, and what keeps other tests away while it is open."""
    while True:
        first = 100 * random.randrange(100, 300)
        with contextlib.ExitStack() as tried, contextlib.suppress(OSError):
            for it in range(first, first + 30):
                socket.create_server(('127.0.0.1', it)).close()
                tried.enter_context(held_port(it))
            return first, tried.pop_all()


def children_of(pid):
    tasks = pathlib.Path(f'/proc/{pid}/task')
    with contextlib.suppress(OSError):
        return [int(it) for task in tasks.iterdir()
                for it in (task / 'children').read_text().split()]
    return []


def plays(pid):
    with contextlib.suppress(OSError):
        return b'replay' in pathlib.Path(f'/proc/{pid}/cmdline').read_bytes().split(b'\0')
    return False


def end_all(pid):
    """Kills a process with all that it started, and waits until they are gone."""
    with contextlib.suppress(ProcessLookupError), open(os.pidfd_open(pid)) as process:
        signal.pidfd_send_signal(process.fileno(), signal.SIGSTOP)
        children = children_of(pid)
        signal.pidfd_send_signal(process.fileno(), signal.SIGKILL)
        for it in children:
            end_all(it)
        select.select([process], [], [], PATIENCE)


class Machines:
    """Three machines over a folder: each process is started, killed and held by its kind and its
    machine's number."""

    KINDS = 'member', 'companion', 'room'

    def __init__(self, folder, first, **named):
        self.folder, self.first = folder, first
        self.words = {}  # more words of a machine's companion
        self.programs = {}  # the programs of machines that have another
        self.member_words = []
        self.copy_every, self.deadline = COPY_EVERY, DEADLINE
        self.has_shifts, self.slept = True, collections.Counter()
        ports, self.held = free_ports()
        self.machines = {it.number: it for it in members.machines(folder, ports, **named)}
        self.processes = {}
        self.output = (folder / 'output').open('wb')

    def companion(self, number):
        """The command of a companion, whose clocks the test may set."""
        machine = self.machines[number]
        command = [*machine.companion('--program', self.programs.get(number, PROGRAM),
                                      '--copy-every', str(self.copy_every),
                                      '--deadline', str(self.deadline)),
                   *self.words.get(number, [])]
        if not self.has_shifts:
            return command
        return [command[0], SHIFTED, self.shift_file(number), *command[1:]]

    def shift_file(self, number):
        return self.folder / f'shift{number}'

    def shift(self, number, wall=0, slept=0):
        """Sets a machine's clock off by seconds, or right; or has it sleep for some."""
        self.slept[number] += slept
        part = self.folder / 'shift.part'
        part.write_text(f'{wall} {self.slept[number]}')
        part.rename(self.shift_file(number))

    def set_right(self, number):
        """Sets a machine's clock right, and waits until the others have heard it: of three clocks
        only one may be wrong."""
        self.shift(number)
        self.until(self.are_clocks_right, f'the clock of machine {number} is heard')

    def are_clocks_right(self):
        """Whether the last clocks that machines heard of one another are right."""
        heard = [of.get('clock') for it in self.machines
                 for of in self.health(it).get('others', {}).values()]
        return all(it is None or abs(it - time.time()) < clocks.APART / 2 for it in heard)

    def start(self, kind, number):
        machine = self.machines[number]
        command = ([*machine.member(), *self.member_words] if kind == 'member'
                   else self.companion(number))
        self.processes[kind, number] = three.start(self.inside(number, command),
                                                   stdout=self.output, stderr=self.output)

    def inside(self, number, command):
        """A command as it is run on a machine."""
        return command

    def start_members(self):
        for it in self.machines:
            self.start('member', it)

    def start_all(self):
        self.start_members()
        for it in self.machines.values():
            three.until_done(self.inside(it.number, it.begin(self.first)))
            self.start('companion', it.number)
        self.wait_for_all()

    def wait_for(self, number):
        """Waits until a machine serves."""
        self.until(lambda: self.health(number).get('refuses') == '', f'machine {number} serves')

    def wait_for_all(self):
        for it in self.machines:
            self.wait_for(it)

    def until(self, holds, what):
        until = time.monotonic() + PATIENCE
        while not holds():
            if time.monotonic() > until:
                raise AssertionError(f'not within {PATIENCE} s: {what}\n{self.said()[-6000:]}')
            time.sleep(0.05)

    def state(self, number):
        """What a companion reports of itself, once it does."""
        found = {}
        self.until(lambda: found.update(self.health(number)) or found, f'{number} reports')
        return found

    def health(self, number):
        """What a companion reports of itself, or nothing."""
        with contextlib.suppress(OSError, ValueError, http.client.HTTPException):
            connection = http.client.HTTPConnection(*self.address(number), timeout=10)
            with contextlib.closing(connection):
                connection.request('GET', '/health', headers={'Connection': 'close'})
                return json.loads(connection.getresponse().read())
        return {}

    def address(self, number):
        host, port = self.terminals(number).split(':')
        return host, int(port)

    def terminals(self, number):
        """Where a machine's terminals come, as they are reached from here."""
        return self.machines[number].terminals

    def etcd(self, number):
        """Where its member is."""
        return self.machines[number].etcd

    def reach(self, number):
        host, port = self.etcd(number).split(':')
        return etcd.Reach(host, int(port))

    def list(self, number=1):
        """The list, which is asked again where etcd is silent. What is done twice is the same."""
        return kept_list.KeptList(etcd.Member(self.reach(number), PATIENCE, PATIENCE))

    def companion_does(self, number, *words):
        """Runs a command of the companion; gives its status and what it reported."""
        done = subprocess.run([sys.executable, THREE / 'companion.py', *words, '--etcd',
                               self.etcd(number)], capture_output=True, text=True,
                              timeout=DOES_WITHIN)
        return done.returncode, done.stdout + done.stderr

    def said(self):
        return (self.folder / 'output').read_text(errors='replace')

    def process_ids(self, kind, number):
        """Of a room they are those of its companion's children that play, and not of the commands
        by which copies are looked at or changed: those fail where they are killed."""
        pid = self.processes['companion' if kind == 'room' else kind, number].pid
        return [it for it in children_of(pid) if plays(it)] if kind == 'room' else [pid]

    def signal(self, kind, number, what):
        self.signal_all(self.process_ids(kind, number), what)

    def signal_all(self, pids, what):
        for it in pids:
            with contextlib.suppress(ProcessLookupError):
                os.kill(it, what)

    def kill(self, kind, number):
        self.signal(kind, number, signal.SIGKILL)
        if kind != 'room':
            self.processes[kind, number].wait()

    def end(self, kind, number):
        """Kills a process with all that it started, none of which writes any more then."""
        process = self.processes[kind, number]
        end_all(process.pid)
        process.wait()

    def stop_companions(self, *numbers):
        """Ends the companions well; gives their statuses."""
        numbers = numbers or list(self.machines)
        for it in numbers:
            self.signal('companion', it, signal.SIGTERM)
        return [self.ended(it) for it in numbers]

    def ended(self, number):
        """The status of a companion that ends."""
        return self.processes['companion', number].wait(PATIENCE)

    def close(self):
        for it in self.processes.values():
            if it.poll() is None:
                end_all(it.pid)
            it.wait()
        self.held.close()
        self.output.close()


# What a companion is given for a witness: so many revisions it has time to see what is dropped.
SEEN = ['--revisions', '10000']


class Witness(threading.Thread):
    """Sees all that is put at the list's keys, by whichever member reports it: key, version and
    value, in the order in which they were put. What is dropped later was seen."""

    def __init__(self, machines):
        super().__init__(daemon=True)
        self.machines, self.put, self.next = machines, [], 1
        self.is_over = False
        self.fault = ''

    def run(self):
        at = 0
        while not self.is_over:
            at = at % len(self.machines.machines) + 1
            with contextlib.suppress(OSError, ValueError, http.client.HTTPException):
                self.watch(self.machines.reach(at))

    def watch(self, reach):
        span = kept_list.under(kept_list.LIST)
        asked = {'create_request': span | {'start_revision': str(self.next)}}
        connection = http.client.HTTPConnection(reach.host, reach.port, timeout=1.5)
        connection.request('POST', '/v3/watch', json.dumps(asked))
        with contextlib.closing(connection), connection.getresponse() as answer:
            while not self.is_over and (line := answer.readline()):
                self.take(json.loads(line).get('result', {}))

    def take(self, result):
        if result.get('canceled'):
            self.fault = str(result)
        for it in result.get('events', []):
            kv = it['kv']
            if int(kv['mod_revision']) < self.next:
                continue
            self.next = int(kv['mod_revision']) + 1
            if it.get('type', 'PUT') == 'PUT':
                key = base64.b64decode(kv['key']).decode(errors='replace')
                self.put.append((key, kv['version'], base64.b64decode(kv['value'])))

    def until(self, key):
        """All that was put, once this key was."""
        until = time.monotonic() + PATIENCE
        while not any(it[0] == key for it in reversed(self.put[-50:])):
            assert time.monotonic() < until, f'{key} was not seen: {self.fault}'
            time.sleep(0.1)
        self.is_over = True
        return list(self.put)
