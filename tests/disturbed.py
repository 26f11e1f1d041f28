"""Faults of three machines, at random from a seed, one or two at once: processes that are killed
and held, machines that are cut off, or two from each other, folders that are full, clocks that are
wrong, a machine that slept, and what is no entry. What ends by itself is started again, as units
do."""
import signal
import subprocess
import threading
import time

from machines import PATIENCE, Machines

import kept_list

WALLS = -10 * 365 * 86_400, -3600, -65, 65, 86_400, 73 * 365 * 86_400  # seconds, the last to 2099
FOLDERS = 'room', 'work', 'etcd'
STARTS_EVERY = 0.5  # seconds until what ended is started again
NOTICED = 4.0  # seconds until a companion says that its member or its room ended


def small(folder, size):
    """A small file system of a folder's own; gives what ends it."""
    folder.mkdir(parents=True)
    words = ['mount', '-t', 'tmpfs', '-o', f'size={size}', 'three', folder]
    mounted = subprocess.run(words, capture_output=True, text=True)
    assert mounted.returncode == 0, f'no file system is mounted here: {mounted.stderr}'
    return subprocess.run, ['umount', '--lazy', folder]


class Faults:
    """Each is one of a machine, begins at once, and gives what ends it."""

    def __init__(self, machines, away, chance):
        self.machines, self.away, self.chance = machines, away, chance
        self.put = []  # the keys of what is no entry
        self.count, self.down, self.over = 0, set(), threading.Event()
        self.kinds = [self.kill, self.kill, self.hold, self.hold, self.clock, self.sleep,
                      self.foreign]

    def can_part(self):
        self.kinds += [self.cut, self.part]

    def can_fill(self):
        self.kinds += [self.fill]

    def all(self, seconds):
        """So many seconds of faults, behind each of which all serve again, or not yet."""
        starting = threading.Thread(target=self.start_again)
        starting.start()
        try:
            until = time.monotonic() + seconds
            while time.monotonic() < until:
                self.some()
                if self.chance.random() < 0.5:
                    self.machines.wait_for_all()
            time.sleep(NOTICED)  # what the last one ended is started again
            self.machines.wait_for_all()
        finally:
            self.over.set()
            starting.join()

    def some(self):
        """One or two at once, the second a little later, of different kinds. (What is put waits for
        a majority, and what ends the other fault for that.)"""
        ends, kinds = [], self.chance.sample(self.kinds, self.chance.randint(1, 2))
        for kind in [self.foreign] if self.foreign in kinds else kinds:
            number = self.chance.choice(list(self.machines.machines))
            ends.append(kind(number))
            self.count += 1
            time.sleep(self.chance.uniform(0, self.away))
        for it in ends:
            it()
            time.sleep(self.chance.uniform(0, self.away / 2))

    def start_again(self):
        while not self.over.wait(STARTS_EVERY):
            for it, process in list(self.machines.processes.items()):
                if process.poll() is not None and it not in self.down:
                    self.machines.start(*it)

    def some_kinds(self):
        return self.chance.choice([*([it] for it in Machines.KINDS), Machines.KINDS])

    def kill(self, number):
        kinds = self.some_kinds()
        self.down.update((it, number) for it in kinds)
        for it in kinds:
            self.machines.kill(it, number)
        return lambda: self.down.difference_update((it, number) for it in kinds)

    def hold(self, number):
        held = [pid for it in self.some_kinds() for pid in self.machines.process_ids(it, number)]
        self.machines.signal_all(held, signal.SIGSTOP)
        return lambda: self.machines.signal_all(held, signal.SIGCONT)

    def clock(self, number):
        """A clock is wrong, once what was wrong before is heard to be right."""
        if self.machines.are_clocks_right():
            self.machines.shift(number, wall=self.chance.choice(WALLS))
        return lambda: self.machines.shift(number)

    def sleep(self, number):
        """One machine sleeps, so that the clock that stands still in sleep has not moved."""
        self.machines.signal('companion', number, signal.SIGSTOP)

        def wake():
            self.machines.shift(number, slept=60)
            self.machines.signal('companion', number, signal.SIGCONT)
        return wake

    def foreign(self, number):
        """Something else is put where entries are."""
        key = f'{kept_list.LIST}stray{len(self.put)}'
        self.machines.list(number).change([kept_list.is_none(kept_list.span(key))],
                                          [kept_list.put(key, b'stray')])
        self.put.append(key)
        return lambda: None

    def cut(self, number):
        self.machines.spaces.cut(number, True)
        return lambda: self.machines.spaces.cut(number, False)

    def part(self, number):
        other = number % 3 + 1
        self.machines.spaces.part(number, other, True)
        return lambda: self.machines.spaces.part(number, other, False)

    def fill(self, number):
        """A folder has no byte left."""
        file = self.machines.folder / str(number) / self.chance.choice(FOLDERS) / 'filler'
        done = subprocess.run(['dd', 'if=/dev/zero', f'of={file}', 'bs=64k'], timeout=PATIENCE,
                              capture_output=True)
        assert b'No space left' in done.stderr, done.stderr
        return file.unlink
