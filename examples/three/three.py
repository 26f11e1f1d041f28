#!/usr/bin/env python3
"""Three machines on one's own, to look at: three members of etcd and three companions on loopback,
over a folder. It makes a room of the example's plan and fleet there where there is none, serves it
until it is interrupted, starts again what ends meanwhile, and goes on with the room when it is
started again.

  three.py FOLDER        terminals come to 127.0.0.1:8081, 8082 and 8083"""
import contextlib
import os
import pathlib
import shutil
import signal
import subprocess
import sys
import time
from argparse import ArgumentParser, Namespace, RawDescriptionHelpFormatter

import certificates
from copies import copies_in
from members import HERE, Command, Machine, machines

EXAMPLES = HERE.parent
PORTS = 8080  # the one before those of terminals
STARTS_WITHIN, ENDS_WITHIN = 60.0, 40.0  # seconds
LOOKS_EVERY = 1.0  # seconds between two looks at what has ended


def start(command: Command, **named) -> subprocess.Popen:
    """Starts a command that is not interrupted with this one."""
    return subprocess.Popen(command, stdin=subprocess.DEVNULL, start_new_session=True, **named)


def until_done(command: Command) -> None:
    """Runs a command until it succeeds, as it does once etcd answers."""
    until = time.monotonic() + STARTS_WITHIN
    while subprocess.run(command, capture_output=True).returncode:
        if time.monotonic() > until:
            subprocess.run(command, check=True)
        time.sleep(0.5)


def first_room(program: str, folder: pathlib.Path) -> pathlib.Path:
    """The room that the list begins with, of the example's plan and fleet."""
    room = folder / 'first.db'
    if not room.exists():
        subprocess.run([program, 'init', room, EXAMPLES / 'plan.csv'], check=True)
        subprocess.run([program, 'import', room, EXAMPLES / 'fleet.csv'], check=True)
    return room


@contextlib.contextmanager
def running(commands: list[Command]):
    """Starts commands, and ends them well. What is given starts those again that have ended."""
    started = [start(it) for it in commands]

    def mend() -> None:
        for at, it in enumerate(started):
            if it.poll() is not None:
                print(f'three: {it.args[0]} ended with status {it.returncode}, and starts again',
                      file=sys.stderr)
                started[at] = start(commands[at])
    try:
        yield mend
    finally:
        for it in started:
            it.terminate()
        for it in started:
            with contextlib.suppress(subprocess.TimeoutExpired):
                it.wait(ENDS_WITHIN)
            it.kill()
            it.wait()


def serve(three: list[Machine], words: Namespace) -> None:
    """Serves the room until it is interrupted."""
    with running([it.member() for it in three]) as mend_members:
        room = first_room(words.program, words.folder)
        if words.certificates:
            until_done(three[0].companion_does('user'))
        for it in three:
            if not copies_in(it.folder / 'room'):
                until_done(it.begin(room))
        with running([it.companion('--program', words.program) for it in three]) as mend:
            print('terminals:', *(it.terminals for it in three), flush=True)
            while True:
                time.sleep(LOOKS_EVERY)
                mend_members()
                mend()


def main() -> int:
    parser = ArgumentParser(description=__doc__, formatter_class=RawDescriptionHelpFormatter)
    parser.add_argument('folder', metavar='FOLDER', type=pathlib.Path)
    parser.add_argument('--program', default='dispatch_room', help='(%(default)s)')
    parser.add_argument('--certificates', action='store_true',
                        help='speak TLS to and between the members, by a user of etcd')
    words = parser.parse_args()
    for it in 'etcd', words.program, *(['openssl'] if words.certificates else []):
        if not shutil.which(it):
            parser.error(f'{it} is not there')
    signal.signal(signal.SIGTERM, signal.default_int_handler)
    os.umask(0o077)
    words.folder.mkdir(mode=0o700, parents=True, exist_ok=True)
    three = machines(words.folder, PORTS, words.certificates)
    if words.certificates and not three[0].certificates.exists():
        certificates.make_all(words.folder / 'authority',
                              {it.certificates: '127.0.0.1' for it in three})
    with contextlib.suppress(KeyboardInterrupt):
        serve(three, words)
    return 0


if __name__ == '__main__':
    sys.exit(main())
