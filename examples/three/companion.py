#!/usr/bin/env python3
"""One of the machines that are one room together: it takes requests of terminals on loopback, has
each kept in a list by etcd, plays the list on its own copy of the room, and answers each request as
the room answers its record. It is not proved; the room that plays is.

  companion.py begin ROOM FOLDER                     makes a room's file the machine's first copy
  companion.py serve FOLDER ADDRESS --machine N      serves terminals
  companion.py import FLEET                          enrols vehicles
  companion.py terminals --new WHO                   gives a terminal another token
  companion.py replan PLAN                           gives the room another plan
  companion.py renew --since DAY                     drops what was over before a day
  companion.py leave-out N                           lets the list go on without a machine
  companion.py replace N                             makes a machine's member of etcd a new one
  companion.py mend                                  has the list end where its entries do
  companion.py drop-list                             ends the list, for another one
  companion.py user                                  has etcd take nothing without its user"""
import asyncio
import functools
import hashlib
import os
import pathlib
import secrets
import shutil
import signal
import sys
import tempfile
import time
from argparse import Namespace

import changing
import copies
import digest
import repair
from clocks import passed
from entries import MOST_CHANGE, Place, Record, first_entry
from etcd import Unreached
from health import Health, Starting
from keeping import TRY_EVERY, Keeping
from kept_list import OUTCOMES, KeptList, Lost, delete, span
from machine import Machine
from played_room import Changed, Ended
from playing import Playing
from said import say
from terminals import Connections
from upkeep import CHANGES_WITHIN, OUT, Upkeep
from words import WAITS, Refused, kept_list, reach_of, words_of

STARTS_EVERY = 1.0  # seconds between two looks at the list, before it has a copy's record
FLEET_HEAD, PLAN_HEAD = 'callsign,division,kind,place,token', 'what,number,a,b,c,d'
TRIES = 5  # of a change while somebody is answered otherwise
LOST = 3  # the status where another start finds a copy that is whole and in the list


class NoCopy(Exception):
    """No copy of this machine is in the list."""


def begin(given: Namespace) -> None:
    """Makes a room's file the first copy of this machine, and begins the list where it has not
    begun. Each machine does so with the same bytes. Copies of another list are kept aside."""
    copies.make_folder(given.folder)
    kept, before = kept_list(given), copies.copies_in(given.folder)
    if any(kept.entry(it.number, it.digest) for it in before):
        raise Refused(f'{given.folder} has a copy of the list')
    if not copies.is_alone(given.room):
        raise Refused(f'{given.room} is not closed: it has a log')
    content = given.room.read_bytes()
    first = first_entry(hashlib.sha256(content).hexdigest())
    found = kept.begin(first)
    if not found or found.text != first.text:
        raise Refused('the list is of another room, or has gone on: bring a copy of a machine')
    for it in before:
        say(f'not of this list: {copies.set_aside(it)}')
    part = given.folder / 'part'
    part.write_bytes(content)
    copies.keep(part, copies.copy_at(given.folder, first.place, copies.NO_ANSWERS,
                                     digest.of_file(given.room)))
    print('begun')


# ---- changes


def file_of(who: str, token: str) -> str:
    """The file of a plan or a fleet by which one terminal gets a token. The program looks at
    nothing else in it."""
    kind, _, name = who.partition(':')
    if kind == 'crew':
        return f'{FLEET_HEAD}\n{name},1,1,TQ300800,{token}\n'
    area = name if kind == 'desk' else 1
    return (f'{PLAN_HEAD}\nzone,0,UTC0,,,\narea,{area},500000,100000,549999,199999\n'
            f'{kind},{name},{token},,,\n')


def text_of(given: Namespace, token: str) -> bytes:
    """A change as the list has it: the program's words, and the lines of its file."""
    if given.command == 'renew':
        return f'renew --since {given.since}\n'.encode()
    if given.command in ('import', 'replan'):
        return f'{given.command}\n'.encode() + given.file.read_bytes()
    if given.file:
        return b'terminals --from\n' + given.file.read_bytes()
    if given.revoke and not given.revoke.startswith('crew:'):
        return f'terminals --revoke {given.revoke}\n'.encode()
    return f'terminals --from\n{file_of(given.new or given.revoke, token)}'.encode()


def tried(given: Namespace, text: bytes) -> None:
    """Makes a change in the newest copy of this machine, to refuse it before it is put."""
    if not Record('a', text, 'change').is_whole():
        raise Refused(f'it is no change, or has more than {MOST_CHANGE} bytes')
    newest = copies.copies_in(given.folder)
    if not newest:
        raise Refused(f'{given.folder} has no copy of the room')
    with tempfile.TemporaryDirectory(prefix='part.', dir=given.folder) as folder:
        file = pathlib.Path(folder) / 'room.db'
        shutil.copyfile(newest[0].file, file)
        digest, said = changing.make(given.program, file, text)
        if not digest:
            raise Refused(said.decode(errors='replace').strip())


def made(kept: KeptList, text: bytes) -> bytes:
    """Has a change made on all machines; gives what the program said. Where somebody was answered
    otherwise meanwhile, it is begun again."""
    for _ in range(TRIES):
        number = kept.append(Record(secrets.token_hex(8), text, 'change'))
        if number is None:
            raise Refused('there is no list')
        until, outcome = passed() + CHANGES_WITHIN + WAITS, None
        while outcome is None and passed() < until:
            time.sleep(TRY_EVERY)
            outcome = next((it for _, it, _ in kept.values(f'{OUTCOMES}{number:012}')), None)
        if outcome is None:
            raise Refused(f'it is kept as record {number}, and no machine has made it yet')
        if outcome != changing.OTHERWISE:
            break
    return outcome


def change(given: Namespace) -> None:
    """Changes the room on all machines, as the program's own command does with one."""
    token = secrets.token_hex(16)
    text = text_of(given, token)
    tried(given, text)
    said = made(kept_list(given), text).decode(errors='replace')
    if said.startswith('refused'):
        raise Refused(said.strip())
    print(f'{token}\n' if given.command == 'terminals' and given.new else said, end='')


# ---- serving


def copy_in_list(kept: KeptList, given: Namespace) -> tuple[copies.Copy, Place]:
    """The newest copy of a folder that is in the list. Those that are newer are set aside: the list
    went back behind them, or the others agree on something else."""
    agreed, found = copies.last_agreed(given.folder), copies.copies_in(given.folder)
    for nth, copy in enumerate(found):
        if copy.number <= agreed and kept.entry(copy.number, copy.digest):
            kept.change([], [delete(span(f'{OUT}{given.machine}'))])  # it counts from now on
            if entry := kept.entry(copy.number, copy.digest):
                for newer in found[:nth]:
                    say(f'not the room of the list any more: {copies.set_aside(newer)}')
                copies.agreed(given.folder).unlink(missing_ok=True)
                return copy, entry.place
    first, last = kept.ends()
    raise NoCopy(f'the list has records {first} to {last}, and {given.folder} no copy of one of '
               'them: bring a copy of another machine')


async def place_to_begin(given: Namespace, starting: Starting) -> tuple[copies.Copy, Place]:
    """Where the room begins, once etcd answers and the list has a copy's record."""
    kept = kept_list(given, 0)
    while True:
        try:
            return await asyncio.to_thread(copy_in_list, kept, given)
        except (NoCopy, Unreached) as error:
            starting.why = str(error)
            say(error)
            await asyncio.sleep(STARTS_EVERY)


async def run(given: Namespace) -> None:
    starting = Starting(given.machine)
    connections = Connections(starting.take)
    await connections.listen(*given.listen)
    copy, place = await place_to_begin(given, starting)
    how = Playing(given.program, given.folder, given.work, given.copy_every, given.machine)
    machine, reach = Machine(given, how, copy, place, connections), reach_of(given)
    keeping, upkeep = Keeping(machine, reach), Upkeep(machine, reach)
    Health(machine, upkeep)
    for it in signal.SIGTERM, signal.SIGINT:
        asyncio.get_running_loop().add_signal_handler(it, machine.stop)
    await machine.serve(keeping.catch_up, keeping.hear, keeping.follow, keeping.answer_questions,
                        *(functools.partial(keeping.keep_asks, it) for it in keeping.writing),
                        upkeep.run)


def serve(given: Namespace) -> None:
    """Serves the newest copy of a folder, which no other does meanwhile."""
    given.work = given.work or given.folder / 'work'
    with copies.alone(given.folder), copies.alone(given.work):
        asyncio.run(run(given))


COMMANDS = {'begin': begin, 'serve': serve, 'import': change, 'terminals': change,
            'replan': change, 'renew': change, 'leave-out': repair.leave_out,
            'replace': repair.replace, 'drop-list': repair.drop_list, 'mend': repair.mend,
            'user': repair.user}


def main(line: list[str]) -> int:
    os.umask(0o077)  # a room has the tokens of all terminals
    given = words_of(line, __doc__, COMMANDS)
    status = 0
    try:
        COMMANDS[given.command](given)
    except* (Lost, Changed, Refused, Unreached, Ended, OSError) as error:
        say(error.exceptions[0])
        status = LOST if isinstance(error.exceptions[0], (Lost, Changed)) else 1
    return status


if __name__ == '__main__':
    sys.exit(main(sys.argv[1:]))
