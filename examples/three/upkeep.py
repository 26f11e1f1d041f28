"""What a machine does beside serving: it gives the others its clock and what its room is by,
compares theirs, and keeps the list short and etcd within its quota."""
import asyncio
import json
import re
import shutil
import time
from secrets import token_hex

import copies
from certificates import WARNED as WARNED_DAYS
from clocks import moment, passed
from comparison import Comparison
from entries import Record
from etcd import Member, Reach, Sizes, Unreached
from keeping import ETCD_WITHIN
from kept_list import OUTCOMES, ROOM, KeptList, Lost, put
from machine import Machine
from members import NUMBERS
from said import say

WORDS = f'{ROOM}machines/'  # what each machine reports of itself
COPIES = f'{ROOM}copies/'  # the records of each machine's newest copy, and of one that is sure
OUT = f'{ROOM}out/'  # machines that are not counted
REPORTS_EVERY, REPORTS_WITHIN = 1.0, 5.0  # seconds
CHANGES_WITHIN = 600.0  # seconds that all machines have to make a change in a copy
SILENT = 5.0  # seconds without a word of a machine, which then does not count
MEASURES_EVERY = 5.0  # seconds between two looks at etcd's quota
COPIES_APART = 10.0  # seconds between copies of a machine whose etcd is half full
COMPACTS_EVERY = 300.0  # seconds: what machines report of themselves each second is let go
SLOT = 5  # seconds in which only one machine may give its member's free pages back
WARNED, FULL = 0.5, 0.8  # parts of the quota: it is reported, and no more is taken
WASTED = 0.5  # the part of a member's file in use, below which it is made anew


class Upkeep:
    """The upkeep of one machine."""

    def __init__(self, machine: Machine, reach: Reach):
        self.machine, self.kept = machine, KeptList(Member(reach, ETCD_WITHIN))
        self.me = machine.settings.machine
        self.others = [it for it in NUMBERS if it != self.me]
        self.words: dict[int, dict] = {it: {} for it in self.others}  # what they last reported
        self.comparison = Comparison(len(NUMBERS))
        self.sizes = Sizes()
        self.settled = 0  # the change that this machine has had taken over, or given up
        self.lost = 0  # copies that were set aside
        self.free: dict[str, int] = {}  # bytes of the folders for copies and for the room
        self.days: dict[str, int] = {}  # until each certificate of this machine ends
        self.measured, self.compacted = float('-inf'), passed()
        self.copied = passed()
        self.reported = -1, -1  # the records of copies of which the others have heard
        self.reporting = KeptList(Member(reach, REPORTS_WITHIN))
        machine.player.note = self.report_outcome

    async def run(self) -> None:
        while True:
            try:
                await asyncio.to_thread(self.tend)
            except Lost as error:
                self.machine.lose(error)
            except (Unreached, OSError) as error:
                say(error)
            await asyncio.sleep(REPORTS_EVERY)

    def tend(self) -> None:
        """One round of it, on a connection of its own."""
        try:
            self.report_word()
            self.compare()
            self.report_copy()
            self.settle()
        finally:
            if passed() - self.measured > MEASURES_EVERY:
                self.measured = passed()
                self.measure()
                self.keep_small()

    def measure(self) -> None:
        """Looks at the folders and the certificates of this machine."""
        how, secured = self.machine.player.how, self.kept.member.reach.secured
        self.free = {name: shutil.disk_usage(it).free
                     for name, it in (('copies', how.folder), ('work', how.work))}
        self.lost = len(list(how.folder.glob('lost.*')))
        if secured:
            secured.renew()
            self.days = secured.days()
        for name, days in self.days.items():
            if days <= WARNED_DAYS:
                say(f'the certificate {name} ends in {days} days: prepare.py --renew')

    def made(self) -> list[copies.Copy]:
        return copies.copies_in(self.machine.player.how.folder)

    # ---- what the machines report of themselves

    def report_word(self) -> None:
        """Shows the others how this machine is, and hears them."""
        machine = self.machine
        number, change = machine.player.played, machine.player.change
        word = {'clock': moment(), 'played': number, 'copy': machine.tail.copy.number,
                'answers': machine.player.answers.get(number, b'').hex(),
                'rooms': {str(it.number): it.room for it in self.made()},
                'ready': change.ready() if change else 0}
        self.kept.change([], [put(f'{WORDS}{self.me}', json.dumps(word))])
        machine.agreed = passed()  # most members took it
        for key, value, revision in self.kept.values(WORDS):
            if key.isdigit() and int(key) in self.others:
                self.hear(int(key), value, revision)
        for other in self.others:
            if machine.clocks.silent_for(other) > machine.settings.away_after:
                say(f'machine {other} is away for long: what it lacks is kept, until it is back, '
                    f'or is left out (companion.py leave-out {other})')

    def hear(self, other: int, value: bytes, revision: int) -> None:
        """Hears a machine; what stood there before this one started may be of another list."""
        try:
            word = json.loads(value)
            word |= {it: int(word[it]) for it in ('clock', 'played', 'copy')}
            if self.machine.clocks.hear(other, revision, word['clock']):
                self.compare_with(other, word)
            self.words[other] = word
        except (ValueError, KeyError, TypeError, AttributeError):
            say(f'what machine {other} reports of itself is no word of a companion')

    def compare_with(self, other: int, word: dict) -> None:
        """Compares what a machine reports with this one's room and copies."""
        number, note = word['played'], self.comparison.note
        own = self.machine.player.answers.get(number)
        if own and word.get('answers'):
            note(other, 'answers', number, own.hex() == word['answers'])
        for it in reversed(self.made()):
            if room := word.get('rooms', {}).get(str(it.number)):
                note(other, 'rooms', it.number, room == it.room)

    def compare(self) -> None:
        """Takes nothing more where this is the odd one of the machines, or none is known to be."""
        machine = self.machine
        machine.stopped = self.comparison.judge(
            {it for it in self.others if machine.clocks.silent_for(it) > SILENT})
        if self.comparison.odd and not machine.player.is_odd:
            machine.player.is_odd = True
            say(self.comparison.odd)
            number = self.comparison.last_agreed()
            copies.agreed(machine.player.how.folder).write_text(f'{number}\n')

    # ---- changes

    def settle(self) -> None:
        """Has a change taken over once all machines that are there have made it, or given up where
        one can't. One machine does that, and another if it goes."""
        change, silent_for = self.machine.player.change, self.machine.clocks.silent_for
        there = [it for it in self.others if silent_for(it) < SILENT]
        is_mine = self.machine.is_serving and self.me < min([*there, self.me + 1])
        if not (change and is_mine) or change.number == self.settled:
            return
        ready = {change.ready(), *(self.words[it].get('ready') for it in there)}
        is_made = ready == {change.number}
        if is_made or -change.number in ready or passed() - change.began > CHANGES_WITHIN:
            self.kept.append(Record(token_hex(8), b'%d' % (change.number * is_made), 'taken'))
            self.settled = change.number

    # ---- copies

    def report_copy(self) -> None:
        """Gives the others the records of the newest copy, unless the list went back behind it, and
        of the one before, or of an older one that was the last to be as another's. Records that all
        have in these go from the list."""
        copy = self.machine.tail.copy
        before = [it.number for it in self.made()[1:2]] or [0]
        numbers = copy.number, min(self.comparison.agreed_on('rooms'), *before)
        if numbers == self.reported:
            return
        if numbers[0] != self.reported[0]:
            self.copied = passed()
        if self.kept.entry(copy.number, copy.digest):
            self.kept.change([], [put(f'{COPIES}{self.me}', '%d %d' % numbers)])
            self.drop()
        self.reported = numbers

    def drop(self, is_urgent: bool = False) -> None:
        """Lets go of what each machine that counts has in two copies, up to one that was as
        another's, or where space is short in any: so one whose newest is damaged, or whose room is
        found to differ, plays on from that before."""
        counted = {str(it) for it in NUMBERS} - {key for key, _, _ in self.kept.values(OUT)}
        copied = [re.fullmatch(rb'(\d{1,12}) (\d{1,12})', value)
                  for key, value, _ in self.kept.values(COPIES) if key in counted]
        if all(copied) and len(copied) == len(counted) > 0:
            first = min(int(it[1 if is_urgent else 2]) for it in copied)
            revisions = 0 if is_urgent else self.machine.settings.revisions
            self.compact(self.kept.drop_before(first) - revisions)

    def report_outcome(self, number: int, outcome: bytes) -> None:
        """Reports what became of a change."""
        say(f'change {number}: {outcome.decode(errors="replace").strip()}')
        try:
            self.reporting.change([], [put(f'{OUTCOMES}{number:012}', outcome)])
        except Unreached as reason:
            say(reason)

    # ---- etcd's quota

    def compact(self, revision: int) -> None:
        if revision > 0:
            try:
                self.kept.member.compact(revision)
            except Unreached as error:
                if 'compacted' not in str(error):
                    raise

    def keep_small(self) -> None:
        """Looks how full etcd is, and makes room where it can."""
        member, machine = self.kept.member, self.machine
        self.sizes = member.sizes()
        file, used, quota = self.sizes[:3]
        alarms = [it for it in member.alarms() if it.get('alarm') == 'NOSPACE']
        if not quota:
            return
        if passed() - self.compacted > COMPACTS_EVERY:
            self.compacted = passed()
            self.compact(machine.revision - machine.settings.revisions)
        machine.full = 'etcd is nearly full' if used > FULL * quota or alarms else ''
        if used > WARNED * quota or alarms:
            say(f'etcd has {used} bytes in use and a quota of {quota}', 'quota')
            machine.player.wants_copy = passed() - self.copied > COPIES_APART
            self.drop(True)
        is_my_slot = int(time.time()) // SLOT % len(NUMBERS) == self.me - 1
        if alarms or file > WARNED * quota and used < WASTED * file and is_my_slot:
            self.make_room(alarms, quota)

    def make_room(self, alarms: list[dict], quota: int) -> None:
        """Gives free pages of the member back, and lets etcd be written again once it has space."""
        member = self.kept.member
        self.compact(self.machine.revision)
        member.defragment()
        self.sizes = member.sizes()
        say(f'etcd has given space back: {self.sizes.file} bytes are left', 'space')
        if self.sizes.file < FULL * quota:
            for it in alarms:
                member.disarm(it)
