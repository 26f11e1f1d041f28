"""How a machine is: for who asks GET /health, Prometheus at GET /metrics, and the log of what
terminals asked, in the lines of a room that is served."""
import bisect
import itertools
import json
import pathlib
import sys
import time
from collections.abc import Iterator

from clocks import moment, passed
from machine import Ask, Machine
from messages import Request, answer_of, no_answer
from played_room import terminals_of
from terminals import Reply
from upkeep import WARNED, Upkeep

BUCKETS = .001, .002, .005, .01, .02, .05, .1, .2, .5, 1, 2, 5  # seconds
ROLES = 'desk', 'position'
MOST_KEYS = 10  # of foreign values, that are named


def gauges(table: dict) -> Iterator[str]:
    """The lines of gauges by their names, which may have a label. What is not known has none."""
    for it, values in table.items():
        name, _, label = it.partition(' ')
        yield f'# TYPE dispatch_room_{name} gauge'
        for key, value in values.items() if label else [('', values)]:
            if value is not None:
                by = f'{{{label}="{key}"}}' if label else ''
                yield f'dispatch_room_{name}{by} {value + 0}'


def metrics_of(lines: Iterator[str]) -> bytes:
    return answer_of(200, '\n'.join([*lines, '']), 'text/plain; version=0.0.4')


class Starting:
    """What is answered while the companion has no place in the list yet: why."""

    def __init__(self, machine: int):
        self.machine, self.why = machine, 'it is starting'

    def take(self, request: Request, reply: Reply) -> None:
        if request.message:
            reply(no_answer('no'))
        elif request.path == '/metrics':
            reply(metrics_of(gauges({'serving': False})))
        else:
            reply(answer_of(503, json.dumps({'machine': self.machine, 'refuses': self.why})))


class Health:
    """What is reported of a machine."""

    def __init__(self, machine: Machine, upkeep: Upkeep):
        self.machine, self.upkeep = machine, upkeep
        self.answers: dict[int, int] = {}  # by status
        self.waits, self.waited = [0] * (len(BUCKETS) + 1), 0.0
        self.who: dict[str, str] = {}
        machine.own, machine.note = self.own, self.note
        machine.player.look_at = self.learn_who

    def own(self, path: str) -> bytes:
        """How the machine is: 200 where terminals are served, and else 503; or all in numbers."""
        state = self.state()
        if path == '/metrics':
            return metrics_of(self.metrics(state))
        return answer_of(503 if state['refuses'] else 200, json.dumps(state))

    def state(self) -> dict:
        """How the machine is, in numbers and a word."""
        machine, upkeep, etcd = self.machine, self.upkeep, self.upkeep.sizes
        differing = upkeep.comparison.first_differing()
        others = {str(it): {
            'clock': word.get('clock'), 'copy': word.get('copy'),
            'behind': machine.player.played - word.get('played', 0),
            'silent': round(machine.clocks.silent_for(it), 1),
            'differs': differing.get(it, (None,))[0]}
            for it, word in upkeep.words.items()}
        return {'machine': machine.settings.machine, 'refuses': machine.why_not(),
                'record': machine.tail.place.number, 'behind': machine.behind(),
                'copy': machine.tail.copy.number, 'copied': round(passed() - upkeep.copied, 1),
                'uncopied': machine.player.uncopied, 'free': upkeep.free,
                'changing': machine.player.change.number if machine.player.change else 0,
                'days': upkeep.days, 'lost': upkeep.lost, 'waiting': len(machine.unanswered),
                'ahead': machine.clocks.ahead(moment()), 'foreign': len(machine.foreign),
                'foreign_keys': sorted(machine.foreign)[:MOST_KEYS],
                'etcd': etcd._asdict() | {'warned': etcd.used > WARNED * etcd.quota > 0},
                'others': others}

    # ---- metrics

    def metrics(self, state: dict) -> Iterator[str]:
        """All that the machine's health has, in numbers."""
        etcd, others = state['etcd'], state['others']

        def of_others(name: str) -> dict:
            return {it: by[name] for it, by in others.items()}
        yield from gauges({
            'serving': not state['refuses'], 'record': state['record'],
            'records_behind': state['behind'], 'waiting': state['waiting'],
            'change_record': state['changing'], 'copy_record': state['copy'],
            'copy_age_seconds': state['copied'], 'copy_failed': bool(state['uncopied']),
            'lost_copies': state['lost'], 'clock_ahead_seconds': state['ahead'],
            'foreign_values': state['foreign'], 'etcd_used_bytes': etcd['used'],
            'etcd_file_bytes': etcd['file'], 'etcd_quota_bytes': etcd['quota'],
            'etcd_has_leader': etcd['has_leader'], 'etcd_leads': etcd['leads'],
            'free_bytes folder': state['free'], 'certificate_days name': state['days'],
            'other_records_behind machine': of_others('behind'),
            'other_silent_seconds machine': of_others('silent'),
            'other_differs_from_record machine': of_others('differs')})
        yield '# TYPE dispatch_room_answers_total counter'
        for status, count in sorted(self.answers.items()):
            yield f'dispatch_room_answers_total{{status="{status}"}} {count}'
        name, sums = 'dispatch_room_answer_seconds', itertools.accumulate(self.waits)
        yield f'# TYPE {name} histogram'
        for bound, total in zip([*BUCKETS, '+Inf'], sums):
            yield f'{name}_bucket{{le="{bound}"}} {total}'
        yield f'{name}_sum {self.waited:.3f}'
        yield f'{name}_count {total}'

    # ---- the log

    def note(self, ask: Ask, answer: bytes) -> None:
        """Counts an answer, and writes its line."""
        status, waited = int(answer[9:12]), passed() - ask.began
        self.answers[status] = self.answers.get(status, 0) + 1
        self.waits[bisect.bisect_left(BUCKETS, waited)] += 1
        self.waited += waited
        if self.machine.settings.log:
            at = time.strftime('%Y-%m-%dT%H:%M:%SZ', time.gmtime())
            who = self.who.get(ask.request.token, 'none')
            print(f'{at} {who} {ask.request.method} {ask.request.path} {status} '
                  f'{1000 * waited:.0f} ms', file=sys.stderr, flush=True)

    def learn_who(self, file: pathlib.Path) -> None:
        """Learns whose the tokens are, of a file that no program has open."""
        if self.machine.settings.log:
            self.who = {token: callsign if role == 2 else f'{ROLES[role]} {number}'
                        for token, (role, number, callsign) in terminals_of(file).items()}
