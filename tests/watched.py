"""What is seen of a room of examples/1992 from outside: messages with their answers. A watch
follows them, and counts how often what is promised could have failed, and how often it did."""
import collections
import re

from proved_room import Exchange

ENDS = 'return', 'home'  # the buttons that end an order, where they act


class Watch:
    """Follows exchanges in their order. Of each promise it knows how often it was looked at, and
    the exchanges that broke it."""

    def __init__(self, desk_of_vehicle, desk_of_place):
        self.desk_of_vehicle, self.desk_of_place = desk_of_vehicle, desk_of_place
        self.looked, self.broken = collections.Counter(), collections.defaultdict(list)
        self.sent = {}  # the incident to which a vehicle is sent, by the room's own answers
        self.calls, self.reports = {}, {}  # what was asked and answered first
        self.outcomes = collections.Counter()

    def see(self, it: Exchange) -> None:
        verb = re.sub(r'/[A-Z]*\d+', '', it.line)
        found = {
            'POST /call': self.see_call, 'POST /report': self.see_report,
            'POST /incidents/mobilise': self.see_mobilise, 'POST /incidents/close': self.see_close,
            'POST /vehicles/standdown': self.see_standdown, 'GET /vehicles': self.see_vehicles,
            'GET /incidents': self.see_incidents}.get(verb)
        if found and it.status == 200 or verb in ('POST /call', 'POST /report'):
            found(it)

    def look(self, promise: str, is_kept: bool, it: Exchange) -> None:
        self.looked[promise] += 1
        if not is_kept:
            self.broken[promise].append(it)

    # ---- what is answered alike

    def see_again(self, promise: str, kept: dict, it: Exchange) -> bool:
        """Whether it was sent before, word by word; then its answer has to be the first one."""
        key = it.token, it.body.get('serial') or it.body.get('number')
        is_first = key not in kept
        asked, answered = kept.setdefault(key, (str(it.body), str((it.status, it.content))))
        if is_first or asked != str(it.body):
            return False
        self.look(promise, answered == str((it.status, it.content)), it)
        return True

    def see_call(self, it: Exchange) -> None:
        self.see_again('call_once', self.calls, it)

    def see_report(self, it: Exchange) -> None:
        if self.see_again('report_once', self.reports, it) or it.status != 200:
            return
        outcome, name = it.content['outcome'], it.token.removeprefix('crewof')
        self.outcomes[outcome] += 1
        if outcome in ('normal', 'skipped') and it.body['button'] in ENDS:
            self.sent.pop(name, None)

    # ---- no vehicle is sent to two incidents

    def see_mobilise(self, it: Exchange) -> None:
        name, incident = it.body['vehicle'], (it.token, int(it.line.split('/')[2]))
        self.look('sent_once', name not in self.sent, it)
        self.sent[name] = incident

    def see_standdown(self, it: Exchange) -> None:
        self.sent.pop(it.line.split('/')[2], None)

    def see_close(self, it: Exchange) -> None:
        closed = it.token, int(it.line.split('/')[2])
        self.look('sent_once', closed not in self.sent.values(), it)

    # ---- a desk sees its division's rows

    def see_vehicles(self, it: Exchange) -> None:
        for row in it.content['vehicles']:
            name, incident = row['vehicle'], row['incident']
            self.look('desk_alike', self.desk_of_vehicle(name) == it.token, it)
            shown = None if incident is None else (it.token, incident)
            self.look('sent_once', self.sent.get(name) == shown, it)

    def see_incidents(self, it: Exchange) -> None:
        for row in it.content['incidents']:
            self.look('desk_alike', self.desk_of_place(row['place']) == it.token, it)
