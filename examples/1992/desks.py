"""The desks: what they do first, what with, and how long that takes. They are the same whatever
room they ask, the proved one or the model, and see of its list what fits on a screen."""
import collections

from people import Call, Crew, Order, Place, Report
from rooms import FREE, ON_JOB, Incident, Line

STATUS = {'mobile': 2, 'scene': 3, 'leave': 4, 'hospital': 5}


class Desks:
    def __init__(self, world, room):
        self.world, self.settings, self.room = world, world.settings, room
        self.divisions = world.city.divisions
        self.rings = {it: collections.deque() for it in self.divisions}
        self.in_hand = set()  # incidents for which a desk is about to send
        self.rung = set()  # vehicles that acknowledged nothing, and of which order a desk spoke
        self.sent = {}  # to which incident the room has sent each vehicle, by its own answers
        self.at_two = 0  # vehicles that it sent while they had been sent elsewhere
        self.waiting = 0  # lines in its list, when they were counted last

    def lives(self) -> list:
        many = max(1, self.settings.desks // len(self.divisions))
        return [self.watching(), *(self.desk(it) for it in self.divisions for _ in range(many))]

    def watching(self):
        while True:
            self.waiting = sum(map(self.room.waiting, self.divisions))
            yield 2 * self.settings.look

    def slowed(self, seconds: int) -> int:
        """How long a deed takes, where what waits slows the room."""
        slow = self.settings.slow
        return seconds * (slow + self.waiting) // slow if slow else seconds

    # ---- what reaches the room

    def call(self, call: Call) -> tuple:
        """Takes a call; gives the key of its incident."""
        return self.room.call(call)

    def report(self, crew: Crew, report: Report) -> None:
        if self.room.report(crew, report) not in ON_JOB:
            self.sent.pop(crew.callsign, None)

    def sign_on(self, crew: Crew) -> None:
        self.room.on_duty(crew, crew.where(self.world.now))

    def sign_off(self, crew: Crew) -> None:
        """Its crew presses Home before the eyes of its desk, which then ends the shift."""
        if not crew.is_unlisted:
            crew.reports += 1
            self.report(crew, Report(crew.reports, 'home', crew.heard, crew.place))
            self.room.off_duty(crew)

    def shown(self, crew: Crew) -> Order | None:
        """What a crew's terminal shows when an order reaches it."""
        return self.room.terminal(crew)[0]

    def ring(self, crew: Crew, order: Order | None) -> None:
        """A crew speaks to its desk, which answers when it gets to it: that it can't do an order,
        or that it is free again."""
        if (crew, order) not in self.rings[crew.division]:
            self.rings[crew.division].append((crew, order))

    # ---- what a desk does

    def desk(self, division: int):
        """Crews that ring come first, then who waits for a vehicle, then the lines of the list."""
        while True:
            if self.rings[division]:
                self.speak(*self.rings[division].popleft())
                yield self.slowed(self.settings.ring)
            elif found := self.next_to_send(division):
                self.in_hand.add(found[0].key)
                yield self.slowed(self.settings.send)
                self.in_hand.discard(found[0].key)
                if pause := self.send(*found):
                    yield self.slowed(pause)
            elif took := self.see_to_line(division):
                yield self.slowed(took)
            else:
                yield self.settings.look

    def next_to_send(self, division: int) -> tuple[Incident, str] | None:
        """The first incident that lacks a vehicle and no other desk has in hand, and what the room
        proposes for it."""
        lacking = [it for it in self.room.lacking(division) if it.key not in self.in_hand]
        if not lacking:
            return None
        first = min(lacking, key=lambda it: (it.grade, it.opened, it.key))
        name = self.room.proposed(first)
        return name and (first, name)

    def send(self, incident: Incident, name: str) -> int:
        """Sends what was proposed when the desk began; gives the seconds that more took."""
        crew = self.world.crews[name]
        if not self.settings.binding and crew.is_busy:
            self.mend(crew)
            return self.settings.ring
        number = self.room.mobilise(incident, name)
        if number is not None:
            self.at_two += name in self.sent
            self.sent[name] = incident.key
            self.world.ordered(crew, Order(number, incident.key, incident.place))
        return 0 if self.settings.binding else self.settings.ring

    def see_to_line(self, division: int) -> int:
        """Sees to the first line of the screen that needs it; gives the seconds that it took."""
        for it, needs_eye in self.room.lines(division):
            if needs_eye and it.rank in (2, 4) and (it.vehicle, it.since) not in self.rung:
                self.see_to(division, it)
                return self.settings.clear
            if self.room.is_log:
                self.room.take_off(division, it)
                return self.settings.glance
        return 0

    def see_to(self, division: int, line: Line) -> None:
        crew = self.world.crews[line.vehicle]
        if line.rank == 4:
            self.room.clear(division, line)
        else:
            self.rung.add((line.vehicle, line.since))
        self.room.take_off(division, line)
        self.mend(crew)

    # ---- a desk that speaks to a crew puts right what stands in the room, as far as it can

    def speak(self, crew: Crew, order: Order | None) -> None:
        if order is None and crew.stage == 'free' and crew.is_unlisted:
            crew.is_unlisted = False
            self.sign_on(crew)
        elif order and not crew.is_unlisted:
            self.mend(crew)

    def mend(self, crew: Crew) -> None:
        """A crew reads its terminal to its desk, and presses what is missing. One that is busy and
        can't show it so is off duty in the room until it is free."""
        order, status = self.room.terminal(crew)
        if crew.stage == 'off' or crew.is_unlisted:
            return
        if crew.is_busy:
            self.mend_busy(crew, order, status)
        elif status == 2 and order and order.number > crew.heard:
            self.world.hear(crew)
        elif status in ON_JOB:
            self.world.send(crew, 'home')

    def mend_busy(self, crew: Crew, order: Order | None, status: int) -> None:
        is_other = status == 2 and order is not None and order.number != crew.heard
        if is_other:
            self.room.stand_down(crew)
            self.sent.pop(crew.callsign, None)
        if status in FREE or is_other:
            self.room.off_duty(crew)
            crew.is_unlisted = True
        elif STATUS[crew.stage] > status or crew.stage == 'mobile':
            self.world.send(crew, crew.stage)

    # ---- what is known of the room

    def known(self) -> dict[str, tuple[bool, Place]]:
        """Of each vehicle on duty in it whether it is busy, and where. Desks close what is done as
        they look at it."""
        found = {}
        for division in self.divisions:
            self.room.close_done(division)
            found |= self.room.vehicles(division)
        return found

    def lacking(self) -> set:
        """The keys of incidents that lack a vehicle."""
        return {it.key for division in self.divisions for it in self.room.lacking(division)}
