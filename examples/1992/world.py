"""The day as it truly goes: callers call, crews drive and press buttons, and the radio loses some
of it. What is done with all that is the business of desks and of the room that they ask, which is
given. A life is a generator that gives the seconds until it goes on."""
import collections
import dataclasses
import heapq
import itertools

import people
from desks import Desks
from people import DAY, Call, Crew, Emergency, Order, Report, distance

SAMPLE = 600  # seconds between two looks at how things are
TAIL = 3600  # seconds after the last day's end, in which what was begun may end
IN_TIME = 180  # seconds within which a first vehicle is to be sent
WITHIN = 840  # seconds within which it is to be there


@dataclasses.dataclass
class Counts:
    """What is counted of a day."""
    calls: int = 0  # those of people, each once
    calls_again: int = 0  # of them those of callers whom nobody had reached
    answered_late: int = 0  # those that waited for a call taker for a minute
    typed_again: int = 0
    presses: int = 0
    reports: int = 0  # those that reached the system, each as often as it did
    repeated: int = 0  # of them those that had reached it before
    orders: int = 0
    orders_to_busy: int = 0
    in_vain: int = 0  # ways to where nobody needed help any more
    taken_twice: int = 0  # incidents that are about an emergency which another is about, too
    joined: int = 0  # emergencies that were joined to the incident of another


class World:
    def __init__(self, settings, days: int, room):
        self.settings, self.days, self.end = settings, days, days * DAY
        self.city = people.City(settings.side, settings.divisions)
        self.emergencies = people.emergencies(settings, self.city, days)
        self.crews = people.crews(settings, self.city)
        self.now, self.coming, self.turns = 0, [], itertools.count()
        self.serials, self.counts = itertools.count(), Counts()
        self.about = collections.defaultdict(list)  # emergencies by the key of their incident
        self.takers = [0] * max(1, settings.takers)  # when each is free again
        self.arrived = set()  # reports that have reached the system
        self.live = {}  # emergencies that want a crew, or to which one is on its way
        self.samples = []
        self.desks = Desks(self, room(self))

    def play(self) -> 'World':
        for crew in self.crews.values():
            for day in range(-1, self.days):
                self.start(self.shift(crew, day * DAY + crew.begins))
        for it in self.emergencies:
            for nth, (after, place) in enumerate(it.callers):
                self.start(self.caller(it, nth, place), it.at + after)
        for at in people.other_calls(self.settings, self.days):
            self.start(self.other_caller(), at)
        for at in people.stops(self.settings, self.days):
            self.start(self.stopping(), max(0, at - self.settings.unsaved))
        for life in self.desks.lives():
            self.start(life)
        self.start(self.sampler())
        while self.coming and self.coming[0][0] < self.end + TAIL:
            self.now, _, life = heapq.heappop(self.coming)
            pause = next(life, None)
            if pause is not None:
                self.start(life, pause)
        return self

    def start(self, life, after: int = 0) -> None:
        heapq.heappush(self.coming, (self.now + after, next(self.turns), life))

    def stopping(self):
        """The system stops, and what it hadn't saved by now is gone."""
        self.desks.room.save()
        yield self.settings.unsaved
        self.desks.room.stop()

    # ---- callers

    def taken(self) -> int:
        """The seconds until a call that comes now is answered and taken."""
        begins = max(self.now, heapq.heappop(self.takers))
        ends = begins + self.desks.slowed(self.settings.taking)
        heapq.heappush(self.takers, ends)
        self.counts.answered_late += begins - self.now >= 60
        return ends - self.now

    def other_caller(self):
        self.taken()
        yield from ()

    def caller(self, it: Emergency, nth: int, place):
        """Calls, and the first one again as long as nobody has come."""
        draws = people.stream(self.settings, 'caller', it.number, nth)
        again = self.settings.again_least, self.settings.again_most
        self.live[it.number] = it
        for times in range(1 + (self.settings.calls_again if nth == 0 else 0)):
            if self.now >= self.end or times and it.reached is not None:
                return
            self.counts.calls += 1
            self.counts.calls_again += times > 0
            yield self.taken()
            self.take_call(it, place, draws.random() < self.settings.typed_twice)
            yield draws.randint(*again)

    def take_call(self, it: Emergency, place, is_twice: bool) -> None:
        call = Call(next(self.serials), place, it.grade, it.needs)
        self.enter(call, it)
        if is_twice:
            self.counts.typed_again += 1
            self.start(self.entering(call, it), 10)

    def entering(self, call: Call, it: Emergency):
        self.enter(call, it)
        yield from ()

    def enter(self, call: Call, it: Emergency) -> None:
        """Has the room take a call."""
        found = self.about[self.desks.call(call)]
        if it not in found:
            self.counts.joined += bool(found)
            self.counts.taken_twice += it.incidents > 0
            it.incidents += 1
            found.append(it)

    # ---- orders

    def ordered(self, crew: Crew, order: Order) -> None:
        """A desk has sent a vehicle: the radio brings the order to it."""
        self.counts.orders += 1
        for it in self.about[order.incident]:
            it.ordered = self.now if it.ordered is None else it.ordered
        self.start(self.bringing(crew), 2)

    def bringing(self, crew: Crew):
        for _ in range(self.settings.tries):
            if crew.radio.random() >= self.settings.lost:
                self.hear(crew)
                return
            yield self.settings.resend

    def hear(self, crew: Crew) -> None:
        """A crew hears what its terminal shows: it sets out, or says that it can't."""
        order = self.desks.shown(crew)
        if order is None or crew.stage == 'off' or order.number <= crew.heard:
            return
        if crew.is_busy:
            self.counts.orders_to_busy += 1
            self.desks.ring(crew, order)
            return
        crew.order, crew.heard, crew.stage = order, order.number, 'mobile'
        crew.job += 1
        self.start(self.doing(crew, self.meant(order)))

    def meant(self, order: Order) -> Emergency:
        """Whom a crew is to help: of the incident's emergencies that which wants it most."""
        return max(self.about[order.incident], key=lambda it: (it.wanting - it.coming, -it.number))

    # ---- crews

    def doing(self, crew: Crew, it: Emergency):
        """A crew does what it was ordered, and goes home."""
        it.coming += 1
        self.live[it.number] = it
        crew.place, crew.way = crew.where(self.now), None
        yield crew.habits.randint(self.settings.turnout_least, self.settings.turnout_most)
        self.press(crew, 'mobile')
        yield from self.drive(crew, it.place)
        yield from self.help(crew, it)
        crew.order, crew.stage = None, 'free'
        if crew.is_unlisted:
            self.desks.ring(crew, None)
        else:
            self.press(crew, 'return')
        yield from self.go_home(crew, crew.job)

    def set_out(self, crew: Crew, goal) -> int:
        """A crew sets out; gives the seconds until it is there."""
        start = crew.where(self.now)
        takes = distance(start, goal) * 13 // (10 * max(self.settings.speed, 1))
        crew.way = start, goal, self.now, self.now + takes
        return takes

    def drive(self, crew: Crew, goal):
        yield self.set_out(crew, goal)
        crew.place, crew.way = goal, None

    def help(self, crew: Crew, it: Emergency):
        crew.stage = 'scene'
        it.coming -= 1
        is_needed = it.wanting > 0
        is_carried = is_needed and it.hospital is not None
        self.press(crew, 'scene', 'leave' if is_carried else 'return')
        it.reached = self.now if it.reached is None else it.reached
        it.helped += is_needed
        self.counts.in_vain += not is_needed
        yield it.care if is_needed else self.settings.in_vain
        if is_carried:
            crew.stage = 'leave'
            self.press(crew, 'leave', 'hospital')
            yield from self.drive(crew, it.hospital)
            crew.stage = 'hospital'
            self.press(crew, 'hospital', 'return')
            yield it.handover

    def go_home(self, crew: Crew, job: int):
        """Drives home; a crew that hears of nothing for long there presses Home again."""
        if crew.job != job:
            return
        yield self.set_out(crew, crew.home)
        while crew.job == job:
            crew.place, crew.way = crew.home, None
            self.press(crew, 'home')
            yield self.settings.wonder

    def shift(self, crew: Crew, begins: int):
        """From the beginning of a shift, or of the first day, until its end and that of a job."""
        ends = begins + people.LASTS
        if ends <= 0:
            return
        yield max(begins, 0)
        crew.stage, crew.place, crew.until, crew.is_unlisted = 'free', crew.home, ends, False
        crew.job += 1
        self.desks.sign_on(crew)
        self.start(self.go_home(crew, crew.job), self.settings.wonder)
        yield ends - self.now
        while crew.stage != 'free':
            yield 60
        crew.stage, crew.place, crew.way = 'off', crew.home, None
        crew.job += 1
        self.desks.sign_off(crew)

    # ---- buttons

    def press(self, crew: Crew, button: str, following: str | None = None) -> None:
        """What a crew sends where it should press a button."""
        if crew.is_unlisted:
            return
        habit = crew.habit(self.settings)
        if crew.owed:
            button, crew.owed = crew.owed, None
        elif following and habit.is_disordered:
            crew.owed, button = button, following
        if habit.is_left_out:
            return
        place = crew.where(self.now)
        if habit.is_misplaced:
            place = self.city.near(place, crew.habits, 1000, 3000)
        self.send(crew, button, place, habit.delay)
        if habit.is_twice:
            self.send(crew, button, place, habit.delay + habit.pause)

    def send(self, crew: Crew, button: str, place=None, delay: int = 0) -> None:
        """A button of a crew that presses it well, on its way."""
        crew.reports += 1
        self.counts.presses += 1
        report = Report(crew.reports, button, crew.heard, place or crew.where(self.now))
        self.start(self.sending(crew, report), delay)

    def sending(self, crew: Crew, report: Report):
        """A terminal sends until it is answered; the radio loses what goes either way."""
        for _ in range(self.settings.tries):
            there, back = crew.radio.random(), crew.radio.random()
            if there >= self.settings.lost:
                self.arrive(crew, report)
                if back >= self.settings.lost:
                    return
            yield self.settings.resend

    def arrive(self, crew: Crew, report: Report) -> None:
        self.counts.reports += 1
        self.counts.repeated += (crew.callsign, report.number) in self.arrived
        self.arrived.add((crew.callsign, report.number))
        self.desks.report(crew, report)

    # ---- how things are

    def sampler(self):
        while self.now <= self.end:
            self.samples.append(self.now_seen())
            yield SAMPLE

    def now_seen(self) -> dict[str, int]:
        known = self.desks.known()
        on_duty = [it for it in self.crews.values() if it.stage != 'off' and it.callsign in known]
        self.live = {key: it for key, it in self.live.items() if it.coming or it.wanting}
        waiting = [it for it in self.live.values() if it.coming < it.wanting]
        sought = {it.number for key in self.desks.lacking() for it in self.about[key]}
        return {
            'moment': self.now,
            'waiting': len(waiting),
            'forgotten': sum(it.incidents > 0 and it.number not in sought for it in waiting),
            'mistaken': sum(known[it.callsign][0] != it.is_busy for it in on_duty),
            'elsewhere': sum(distance(known[it.callsign][1], it.where(self.now)) > 3000
                             for it in on_duty),
            'lines': self.desks.waiting,
        }
