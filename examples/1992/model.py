"""A model of the room: its rules (docs/RULES.md) as far as a day here needs them. Each of the
promises that promises.py names can be taken away; without all of them it is a caricature of the
system of 1992."""
import collections
import dataclasses
import heapq
import math
import pickle

import people
from logs import Log, Queue
from people import Call, Crew, Order, Place, Report, distance
from rooms import FREE, ON_JOB, Incident, Line, Room

LINKED_WITHIN, LINKED_FOR = 200, 900  # metres and seconds
ACKNOWLEDGED_WITHIN, SENT_WITHIN = 60, 180  # seconds
SLOW_AFTER = {1: 480, 2: 840, 3: 3600}  # seconds, by class
SETS = {'mobile': 2, 'scene': 3, 'leave': 4, 'hospital': 5, 'return': 6, 'home': 1}
# By status the buttons that are normal, that skip one, and that leave the status as it is.
NORMAL = {3: ('leave', 'return'), 4: ('hospital',), 5: ('return',), 6: ('home',)}
SKIPPED = {2: ('leave', 'hospital', 'return', 'home'), 3: ('hospital', 'home'),
           4: ('return', 'home'), 5: ('home',)}
STAYS = {1: ('home',), 2: ('mobile',), 3: ('scene',), 4: ('leave',), 5: ('hospital',),
         6: ('return',)}


@dataclasses.dataclass(eq=False)
class Turn:
    """A vehicle's order."""
    number: int
    vehicle: str
    case: 'Case'
    place: Place
    ordered: int
    is_heard: bool = False
    is_there: bool = False  # it reached the scene, left it or reached a hospital
    is_open: bool = True


@dataclasses.dataclass(eq=False)
class Case(Incident):
    needs: int
    turns: list[Turn] = dataclasses.field(default_factory=list)

    @property
    def served(self) -> int:
        return sum(it.is_open or it.is_there for it in self.turns)

    @property
    def lacks(self) -> int:
        return max(0, self.needs - self.served)


@dataclasses.dataclass(eq=False)
class Vehicle:
    name: str
    division: int
    place: Place
    status: int = 0
    until: int = 0
    number: int = 0  # of its greatest report
    order: int = 0  # of its last order, heard or not
    turn: Turn | None = None


class State:
    """All that is kept."""

    def __init__(self, crews, divisions, new_list):
        self.fleets = {it: {} for it in divisions}
        for it in crews.values():
            self.fleets[it.division][it.callsign] = Vehicle(it.callsign, it.division, it.home)
        self.on_duty = {it: {} for it in divisions}  # of these vehicles those at work
        self.free = {it: {} for it in divisions}  # of those the free ones
        self.ends = {it: [] for it in divisions}  # the ends of their shifts, the next one first
        self.over = {it: {} for it in divisions}  # those whose shift is over
        self.sent = {it: {} for it in divisions}  # those at status 2, with an order
        self.active = {it: {} for it in divisions}  # incidents by their keys
        self.lacking = {it: {} for it in divisions}  # those that lack a vehicle
        self.calls, self.reports = {}, {}  # what was answered, by what was asked
        self.lists = {it: new_list() for it in divisions}
        self.timed = {it: set() for it in divisions}  # what time had made of them at the last look


class Model(Room):
    def __init__(self, world, kept: frozenset[str]):
        self.world, self.settings, self.kept = world, world.settings, kept
        self.is_log = 'queue' not in kept
        new_list, stays = Log if self.is_log else Queue, 'stay' in kept
        self.state = State(world.crews, world.city.divisions,
                           lambda: new_list(world.settings, stays))
        self.saved, self.numbers, self.orders = None, collections.Counter(), {}

    def vehicle(self, crew: Crew) -> Vehicle:
        return self.state.fleets[crew.division][crew.callsign]

    def settle(self, case: Case) -> None:
        """Keeps an incident among those that lack a vehicle, or not, as it is."""
        among = self.state.lacking[case.key[0]]
        if case.lacks and case.key in self.state.active[case.key[0]]:
            among[case.key] = case
        else:
            among.pop(case.key, None)

    def put(self, it: Vehicle, status: int) -> None:
        """Sets a vehicle's status, and keeps it among those that this makes it one of."""
        it.status, state, of = status, self.state, it.division
        for among, belongs in ((state.on_duty, status), (state.free, status in FREE),
                               (state.sent, status == 2 and it.turn)):
            if belongs:
                among[of][it.name] = it
            else:
                among[of].pop(it.name, None)
        if not status:
            state.over[of].pop(it.name, None)

    # ---- calls

    def call(self, call: Call) -> tuple[int, int]:
        form = call.position, call.serial
        if 'links' in self.kept and form in self.state.calls:
            return self.state.calls[form]
        division = self.world.city.division_of(call.place)
        found = self.like(division, call)
        if found and self.knows_again(call):
            found.grade, found.needs = min(found.grade, call.grade), max(found.needs, call.needs)
        else:
            self.numbers[division] += 1
            key = division, self.numbers[division]
            found = Case(key, call.place, call.grade, self.world.now, call.needs)
            self.state.active[division][key] = found
        self.settle(found)
        if 'links' in self.kept:
            self.state.calls[form] = found.key
        return found.key

    def like(self, division: int, call: Call) -> Case | None:
        """The nearest incident that is near and late enough."""
        found, (east, north), earliest = [], call.place, self.world.now - LINKED_FOR
        # (they stand in the order in which they were opened)
        for it in reversed(self.state.active[division].values()):
            if it.opened < earliest:
                break
            if abs(it.place[0] - east) <= LINKED_WITHIN >= abs(it.place[1] - north):
                found.append((distance(it.place, call.place), it.key, it))
        return min((it for it in found if it[0] <= LINKED_WITHIN), default=(0, 0, None))[2]

    def knows_again(self, call: Call) -> bool:
        if 'links' in self.kept:
            return True
        draws = people.stream(self.settings, 'recognised', call.number, self.world.now)
        return draws.random() < self.settings.recognised

    # ---- reports

    def report(self, crew: Crew, report: Report) -> int:
        it, form = self.vehicle(crew), (crew.callsign, report.number)
        if 'repeats' in self.kept and form in self.state.reports:
            return self.state.reports[form]
        outcome = self.outcome(it, report)
        it.number = max(it.number, report.number)
        if outcome in ('normal', 'skipped') or not self.is_set_aside(outcome) and it.status:
            self.move(it, report)
        if outcome != 'normal':
            self.begin(crew.division, Line(4, self.world.now, report.number, crew.callsign))
        if 'repeats' in self.kept:
            self.state.reports[form] = it.status
        return it.status

    def outcome(self, it: Vehicle, report: Report) -> str:
        button = report.button
        if 'late' in self.kept:
            if report.number < it.number:
                return 'late'
            if button != 'home' and report.order != it.order:
                return 'stale'
        if it.status == 2 and it.turn and button == 'scene':
            return 'normal' if it.turn.is_heard else 'skipped'
        if button in NORMAL.get(it.status, ()) or button in STAYS.get(it.status, ()):
            return 'normal'
        return 'skipped' if button in SKIPPED.get(it.status, ()) else 'wrong'

    def is_set_aside(self, outcome: str) -> bool:
        return outcome in ('late', 'stale') or 'orders' in self.kept

    def move(self, it: Vehicle, report: Report) -> None:
        """A vehicle is believed to be where and what a report says."""
        it.place, button, turn = report.place, report.button, it.turn
        status = it.status if button in STAYS.get(it.status, ()) else SETS[button]
        if turn:
            turn.is_heard |= button == 'mobile'
            turn.is_there |= button in ('scene', 'leave', 'hospital')
            if button in ('return', 'home'):
                it.turn = None
                # Without the promise an incident where it never was keeps it on record.
                turn.is_open = 'orders' not in self.kept and not turn.is_there
            self.settle(turn.case)
        self.put(it, status)

    # ---- crews

    def terminal(self, crew: Crew) -> tuple[Order | None, int]:
        it = self.vehicle(crew)
        turn = it.turn
        return turn and Order(turn.number, turn.case.key, turn.place), it.status

    def on_duty(self, crew: Crew, place: Place) -> None:
        it = self.vehicle(crew)
        if it.status == 0 and crew.until > self.world.now:
            it.place, it.until = place, crew.until
            self.put(it, 1)
            heapq.heappush(self.state.ends[it.division], (it.until, it.name))

    def off_duty(self, crew: Crew) -> None:
        it = self.vehicle(crew)
        if it.status in FREE:
            self.put(it, 0)

    def stand_down(self, crew: Crew) -> None:
        it = self.vehicle(crew)
        if it.status == 2 and it.turn:
            it.turn.is_open, case, it.turn = False, it.turn.case, None
            self.put(it, 6)
            self.settle(case)

    # ---- desks

    def lacking(self, division: int) -> list[Incident]:
        return list(self.state.lacking[division].values())

    def proposed(self, incident: Incident) -> str | None:
        (east, north), now = incident.place, self.world.now
        found = [((it.place[0] - east) ** 2 + (it.place[1] - north) ** 2, it.name)
                 for it in self.state.free[incident.key[0]].values() if it.until > now]
        if not found:
            return None
        # Distances are rounded down; of equal ones the lowest callsign is proposed.
        beyond = (math.isqrt(min(found)[0]) + 1) ** 2
        return min(name for far, name in found if far < beyond)

    def mobilise(self, incident: Incident, vehicle: str) -> int | None:
        division, now = incident.key[0], self.world.now
        case = self.state.active[division].get(incident.key)
        it = self.state.fleets[division][vehicle]
        if not case or not it.status:
            return None
        if 'orders' in self.kept and (it.status not in FREE or it.until <= now or not case.lacks):
            return None
        self.orders[vehicle] = it.order = self.orders.get(vehicle, 0) + 1
        it.turn = Turn(it.order, vehicle, case, case.place, now)
        case.turns.append(it.turn)
        self.put(it, 2)
        self.settle(case)
        return it.order

    def close_done(self, division: int) -> None:
        among = self.state.active[division]
        worked_on = {it.turn.case.key for it in self.state.on_duty[division].values() if it.turn}
        for key in among.keys() - self.state.lacking[division].keys() - worked_on:
            del among[key]

    def vehicles(self, division: int) -> dict[str, tuple[bool, Place]]:
        return {it.name: (it.status in ON_JOB, it.place)
                for it in self.state.on_duty[division].values()}

    # ---- the list

    def begin(self, division: int, cause: Line) -> None:
        if cause not in self.state.lists[division]:
            self.state.lists[division].begin(cause)

    def look(self, division: int) -> Queue | Log:
        """The list as it is now."""
        found, state = self.of_time(division), self.state
        if found != state.timed[division]:
            for it in state.timed[division] - found:
                state.lists[division].end(it)
            for it in found - state.timed[division]:
                state.lists[division].begin(it)
            state.timed[division] = found
        state.lists[division].look(self.world.now)
        return state.lists[division]

    def of_time(self, division: int) -> set[Line]:
        """What needs an eye by now, beside reports that came out of turn."""
        now, found = self.world.now, set()
        for it in self.state.lacking[division].values():
            if now - it.opened > SENT_WITHIN and not it.served:
                found.add(Line(1, it.opened, it.key[1], ''))
        for it in self.state.sent[division].values():
            turn, case = it.turn, it.turn.case
            if not turn.is_heard and now - turn.ordered > ACKNOWLEDGED_WITHIN:
                found.add(Line(2, turn.ordered, case.key[1], turn.vehicle))
            if now - case.opened > SLOW_AFTER[case.grade]:
                found.add(Line(3, case.opened, case.key[1], turn.vehicle))
        found.update(Line(6, it.until, 0, it.name) for it in self.of_shifts(division, now))
        return found

    def of_shifts(self, division: int, now: int):
        """Vehicles whose shift is over."""
        ends, over = self.state.ends[division], self.state.over[division]
        while ends and ends[0][0] <= now:
            it = self.state.fleets[division][heapq.heappop(ends)[1]]
            if it.status and it.until <= now:
                over[it.name] = it
        return over.values()

    def lines(self, division: int) -> list[tuple[Line, bool]]:
        return self.look(division).on_screen()

    def waiting(self, division: int) -> int:
        return self.look(division).waiting

    def clear(self, division: int, line: Line) -> None:
        if line in self.state.lists[division]:
            self.state.lists[division].end(line)

    def take_off(self, division: int, line: Line) -> None:
        if self.is_log:
            self.state.lists[division].take_off(line)

    # ---- a stop

    def save(self) -> None:
        self.saved = None if 'stops' in self.kept else pickle.dumps(self.state)

    def stop(self) -> None:
        if self.saved:
            self.state = pickle.loads(self.saved)
