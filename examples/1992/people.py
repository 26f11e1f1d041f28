"""The day's people: who needs help, who calls, and the crews with their habits. Each draws from a
stream of its own, so both systems meet the same ones. Moments are whole seconds, places whole
metres; nothing takes a logarithm or a sine, for these differ between machines."""
import dataclasses
import itertools
import math
import random

DAY = 86_400
# How many calls come in an hour of the day, beside each other (an assumption).
HOURS = [6, 5, 4, 4, 3, 3, 4, 6, 8, 10, 11, 11, 11, 11, 11, 11, 11, 11, 12, 12, 11, 10, 9, 8]
UNTIL = list(itertools.accumulate(HOURS))
BY_DAY, BY_NIGHT = 7 * 3600, 19 * 3600  # when shifts begin (an assumption), and how long all are
LASTS = 12 * 3600
STAGGER = 3600  # seconds over which the beginnings of shifts are spread
WEST, SOUTH, WIDTH, HEIGHT = 510_000, 160_000, 39_999, 38_999  # of the whole city, in metres
MIDDLE = 530_000, 180_000
POSITIONS = 30  # of call takers

Place = tuple[int, int]


class City:
    """The city as one division, or as three: North West, North East, South."""

    def __init__(self, side: int, divisions: int):
        self.divisions = range(1, 4 if divisions > 1 else 2)
        shrunk = lambda at, middle: middle + (at - middle) * side // 100
        self.west, self.east = (shrunk(it, MIDDLE[0]) for it in (WEST, WEST + WIDTH))
        self.south, self.north = (shrunk(it, MIDDLE[1]) for it in (SOUTH, SOUTH + HEIGHT))
        self.split = shrunk(176_000, MIDDLE[1])

    def areas(self) -> dict[int, tuple[int, int, int, int]]:
        """Of each division west, south, east and north."""
        if len(self.divisions) == 1:
            return {1: (self.west, self.south, self.east, self.north)}
        return {1: (self.west, self.split, MIDDLE[0] - 1, self.north),
                2: (MIDDLE[0], self.split, self.east, self.north),
                3: (self.west, self.south, self.east, self.split - 1)}

    def division_of(self, place: Place) -> int:
        east, north = place
        if len(self.divisions) == 1:
            return 1
        return 3 if north < self.split else 1 if east < MIDDLE[0] else 2

    def place(self, draws: random.Random) -> Place:
        """Somewhere, more often near the middle."""
        return (int(draws.triangular(self.west, self.east, MIDDLE[0])),
                int(draws.triangular(self.south, self.north, MIDDLE[1])))

    def place_in(self, division: int, draws: random.Random) -> Place:
        return next(it for it in iter(lambda: self.place(draws), None)
                    if self.division_of(it) == division)

    def near(self, place: Place, draws: random.Random, least: int, most: int) -> Place:
        """A place that is so far off, each way."""
        off = [draws.choice((-1, 1)) * draws.randint(least, most) for _ in place]
        return (min(max(place[0] + off[0], self.west), self.east),
                min(max(place[1] + off[1], self.south), self.north))


def distance(place: Place, other: Place) -> int:
    return math.isqrt((place[0] - other[0]) ** 2 + (place[1] - other[1]) ** 2)


def stream(settings, *names) -> random.Random:
    """The draws of one person or thing."""
    return random.Random(' '.join(map(str, (settings.seed, *names))))


def moment(draws: random.Random) -> int:
    """The second of a day, more often in the hours of most calls."""
    return draws.choices(range(24), cum_weights=UNTIL)[0] * 3600 + draws.randrange(3600)


# ---- who needs help


@dataclasses.dataclass(eq=False)
class Emergency:
    """What happened somewhere, and what becomes of it."""
    number: int
    at: int
    place: Place
    grade: int  # 1 is the most urgent
    needs: int
    care: int  # seconds at the scene
    hospital: Place | None
    handover: int  # seconds at the hospital
    callers: list[tuple[int, Place]]  # after how many seconds, and what place they give
    ordered: int | None = None  # the moment of its first order
    reached: int | None = None  # the moment of its first crew
    incidents: int = 0  # that a system has made of it
    helped: int = 0  # crews that have come and were needed
    coming: int = 0  # crews that are on the way

    @property
    def wanting(self) -> int:
        """How many crews are still to come, of which some may be on the way."""
        return self.needs - self.helped


def emergencies(settings, city: City, days: int) -> list[Emergency]:
    many = round(settings.calls / (1 + settings.second_caller))
    draws = stream(settings, 'hospitals')
    hospitals = [city.place(draws) for _ in range(settings.hospitals)]
    return [emergency(settings, city, hospitals, day * many + nth, day * DAY)
            for day in range(days) for nth in range(many)]


def emergency(settings, city, hospitals, number, midnight) -> Emergency:
    draws = stream(settings, 'emergency', number)
    at = midnight + moment(draws)
    place = city.place(draws)
    callers = [(0, place)]
    second = draws.random(), draws.randrange(600), city.near(place, draws, 0, 60)
    if second[0] < settings.second_caller:
        callers.append(second[1:])
    grade = draws.choices((1, 2, 3), (3, 5, 2))[0]
    needs = 2 if draws.random() < settings.two_needed else 1
    nearest = min(hospitals, key=lambda it: distance(it, place))
    is_carried = draws.random() < settings.carried
    return Emergency(number, at, place, grade, needs,
                     draws.randint(settings.scene_least, settings.scene_most),
                     nearest if is_carried else None,
                     draws.randint(settings.hospital_least, settings.hospital_most), callers)


# ---- who calls


def other_calls(settings, days: int) -> list[int]:
    """The moments of calls about something else, which take call takers' time alone."""
    draws = stream(settings, 'other calls')
    return [day * DAY + moment(draws) for day in range(days) for _ in range(settings.other_calls)]


def stops(settings, days: int) -> list[int]:
    """The moments at which the system stops, in the hours of most calls."""
    draws = stream(settings, 'stops')
    return [day * DAY + draws.randrange(9 * 3600, 21 * 3600)
            for day in range(days) for _ in range(settings.stops)]


@dataclasses.dataclass(frozen=True)
class Call:
    """The form that a call taker fills in."""
    number: int  # of the day's calls, from 0
    place: Place
    grade: int
    needs: int

    @property
    def position(self) -> int:
        return self.number % POSITIONS + 1

    @property
    def serial(self) -> int:
        return self.number // POSITIONS + 1


# ---- who drives


@dataclasses.dataclass(frozen=True)
class Report:
    """A button, as a crew's terminal sends it."""
    number: int
    button: str
    order: int
    place: Place


@dataclasses.dataclass(frozen=True)
class Order:
    """An order as a crew hears it: its number, the incident by the system's key, and its place."""
    number: int
    incident: tuple
    place: Place


@dataclasses.dataclass(frozen=True)
class Habit:
    """How one press goes."""
    is_left_out: bool
    is_twice: bool
    is_disordered: bool
    is_misplaced: bool
    delay: int
    pause: int  # before the second of two presses


@dataclasses.dataclass(eq=False)
class Crew:
    """A vehicle and those in it: where they truly are and what they truly do."""
    callsign: str
    division: int
    home: Place
    begins: int  # second of the day
    habits: random.Random
    radio: random.Random
    stage: str = 'off'  # or free, mobile, scene, leave, hospital
    place: Place = (0, 0)
    way: tuple | None = None  # from, to, left at, there at
    job: int = 0  # changes with every job, so that what a crew meant to do before is dropped
    order: Order | None = None
    heard: int = 0  # the number of the last order that its terminal had
    until: int = 0  # the end of its shift
    reports: int = 0
    owed: str | None = None  # the button that it left for the next one
    is_unlisted: bool = False  # its desk took it off duty, until it says that it is free

    @property
    def is_busy(self) -> bool:
        return self.stage not in ('off', 'free')

    def habit(self, settings) -> Habit:
        """How the next press goes. Each takes as many draws, whatever the rates are."""
        shares = [self.habits.random() for _ in range(5)]
        late = self.habits.randint(settings.late_least, settings.late_most)
        pause = self.habits.randint(5, 60)
        return Habit(shares[0] < settings.left_out, shares[1] < settings.twice,
                     shares[2] < settings.disordered, shares[3] < settings.misplaced,
                     late if shares[4] < settings.late else 0, pause)

    def where(self, now: int) -> Place:
        """Where it truly is."""
        if not self.way:
            return self.place
        start, goal, left, there = self.way
        share = min(now, there) - left, max(there - left, 1)
        return tuple(a + (b - a) * share[0] // share[1] for a, b in zip(start, goal))


def crews(settings, city: City) -> dict[str, Crew]:
    found = {}
    for number in range(settings.vehicles):
        draws, callsign = stream(settings, 'vehicle', number), f'A{number + 1:03}'
        home = city.place_in(number % len(city.divisions) + 1, draws)
        # (37 is prime to 100, so that shares are spread over the callsigns)
        is_by_day = number * 37 % 100 < 100 * settings.by_day
        begins = (BY_DAY if is_by_day else BY_NIGHT) + draws.randrange(STAGGER)
        found[callsign] = Crew(callsign, city.division_of(home), home, begins,
                               stream(settings, 'habits', callsign),
                               stream(settings, 'radio', callsign), place=home)
    return found
