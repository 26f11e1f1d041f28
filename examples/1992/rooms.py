"""What desks, call takers and crews ask of a room, whichever it is: the proved program
(proved_room.py), or the model of its rules, of which each can be taken away (model.py)."""
import dataclasses
import typing

from people import Call, Crew, Order, Place, Report

ON_JOB, FREE = (2, 3, 4, 5), (1, 6)  # the statuses of docs/RULES.md


@dataclasses.dataclass(eq=False)
class Incident:
    """An incident that lacks a vehicle. Its key is its division and its number there."""
    key: tuple[int, int]
    place: Place
    grade: int
    opened: int


class Line(typing.NamedTuple):
    """A line of a desk's list; a queue has them in their order."""
    rank: int
    since: int
    number: int
    vehicle: str


class Room:
    is_log = False  # whether lines stay until a desk takes them off

    def call(self, call: Call) -> tuple[int, int]:
        """Takes a call; gives the key of its incident."""

    def report(self, crew: Crew, report: Report) -> int:
        """Takes a report; gives the vehicle's status as answered."""

    def terminal(self, crew: Crew) -> tuple[Order | None, int]:
        """What a crew's terminal shows: its order, and its status."""

    def on_duty(self, crew: Crew, place: Place) -> None: ...

    def off_duty(self, crew: Crew) -> None: ...

    def stand_down(self, crew: Crew) -> None: ...

    def lacking(self, division: int) -> list[Incident]: ...

    def proposed(self, incident: Incident) -> str | None:
        """The vehicle to send to an incident, if it lacks one and there is one."""

    def mobilise(self, incident: Incident, vehicle: str) -> int | None:
        """Sends a vehicle; gives the number of its order, unless that was refused."""

    def close_done(self, division: int) -> None:
        """Closes incidents that lack nothing, and on which no vehicle works."""

    def lines(self, division: int) -> list[tuple[Line, bool]]:
        """The screen of a desk: the first lines of its list, and of each whether it still needs an
        eye."""

    def waiting(self, division: int) -> int:
        """How many lines there are, on a screen or not."""

    def clear(self, division: int, line: Line) -> None:
        """Clears a report out of the list."""

    def take_off(self, division: int, line: Line) -> None:
        """Takes a line off, where lines stay."""

    def vehicles(self, division: int) -> dict[str, tuple[bool, Place]]:
        """Of each vehicle on duty whether it is busy, and where it was last."""

    def save(self) -> None:
        """The moment up to which a room that doesn't keep things at once has kept them."""

    def stop(self) -> None:
        """Stops it, and begins again with what was kept."""
