"""What the page's map shows of a day: every five minutes where each crew truly is, what it does,
the screen of a desk, and what went wrong until then; and of each emergency when it was called in,
sent a vehicle, reached."""
import base64

BEGINS = 7 * 3600  # the second of the day at which the story begins
STEP = 300
STAGES = ['off', 'free', 'mobile', 'scene', 'leave', 'hospital']
RANKS = {1: 'incident {number}: nobody sent', 2: '{vehicle} has not answered its order',
         3: '{vehicle} is slow to incident {number}', 4: '{vehicle}: report {number} is odd',
         6: '{vehicle}: its shift is over'}


class Story:
    """Follows a world that is about to be played."""

    def __init__(self, world):
        self.world, self.steps = world, []
        world.start(self.following(), BEGINS)

    def following(self):
        while self.world.now <= self.world.end:
            self.steps.append(self.seen())
            yield STEP

    def seen(self) -> dict:
        world, counts = self.world, self.world.counts
        lines = world.desks.room.lines(1)
        marks = bytearray()
        for it in world.crews.values():
            marks += bytes([*self.scaled(it.where(world.now)), STAGES.index(it.stage)])
        return {'crews': base64.b64encode(marks).decode(), 'waiting': world.desks.waiting,
                'wrong': [counts.taken_twice, world.desks.at_two, counts.orders_to_busy,
                          counts.in_vain],
                'lines': [RANKS[it.rank].format(number=it.number, vehicle=it.vehicle)
                          for it, _ in lines]}

    def scaled(self, place) -> tuple[int, int]:
        """A place of the map, each way from 0 to 255."""
        city = self.world.city
        return (255 * (place[0] - city.west) // (city.east - city.west),
                255 * (city.north - place[1]) // (city.north - city.south))

    def told(self) -> dict:
        """All of it, as the page's script reads it."""
        return {'steps': self.steps, 'emergencies': [
            [it.at, *self.scaled(it.place), it.grade, it.ordered, it.reached, it.incidents]
            for it in self.world.emergencies]}
