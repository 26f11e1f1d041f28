"""What the exceptions of a queue were. The queue has their callsigns and numbers; the rest is in
the vehicles' reports, of a room that has a path for them. Each exception is asked for once."""
from room_lists import NoAnswer, Refusal

RANK = 4  # of exceptions in the queue
AT_ONCE = 8  # vehicles that are asked for in a reading


def key_of(entry):
    return entry['vehicle'], entry['number']


class Exceptions:
    """The reports of the exceptions that are in a queue, None where the room gave none."""

    def __init__(self):
        self.reports = {}

    def explain(self, queue, reports_of):
        """Gives each exception of a queue its report, as far as that is known. `reports_of` asks
        for a vehicle's; what has left the queue is forgotten."""
        found = [it for it in queue if it['rank'] == RANK]
        self.reports = {key_of(it): self.reports[key_of(it)] for it in found
                        if key_of(it) in self.reports}
        new = [it['vehicle'] for it in found if key_of(it) not in self.reports]
        try:
            for vehicle in list(dict.fromkeys(new))[:AT_ONCE]:
                known = known_of(vehicle, reports_of)
                self.reports |= {key_of(it): known.get(it['number']) for it in found
                                 if it['vehicle'] == vehicle}
        except NoAnswer:
            pass  # the next reading asks again
        for it in found:
            it['report'] = self.reports.get(key_of(it))


def known_of(vehicle, reports_of):
    """A vehicle's reports by their numbers; none where the room refuses them."""
    try:
        return {it['number']: it for it in reports_of(vehicle)}
    except (Refusal, KeyError, TypeError):
        return {}
