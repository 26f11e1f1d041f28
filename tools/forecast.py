"""How long proofs will take: by a table of what each crate's took, and by how quick this machine
is."""
import heapq
import pathlib
import re
import resource
import time

TABLE = pathlib.Path(__file__).with_name('forecast_files') / 'times.md'


def table():
    """The processor seconds of each crate's proof, by rows as tools/gate_times prints them."""
    rows = re.findall(r'^\| (\w+) \| (\d+) s', TABLE.read_text(), re.M)
    return {name: float(seconds) for name, seconds in rows}


def ends(waits, seconds, lanes):
    """When each proof ends on so many processors: it takes its seconds, after those that it waits
    for."""
    free, found, left = [0.0] * lanes, {}, list(waits)
    while left:
        ready = {it: max((found[below] for below in waits[it]), default=0.0)
                 for it in left if waits[it] <= found.keys()}
        begin = heapq.heappop(free)
        name = min(ready, key=lambda it: max(ready[it], begin))
        found[name] = max(ready[name], begin) + seconds[name]
        heapq.heappush(free, found[name])
        left.remove(name)
    return found


def processor_seconds():
    """What all processes took that this one started and that have ended."""
    used = resource.getrusage(resource.RUSAGE_CHILDREN)
    return used.ru_utime + used.ru_stime


class Forecast:
    """What is left of some proofs, each with those that it waits for, on so many processors."""

    def __init__(self, waits, lanes):
        known = table()
        # (a crate that the table lacks is as dear as another)
        usual = sum(known.values()) / len(known)
        self.seconds = {it: known.get(it, usual) for it in waits}
        self.ends, self.ended = ends(waits, self.seconds, lanes), set()
        self.began, self.used = time.monotonic(), processor_seconds()

    def end(self, name):
        """Notes that a proof has ended."""
        self.ended.add(name)

    def at(self):
        """The end of those that have ended, by the table."""
        return max((self.ends[it] for it in self.ended), default=0.0)

    def slowness(self):
        """How much longer proofs take here than by the table: by the clock, for other work on the
        machine, or by the processor, where a proof has had several."""
        if not self.ended:
            return 1.0
        clock = (time.monotonic() - self.began) / self.at()
        by_table = sum(map(self.seconds.get, self.ended))
        return max(clock, (processor_seconds() - self.used) / by_table)

    def left(self):
        """The seconds that are left."""
        return (max(self.ends.values(), default=0.0) - self.at()) * self.slowness()

    def said(self):
        minutes = round(self.left() / 60)
        return f'some {minutes} min left' if minutes > 1 else 'a minute or two left'
