"""The promises that the table gives to 1992 and takes from the room, one at a time: what holds with
each, what the model does without it, and clauses that say it, each with an edit that turns its
meaning and that the prover refuses, both as docs/PROMISES.md names them in one row."""
import dataclasses


@dataclasses.dataclass(frozen=True)
class Promise:
    name: str
    short: str
    holds: str
    without: str  # as the accounts tell of 1992, or as the model has it
    clauses: tuple[tuple[str, str], ...]  # each a clause and an edit


SOURCES = [
    'Report of the Inquiry into the London Ambulance Service. South West Thames Regional Health '
    'Authority, February 1993.',
    'A. Finkelstein and J. Dowell, A Comedy of Errors: the London Ambulance Service case study. '
    'Proceedings of the 8th International Workshop on Software Specification and Design, 1996.',
]
ALL = [
    Promise('repeats', 'repeats act once', 'A report that comes again acts once.',
            'It acts each time that it comes.',
            (('report_once', 'a kept report is answered for a later order'),)),
    Promise('late', 'late ones set aside',
            'A report that is late, or about an earlier order, is set aside.',
            'It is taken as it comes, and the last status known is believed.',
            (('report', 'a stale report acts'),)),
    Promise('links', 'calls linked',
            'A repeated call joins its incident, and a form entered twice is one call.',
            'It is a new incident, but for a share that a call taker knows again.',
            (('link_target', 'a call after 900 seconds is not linked'),
             ('call_once', 'a kept call is answered anew'))),
    Promise('queue', 'exact queue',
            'The list has what needs an eye now, each thing once, the most urgent first.',
            'It is a log: lines in the order in which they were made, until a desk takes them '
            'off, and more lines about what nobody saw to.',
            (('queue', 'only fifty entries are reported'),
             ('most_urgent_first', 'the least urgent is first'))),
    Promise('stay', 'lines stay', 'What stands beyond the screen stays, and moves up.',
            'It scrolls off, and nobody sees it again.',
            (('exception_stays', 'an order that is read is not too slow'),)),
    Promise('orders', 'one order a vehicle',
            'A vehicle has one order at a time, and it and its incident agree.',
            'Any button is believed, a vehicle that was sent is sent again, and the incident that '
            'it left keeps it on record.',
            (('order_kept', 'a mobilised vehicle is sent again'),
             ('sent_once', 'a returned vehicle keeps its assignment'))),
    Promise('stops', 'nothing lost at a stop', 'What was answered is kept where the system stops.',
            'The minutes before a stop are lost.',
            (('kept', 'the answer is written before the room acts'),)),
]
KEPT = frozenset(it.name for it in ALL)
