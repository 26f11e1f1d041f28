"""What came of a day, as plain numbers. All is counted of the world, which is the same kind of
thing whatever the room; but an order upon an order, of what that room answered before."""
from world import IN_TIME, SAMPLE, WITHIN, World

# Those that the page and the table show, as they name them.
SHOWN = {
    'sent_in_time': '% sent one in 180 s',
    'there_in_time': '% had one in 14 min',
    'never_reached': 'never reached',
    'in_vain': 'journeys in vain',
    'orders_to_busy': 'orders to busy crews',
    'at_two': 'orders upon an order',
    'taken_twice': 'second incidents',
    'forgotten_hours': 'hours waiting unknown',
}


def percent(some: int, of: int) -> float:
    """With one digit behind the point."""
    return (2000 * some + of) // (2 * of) / 10 if of else 0.0


def hours_of(samples: list[dict], name: str) -> float:
    """How many hours of vehicles or emergencies a sampled number is."""
    return round(sum(it[name] for it in samples) * SAMPLE / 3600, 1)


def is_sent_in_time(it) -> bool:
    return it.ordered is not None and it.ordered - it.at <= IN_TIME


def is_there_in_time(it) -> bool:
    return it.reached is not None and it.reached - it.at <= WITHIN


def figures(world: World) -> dict:
    them, counts, samples = world.emergencies, world.counts, world.samples
    return {
        'emergencies': len(them), 'calls': counts.calls, 'calls_again': counts.calls_again,
        'answered_late': counts.answered_late, 'presses': counts.presses,
        'reports': counts.reports, 'repeated': counts.repeated, 'orders': counts.orders,
        'sent_in_time': percent(sum(map(is_sent_in_time, them)), len(them)),
        'there_in_time': percent(sum(map(is_there_in_time, them)), len(them)),
        'never_reached': sum(it.reached is None for it in them),
        'taken_twice': counts.taken_twice, 'joined': counts.joined,
        'in_vain': counts.in_vain, 'orders_to_busy': counts.orders_to_busy,
        'at_two': world.desks.at_two,
        'forgotten_hours': hours_of(samples, 'forgotten'),
        'waiting_hours': hours_of(samples, 'waiting'),
        'mistaken_hours': hours_of(samples, 'mistaken'),
        'elsewhere_hours': hours_of(samples, 'elsewhere'),
        'most_lines': max(it['lines'] for it in samples),
    }
