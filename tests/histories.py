"""A judge of what terminals asked and were answered, who knows nothing of what is between: whether
there is one list of all changes that fits real time. It is given the list, what was answered with
when it was asked and answered, and what was said of each request without an answer."""
import collections


def misplaced(answered):
    """Changes that stand before what was answered when they were asked, or in its place; and
    questions that were answered by an older room."""
    by_end, last = collections.deque(sorted(answered, key=lambda it: it.ended)), -1
    for it in sorted(answered, key=lambda it: it.asked):
        while by_end[0].ended < it.asked:
            last = max(last, by_end.popleft().number)
        if it.number < last:
            yield f'{"stale" if it.is_question else "reordered"}: behind {last}: {it}'
        elif it.number == last and not it.is_question:
            yield f'reordered: in the place of what was answered before: {it}'


def miscounted(kept, answered, unanswered):
    """What stands in the list less often than it was answered, or said to be kept, or more often
    than it may have been kept."""
    sure = collections.Counter(it.sent for it in answered)
    sure.update(sent for sent, word in unanswered if word == 'yes')
    most = sure + collections.Counter(sent for sent, word in unanswered if word == 'perhaps')
    count = collections.Counter(it for it in kept if it is not None)
    for it in {**count, **most}:
        if count[it] < sure[it]:
            yield f'lost: {count[it]} of {sure[it]}: {it}'
        elif count[it] > most[it]:
            yield f'doubled: {count[it]} of at most {most[it]}: {it}'


def faults(kept, answered, unanswered):
    """Why there is no such list, or nothing. Of the list it is given each record's message, or None
    where that is of no terminal."""
    changes = [it for it in answered if not it.is_question]
    numbers = collections.Counter(it.number for it in changes)
    found = [f'doubled: {count} answers of record {it}' for it, count in numbers.items()
             if count > 1]
    found += [f'lost: {it}' for it in changes
              if not 0 < it.number <= len(kept) or kept[it.number - 1] != it.sent]
    sent = [it for it in unanswered if not it[0].startswith(b'GET ')]
    return [*found, *miscounted(kept, changes, sent), *misplaced(answered)]
