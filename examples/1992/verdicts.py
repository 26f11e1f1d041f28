#!/usr/bin/env python3
"""What the prover says of each edit that the page names. It tries them over the built libraries,
some minutes each, and keeps where each is refused in verdicts.json, of which the page is made."""
import json
import sys

import page
import promises

sys.path.append(str(page.TOP / 'tools'))

import kit  # noqa: E402

MOST = 150  # characters of a refusal


def refusal(name: str, edit: str) -> str | None:
    """Where and why the prover refuses an edit; None where it doesn't."""
    path = page.edit_of(page.links_of(name, edit), edit)
    crate = next(kit.crates()[it] for it in reversed(path.parts) if it in kit.crates())
    is_refused, said = kit.judged(crate, path)
    print(said, file=sys.stderr, flush=True)
    return short(said.partition('refused, as it must be: ')[2]) if is_refused else None


def short(said: str) -> str:
    """The beginning of what is said, in whole words."""
    first = said.partition(';')[0]
    return first if len(first) < MOST else f'{first[:first.rfind(" ", 0, MOST)]} ..'


def main() -> int:
    found = {edit: refusal(name, edit) for it in promises.ALL for name, edit in it.clauses}
    if not all(found.values()):
        return 1
    page.VERDICTS.write_text(json.dumps(found, indent=1) + '\n')
    return 0


if __name__ == '__main__':
    sys.exit(main())
