"""The page: the day as a map of both sides, the table of promises with their clauses, from where on
a side fails, and every number with where it is from."""
import html
import json
import os
import pathlib
import re

import drawing
import parameters
import promises
import story
import table
from summary import SHOWN

HERE = pathlib.Path(__file__).resolve().parent
TOP = HERE.parent.parent
NOVEMBER, VERDICTS = HERE / 'november.json', HERE / 'verdicts.json'
LINK = re.compile(r'\[([^]]+)\]\(([^)]+)\)')

STYLE = """
body { max-width: 76rem; margin: 1rem auto; padding: 0 1rem; font: 1rem/1.5 sans-serif }
svg { max-width: 100%; height: auto }
canvas { width: 100%; max-width: 24rem; border: 1px solid #c0c0c0; background: #fafafa }
.sides { display: flex; gap: 1rem } .sides > div { flex: 1 1 9rem; min-width: 0 }
.sides h3 { margin: 0 } .sides p { white-space: pre-line }
.wide { overflow-x: auto } #clock { width: 100% }
.clock { position: sticky; top: 0; margin: 0; padding: .25rem 0; background: #fff }
i { display: inline-block; width: .7em; height: .7em }
pre { overflow: hidden; font: .75rem/1.4 monospace; background: #f4f4f4 }
.sides pre { height: 21em } details pre { white-space: pre-wrap }
table { border-collapse: collapse; font-size: .85rem }
th, td { padding: .25rem .5rem; border-bottom: 1px solid #d8d8d8; text-align: left;
  vertical-align: top }
td.number { text-align: right; white-space: nowrap; font-variant-numeric: tabular-nums }
td.same { color: #6a6a6a } small { color: #606060 }
"""
PAGE = """<!doctype html>
<html lang="en">
<meta charset="utf-8">
<meta name="viewport" content="width=device-width, initial-scale=1">
<title>The day that failed, played again</title>
<style>{style}</style>
{body}
</html>
"""
STORY = """
<p>On 26 October 1992 London's new system for sending ambulances went down. Three rooms had become
one, what the system proposed was to be sent, and nothing was written by hand: what was on no
screen was nowhere. Here a <em>generated</em> day of that kind is played twice, with the same
callers, crews, radio, desks and screens. <em>Room</em> is the proved program of this repository;
<em>1992</em> is a model of it without seven of its promises. It is a caricature, no reconstruction,
and says nothing of any person.</p>
"""
ASSUMED = """
<p>Each of the {seeds} days of the table draws every number from its range, both sides alike. What
is said to be from memory is what we remember of the accounts; nobody could look it up, and no page
is named. All else is assumed. So are the calls by the hour, when shifts begin, how often each class
is called in, and where people live (<code>people.py</code>). Another value:
<code>play.py FOLDER --set NAME=VALUE</code>.</p>
"""


class NoClause(Exception):
    """What the tree's list of promises does not have."""


# ---- links


def clauses(it: promises.Promise, folder: pathlib.Path) -> str:
    """The clauses of a promise, each with an edit that turns it, with links from a folder."""
    return '<br>'.join(clause(*named, folder) for named in it.clauses)


def links_of(name: str, edit: str) -> dict[str, str]:
    """The links of the row of the list of promises that names both."""
    for line in (TOP / 'docs' / 'PROMISES.md').read_text().split('\n'):
        links = dict(LINK.findall(line))
        if name in links and edit in links:
            return links
    raise NoClause(f'docs/PROMISES.md has no row of {name} and "{edit}"')


def edit_of(links: dict[str, str], edit: str) -> pathlib.Path:
    return (TOP / 'docs' / links[edit].partition('#')[0]).resolve()


def clause(name: str, edit: str, folder: pathlib.Path) -> str:
    """A clause, and an edit with what the prover says of it, by verdicts.py."""
    links = links_of(name, edit)
    said = json.loads(VERDICTS.read_text())[edit]
    return (f'{linked(name, links[name], folder)}<details><summary>{html.escape(edit)}</summary>'
            f'<pre>{html.escape(edit_of(links, edit).read_text())}</pre>'
            f'The prover refuses it: <code>{html.escape(said)}</code><br>'
            f'{linked("the edit", links[edit], folder)}</details>')


def linked(says: str, to: str, folder: pathlib.Path) -> str:
    """A link of docs/, as it is from a folder."""
    target = html.escape(os.path.relpath(TOP / 'docs' / to, folder.resolve()))
    return f'<a href="{target}">{html.escape(says)}</a>'


# ---- tables


def row(cells, kind: str = 'td') -> str:
    return f'<tr>{"".join(f"<{kind}>{it}</{kind}>" for it in cells)}</tr>'


def rows_of(head, found) -> str:
    return f'<div class=wide><table>{row(head, "th")}{"".join(map(row, found))}</table></div>'


def shown(it: table.Cell, is_base: bool) -> str:
    kind = 'number' if it.matters or is_base else 'number same'
    text = f'{it.median:g} <small>{it.least:g}..{it.most:g}</small>'
    return f'<td class="{kind}">{f"<b>{text}</b>" if it.matters else text}</td>'


def of_promises(found: table.Table, folder: pathlib.Path) -> str:
    """1992 with each promise given, and the room with each taken."""
    lines = [row(['', *SHOWN.values()], 'th')]
    for side in table.SIDES:
        names = {None: f'<b>{side}</b>', table.STILL: f'{side}, where nothing slows'}
        for it in promises.ALL:
            names[it.name] = html.escape(
                it.holds if side == '1992' else f'without: {it.without}')
            if side == '1992':
                names[it.name] += f'<br><small>{clauses(it, folder)}</small>'
        for name, says in names.items():
            cells = [shown(it, name is None) for it in found.row(side, name).values()]
            lines.append(f'<tr><td>{says}</td>{"".join(cells)}</tr>')
    return f'<div class=wide><table>{"".join(lines)}</table></div>'


def of_differing(found: table.Table) -> str:
    """In which figures the sides differ where nothing slows, in words."""
    said = ''.join(f'<li>{SHOWN[name]}: {one.median:g} in 1992, {other.median:g} in the room</li>'
                   for name, (one, other) in found.differing(table.STILL).items())
    return ('<p>One rule is a guess of ours: that what waits in the list slows every deed. The '
            'second row of each side is without it. There the sides differ on nine days of ten '
            f'in:</p><ul>{said or "<li>nothing</li>"}</ul>')


def of_failing(found: table.Table) -> str:
    """Where each side fails, in words."""
    said = []
    for what, says, never in (
            ('errors', 'at {} times the assumed errors', 'at none of the errors tried'),
            ('desks', 'with {} desks', 'with no number of desks tried')):
        for side in table.SIDES:
            for slows, how in ((True, ''), (False, ', where nothing slows')):
                at = found.fails(what, side, slows)
                where = says.format(', '.join(f'{it:g}' for it in at)) if at else never
                said.append(f'<li>{side}{how}: {where}</li>')
    return (f'<p>A side fails where more than {table.FAILS} emergencies are reached by nobody, in '
            f'the median of {min(table.FEW, found.seeds)} days. It does so:</p>'
            f'<ul>{"".join(said)}</ul>')


def of_parameters(values: dict) -> str:
    found = [(f'<code>{it.name}</code>', values[it.name], f'{it.least:g} to {it.most:g}',
              html.escape(it.what) + (', at rate 1' if it in parameters.ERRORS else ''),
              it.source) for it in parameters.ALL.values()]
    return rows_of(('name', 'value', 'range', 'what it is', 'source'), found)


def of_november() -> str:
    """The room's memory, and three machines of which one is killed, as november.py saw them."""
    seen = json.loads(NOVEMBER.read_text())
    sizes = [kib for _, kib in seen['memory'][1:]]
    return ('<p>On 4 November the system stopped: a piece of memory had been kept for each vehicle '
            'that was sent, and the machine that stood by had never been tried. In the room '
            f'{seen["memory"][-1][0]:,} vehicles were sent, three weeks of 2,000 a day; from '
            f'{seen["memory"][1][0]:,} on its memory kept within {max(sizes) - min(sizes):,} KiB. '
            f'Then three machines were one room, and the one that leads was killed after half of '
            f'{seen["orders"]} orders: {seen["lost"]} of them were lost, and the longest silence '
            f'was {seen["silence"]:g} seconds.</p>{drawing.of_memory(seen["memory"])}')


# ---- the map


def of_map(sides: dict) -> str:
    told = {'begins': story.BEGINS, 'step': story.STEP, 'sides': sides}
    boxes = ''.join(f'<div><h3>{it}</h3><canvas id="map-{it}" width=384 height=384></canvas>'
                    f'<p id="sum-{it}"></p><p id="fate-{it}"></p><pre id="lines-{it}"></pre></div>'
                    for it in sides)
    last = story.BEGINS + story.STEP * (min(len(it['steps']) for it in sides.values()) - 1)
    data = json.dumps(told, separators=(',', ':')).replace('<', '\\u003c')
    return (f'<p>Move the clock. Squares are crews: <span id=stages></span> rings are people who '
            'wait, red after 14 minutes. Press on a map to follow the nearest call on both. Below '
            'each map stands what its desks see.</p>'
            f'<p class=clock><label>The clock: <b id=now></b><input id=clock type=range '
            f'min={story.BEGINS} max={last} step={story.STEP} value={story.BEGINS}></label></p>'
            f'<div class=sides>{boxes}</div><script>const told = {data};\n'
            f'{(HERE / "map.js").read_text()}</script>')


def sections(folder: pathlib.Path, found: table.Table, played: dict, values: dict):
    yield '<h1>The day that failed, played again</h1>', STORY
    yield f'<h2>The day from 07:00, at {drawing.times(played["room"].rate)}</h2>', ''
    yield '', of_map({name: it.story.told() for name, it in played.items()})
    yield '<h2>One promise at a time</h2>', (
        f'<p>{found.seeds} days at {drawing.times(found.rate)}: the median of each figure, and its '
        'interval without the lowest and the highest. Bold: on nine days of ten it differs from '
        'its side in the same way. Grey: it does not, so there the promise does not matter. The '
        'room is here the model with all promises, which answers as the program where both are '
        'asked the same (<code>agreement.py</code>).</p>')
    yield drawing.of_promises(found), of_promises(found, folder)
    yield of_differing(found), (
        '<p>A clause is a line that the prover has proved of the room. An edit turns it, and the '
        'prover refuses it: <code>verdicts.py</code> tries each.</p>')
    yield '<h2>From where on it fails</h2>', of_failing(found)
    for figure in ('never_reached', 'sent_in_time'):
        yield '', (drawing.along(found, 'errors', figure, 'errors, times those assumed')
                   + drawing.along(found, 'desks', figure, 'desks, at the assumed errors'))
    if NOVEMBER.exists():
        yield '<h2>Nine days later</h2>', of_november()
    yield '<h2>Every number</h2>', ASSUMED.format(seeds=found.seeds) + of_parameters(values)
    yield '', '<ul>' + ''.join(f'<li>{html.escape(it)}</li>' for it in promises.SOURCES) + '</ul>'


def write(folder: pathlib.Path, found: table.Table, played: dict, values: dict) -> None:
    body = '\n'.join(title + text for title, text in sections(folder, found, played, values))
    (folder / 'index.html').write_text(PAGE.format(style=STYLE, body=body))
