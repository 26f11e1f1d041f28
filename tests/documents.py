"""What tests read of the documents and of the examples: whether a tool wrote one so, the pages, the
crates, the links of a page, the table of buttons, blocks of commands and of other text, sentences,
and the lines of a day without what differs from one day to the next."""
import collections
import itertools
import pathlib
import re
import subprocess
import sys
import tempfile

from room import TOP

from room import TOP

LINK = re.compile(r'\[([^\]]+)\]\(([^)#\s]+)(?:#L(\d+))?\)')
BUTTONS = ['Position', 'Mobile', 'Scene', 'Leave', 'Hospital', 'Return', 'Home']


def pages():
    """Each document by its name, as text."""
    found = [*TOP.glob('*.md'), *(TOP / 'docs').glob('*.md')]
    return {it.stem: it.read_text() for it in sorted(found)}


def crates():
    """Each crate, and what it stands on, by crates.txt."""
    lines = [it for it in (TOP / 'crates.txt').read_text().splitlines() if it[:1] != '#']
    return {it.partition(':')[0]: it.partition(':')[2].split() for it in lines}


def differing(page, tool):
    """The first lines of a document that are not those that its tool writes, each with that."""
    with tempfile.TemporaryDirectory() as folder:
        written = pathlib.Path(folder) / page.name
        subprocess.run([sys.executable, TOP / 'tools' / tool, written], check=True)
        lines = itertools.zip_longest(*(it.read_text().splitlines() for it in (page, written)))
        return [it for it in lines if it[0] != it[1]][:5]


def table_of_buttons(rules):
    """What each button comes to at each status, by its number and words, as RULES.md has it: what a
    row calls normal, what else it calls skipped, what stays, and all else is wrong."""
    rows = re.findall(r'^\| (\d) ([a-z ]+) \|(.*)\|(.*)\|(.*)\|$', rules, re.M)
    found = {}
    for number, words, *cells in rows:
        outcomes = dict.fromkeys(BUTTONS, 'wrong')
        for outcome, cell in zip(['stays', 'skipped', 'normal'], reversed(cells)):
            outcomes.update(dict.fromkeys(re.findall(r'[A-Z][a-z]+', cell), outcome))
        found[int(number), words] = outcomes
    return found


FENCED = re.compile(r'^```(\w*)\n(.*?)^```\n', re.M | re.S)
INDENTED = re.compile(r'(?:\A|(?<=\n\n))(?:    .*\n(?:\n+(?=    ))?)+')

# A block of a page: the line where its text begins, its language, which is empty where it is
# indented, and its text.
Block = collections.namedtuple('Block', 'line language text')


def blocks(page):
    """The blocks of a page's text, fenced or indented, in their order."""
    found = [Block(page.count('\n', 0, it.start(2)) + 1, it[1], it[2])
             for it in FENCED.finditer(page)]
    # (blank lines take the place of what is fenced, so that nothing in it is taken for indented)
    rest = FENCED.sub(lambda it: '\n' * it[0].count('\n'), page)
    found += [Block(rest.count('\n', 0, it.start()) + 1, '', re.sub('^    ', '', it[0], flags=re.M))
              for it in INDENTED.finditer(rest)]
    return sorted(found)


NO_SENTENCE = re.compile(r'^(?:#|!\[|\|)')  # a heading, a picture, a row of a table
ITEM = re.compile(r'^(?:- |\d+\. )')


def paragraphs(page):
    """The paragraphs and list items of a page, each in one line, without blocks, headings, pictures
    and tables; of a link only its text."""
    page = INDENTED.sub('', FENCED.sub('\n', page))
    found = []
    is_open = False  # whether the next line goes on with the last paragraph
    for line in page.split('\n'):
        if not line or NO_SENTENCE.match(line):
            is_open = False
        elif is_open and not ITEM.match(line):
            found[-1] += ' ' + line.strip()
        else:
            found.append(ITEM.sub('', line))
            is_open = True
    return [re.sub(r'\[([^\]]+)\]\([^)]*\)', r'\1', it) for it in found]


def sentences(page):
    """The sentences of a page."""
    return [it for text in paragraphs(page) for it in re.split(r'(?<=[.?!])\s+(?=[A-Z`*])', text)]


HERE_DOCUMENT = re.compile(r"<<'(\w+)'")


def commands(text):
    """The commands of a block, each with the lines behind it that are no command: where '$ ' stands
    before a line, all others are none. What is said beside a command, three spaces away, is left
    out."""
    lines, found = text.split('\n')[:-1], []
    has_prompts = any(it.startswith('$ ') for it in lines)
    while lines:
        line = lines.pop(0)
        if has_prompts and not line.startswith('$ '):
            found[-1][1].append(line)
            continue
        command = [line.removeprefix('$ ')]
        end = HERE_DOCUMENT.search(line)
        while lines and (command[-1].endswith('\\') or end and command[-1] != end[1]):
            command.append(lines.pop(0))
        if len(command) == 1:
            command = [re.sub(r'(?<=\S) {3,}\S.*$', '', command[0])]
        found.append(('\n'.join(command), []))
    return found


def comparable(line, folder):
    """A line of the day, without what differs from one day to the next."""
    line = re.sub('[0-9]{10}', 'T', line)
    line = line.replace(str(folder), 'FOLDER')
    line = re.sub('[0-9]{4}-[0-9]{2}-[0-9]{2}', 'DAY', line, count=1)
    line = re.sub('^Room at .*', 'Room at T', line)
    line = re.sub('[0-9]+:[0-9]{2}:[0-9]{2}', lambda it: 'T'.rjust(len(it[0])), line)
    line = re.sub('^( .*) [0-9]{2}$', r'\1  M', line)
    return re.sub('^1,T,[0-9]+$', '1,T,SECONDS', line)
