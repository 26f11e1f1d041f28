"""What the crates and docs/HTTP.md say of the interface: paths, parameters, roles, bodies, types,
refusals, and the examples of the page."""
import functools
import json
import pathlib
import re

TOP = pathlib.Path(__file__).resolve().parent.parent.parent


@functools.cache
def read(place):
    return (TOP / place).read_text()


def crate(place):
    return read(f'crates/{place}')


def block(text, begin):
    """What stands in the first braces after a line that begins so, up to the brace that closes
    them, which is indented as the line."""
    found = re.search(rf'^( *){begin}\b[^\n]*\{{\n(.*?)^\1\}}', text, re.M | re.S)
    if not found:
        raise ValueError(f'there is no {begin!r}')
    return found[2]


def function(text, name):
    """A function from its name to the brace that closes it."""
    return re.search(rf'^( *)(?:pub(?:\(crate\))? )?fn {name}\b.*?^\1\}}', text, re.M | re.S)[0]


def version():
    """The version that the program prints."""
    text = crate('dispatch_room_cli/src/argument_parser.rt')
    return re.search(r'^pub const VERSION: &str = "(.*)";$', text, re.M)[1]


# ---- types


def ranges():
    """The least and the greatest number of each type of bounded numbers."""
    places = ['room_types/src/numbers.rt', 'room_place/src/plans.rt', 'room_place/src/places.rt']
    texts = ''.join(map(crate, places))
    found = re.findall(r'pub type (\w+) = Bounded<(\d+), (\d+)>', texts)
    return {name: (int(least), int(greatest)) for name, least, greatest in found}


def constant(place, name):
    """A constant number."""
    return int(re.search(rf'^pub const {name}: \w+ = (\d+);$', crate(place), re.M)[1])


def fields(name):
    """The fields of a struct, and their types."""
    texts = [crate(f'room_types/src/{it}.rt') for it in ('answers', 'asks', 'tables')]
    text = next(it for it in texts if f'pub struct {name} {{' in it)
    return dict(re.findall(r'pub (\w+): ([^\n]+),', block(text, f'pub struct {name}')))


def variants(place, name):
    """The variants of an enum, and the types that each holds."""
    found = re.findall(r'^    (\w+)(?:\((.*)\))?,$', block(crate(place), f'pub enum {name}'), re.M)
    return {variant: [it for it in held.split(', ') if it] for variant, held in found}


def names_of(kind):
    """The names by which the values of an enum are sent or answered."""
    text = crate('room_types/src/codes.rt')
    sent = re.findall(rf'"(\w+)" => Some\({kind}::\w+\)', text)
    return sent or re.findall(rf'{kind}::\w+ => "(\w+)"', text)


def numbers_of(kind):
    """The numbers by which the values of an enum are sent, and what they stand for."""
    text = crate(f'room_types/src/{"ranks" if kind == "Rank" else "codes"}.rt')
    found = re.findall(rf'{kind}::(\w+)(?:\(_\))? => (\d+),', text)
    return {int(number): name for name, number in found}


# ---- paths


def patterns():
    """The pattern of each path."""
    return dict(re.findall(r'Path::(\w+) => "([^"]+)"',
                           crate('room_http_requests/src/request_table.rt')))


def methods():
    """Whether each path takes GET and HEAD, or POST: `GetHead` or `Post`."""
    text = function(crate('room_http_requests/src/request_table.rt'), 'allow')
    arms = re.findall(r'((?:\|?\s*Path::\w+\s*)+)=> Allow::(\w+)', text)
    return {path: allow for arm, allow in arms for path in re.findall(r'Path::(\w+)', arm)}


def paths_of_history():
    text = function(crate('room_http_requests/src/request_table.rt'), 'is_of_history')
    return re.findall(r'Path::(\w+)', re.search(r'matches!\((.*?)\)', text, re.S)[1])


def searches():
    """The types of the parameters of each path of a search: its day, by what is sought, and the first
    number."""
    text = crate('room_http_requests/specs/RequestTable.antt')
    found = re.findall(r'^search_path \(?(\w+).* = path\.(\w+)$', text, re.M)
    held = variants('room_types/src/asks.rt', 'Sought')
    return {path: ['Day', *held[sought], fields('Search')['first']] for sought, path in found}


def parameters():
    """The types of the parameters of each path."""
    return {**variants('room_http_requests/src/request_table.rt', 'Target'), **searches()}


def roles(path):
    """The kinds of terminals that a path is for."""
    text = crate('room_http_requests/src/request_table.rt')
    arms = re.findall(r'((?:\|?\s*Target::\w+\s*)+|_ )=> Role::(\w+)', function(text, 'of'))
    role = next(role for arm, role in arms if arm == '_ ' or f'Target::{path} ' in arm)
    taken = re.search(rf'\(Role::{role}, (.*)\) => true', function(text, 'is_of'))[1]
    return re.findall(r'Who::(\w+)', taken)


# ---- bodies


def bodies():
    """The members of the body of each path that takes one, and their types."""
    text = crate('room_http_requests/src/bodies.rt')
    table = function(text, 'ask_with_body')
    arms = re.findall(r'^( +)Target::(\w+)(?:\(.*?\))? => (.*?)(?=^\1(?:Target|_))', table, re.M | re.S)
    return {path: members(text, arm) for _, path, arm in arms}


def members(text, arm):
    """The members that an arm of the table reads, and the types of what it makes of them: itself,
    or by a function of the file that makes a form."""
    form = re.search(r'\((\w+)\(fields\)\?\)', arm)
    if form:
        made = function(text, form[1])
        types = fields(re.search(r'Some\((\w+) \{', made)[1])
        return {name: types[it] for it, name in re.findall(r'(\w+): [^"\n]*"(\w+)"\)', made)}
    ask, said = re.search(r'Some\(Ask::(\w+)\((.*)\)\)', arm).groups()
    names = re.findall(r'\(fields, "(\w+)"\)', arm)
    held = variants('room_types/src/asks.rt', 'Ask')[ask]
    return dict(zip(names, held[len(held) - len(names):], strict=True))


# ---- refusals


def refusals():
    """Of each refusal its number, its status and what it means."""
    text = crate('room_types/src/refusal_statuses.rt')
    means = re.findall(r'((?: +/// .*\n)+)    (\w+)(?:\(.*\))?,', block(text, 'pub enum Refusal'))
    means = {name: ' '.join(re.findall('/// (.*)', lines)) for lines, name in means}
    found = re.findall(r'Refusal::\w+(?:\(_\))? => \((\d+), (\d+), "(\w+)"\)', text)
    return {name: (int(number), int(status), means[name]) for number, status, name in found}


# ---- docs/HTTP.md


def page():
    """The part of the page that is about the paths."""
    return read('docs/HTTP.md').split('\n## Paths\n')[1].split('\n## Answers\n')[0]


def written(pattern):
    """How the page writes a path."""
    names = {'n': 'N', 'c': 'C', 'day': 'DAY', 'place': 'PLACE', 'metres': 'METRES'}
    return re.sub(r'\{(\w+)\}', lambda it: names[it[1]], pattern)


def entries():
    """What the page says of each request, by its method and path."""
    found = {}
    for text in re.findall(r'^(?:\| )?(`(?:GET|POST) /.*(?:\n(?![`|]|    |$).*)*)', page(), re.M):
        head = re.split(r':| \| ', text)[0]
        for asked in re.findall(r'`((?:GET|POST) /[^`]*)`', head):
            found[asked] = text
    return found


def refusals_on_page():
    """The numbers of the refusals that the room has for each request."""
    return {asked: numbers_in(text) for asked, text in entries().items()}


def numbers_in(text):
    row = re.fullmatch(r'.* \| (.*) \|', text)
    found = row or re.search(r'Refused: ([^.]*)\.', text)
    return sorted({int(it) for it in re.findall(r'\d+', found[1] if found else '')})


COMMAND = re.compile(r"^    curl (.*) http://localhost:8080(/\S*)(.*)\n(?:    (\{.*\})\n)?", re.M)


def examples():
    """The examples of the page: method, path, body and answer, each of the latter none or JSON."""
    for before, path, after, answer in COMMAND.findall(page().replace('\\\n      ', '')):
        words = before + after
        body = re.search("-d '(.*?)'", words)
        is_post = body or '-X POST' in words
        yield ('post' if is_post else 'get', path, body and json.loads(body[1]),
               json.loads(answer) if answer else None)
