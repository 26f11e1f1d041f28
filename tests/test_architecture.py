"""ARCHITECTURE.md: the one list of crates, the places that it names, and where a thing is changed:
what a row names is there, and holds what has to be changed."""
# needs: python3
import re

from documents import crates, pages
from room import TOP, TestCase

# Pages that a tool writes of the crates.
WRITTEN = ['PROOFS', 'PROMISES', 'TESTING', 'TRUST']
PLACE = re.compile(r'`((?:room|dispatch|tools|tests|docs|bench|examples)[\w/.-]*)`')

# Of rows of "Where a thing is changed": what each file that it names holds.
HOLDS = {
    'a number of the rules': {
        'room_model/specs/Moments': 'scene_limit', 'room_types/src/link_limits': 'METRES',
        'room_types/specs/Ranks': 'Some 180', 'room_types/src/ranks': 'Some(180)',
        'examples/wall/ranks.js': '[UNSERVED]: 180',
        'room_model/specs/DayTimes': 'nat_le t 180', 'room_incident/src/day_times': '180',
        'room_model/specs/ClosedIncidents': 'take 100',
        'room_incident/src/closed_incidents': '100',
        'room_types/src/numbers': 'Bounded', 'room_tables_rows/specs/ReadableColumns': 'number'},
    'a rank of the queue': {
        'room_types/src/ranks': 'Rank::Unanswered => 8', 'room_types/specs/Ranks': 'rank_number',
        'room_types/specs/KeyLemmas': 'rank_at', 'room_types/proofs/RankLaws': 'same_ranks',
        'room_model/specs/Queue': 'unanswered', 'room_laws/specs/Exceptions': 'record IsShown',
        'room_queue/specs/QueueEntries': 'rank.Unserved',
        'room_queue/src/queue_entries': 'rank: Rank::Unanswered',
        'room_queue/src/queues': 'unanswered', 'dispatch_room_board/specs/BoardTables': 'matter_of',
        'dispatch_room_board/src/queue_columns': 'fn matter', 'tools/openapi.py': 'openapi.json',
        'examples/wall/ranks.js': 'UNANSWERED = 8', 'examples/wall/words.js': 'ENTRIES'},
    'a field of a row': {
        'room_types/src/tables': 'pub struct Vehicle',
        'room_tables_schema/src/schema_sql': 'CREATE TABLE',
        'tools/tables.py': 'room_tables_rows', 'room_tables_rows/src/meta_sql': 'VERSION',
        'dispatch_room_cli/src/argument_parser': 'VERSION'},
    'a field of an answer': {
        'room_types/src/answers': 'pub enum Answer', 'room_http/specs/AnswerJson': 'answer',
        'room_http/src/answer_json': '"rank"', 'tools/openapi.py': 'openapi.json'},
    'a question to one table': {'tools/table_files/rows.py': 'TABLES', 'tools/tables.py': 'TABLES'},
    'a request': {
        'room_types/src/asks': 'Ask', 'room_types/src/answers': 'pub enum Answer',
        'room_model/specs/Step': 'decided', 'room_model/specs/WorkingRows': 'working',
        'room_store_reads/src/request_reads': 'match', 'room_model/proofs/AskLaws': 'Ask',
        'dispatch_room_archive/specs/Continuation': 'ask.Times',
        'room_http/specs/AnswerJson': 'answer', 'room_http/src/answer_json': '"rank"'},
    'a path or a body': {
        'room_http_requests/specs/RequestTable': 'pattern_of',
        'room_http_requests/src/request_table': '/queue',
        'room_http_requests/specs/Bodies': 'body', 'room_http_requests/src/bodies': 'fn ',
        'tools/openapi.py': 'openapi.json'},
    'a command': {
        'dispatch_room_cli/src/command_options': 'name: "verify"',
        'dispatch_room_cli/src/tasks': 'Verify',
        'dispatch_room_cli/src/argument_parser': '"verify" =>',
        'dispatch_room_cli/specs/CommandLines': 'codes "verify"',
        'dispatch_room_commands/specs/TaskSteps': 'IsTask',
        'dispatch_room_commands/src/commands': 'Task::Verify',
        'dispatch_room_commands/src/task_causes': 'Task::'},
    'an option or its help': {
        'dispatch_room_cli/src/command_options': 'name: "history"',
        'dispatch_room_cli/src/argument_parser': '"history"',
        'dispatch_room_cli/src/tasks': 'history',
        'dispatch_room_cli/specs/CommandLines': 'codes "history"'},
    'a column of the board': {
        'dispatch_room_board/src/vehicle_columns': 'Vehicle',
        'dispatch_room_board/specs/BoardTables': 'matter_of'},
    'a page': {
        'examples/desks/crew.html': 'crew.js', 'examples/desks/room.js': 'fetch',
        'examples/desks/nodes.js': 'export', 'examples/desks/desks.py': '/desks/index.html',
        'tests/test_crew.py': 'crew'},
    'a kind of test': {'tools/testing_files/kinds.csv': 'memory', 'tools/testing.py': 'kinds'},
}


def files(name):
    """What a name of a place may be: a file or a folder of the tree, or a crate's file."""
    return [TOP / name, *(TOP / 'crates' / f'{name}{end}' for end in ('', '.rt', '.antt'))]


def text_of(name):
    return next((it.read_text() for it in files(name) if it.is_file()), '')


class Architecture(TestCase):
    def setUp(self):
        super().setUp()
        self.text = pages()['ARCHITECTURE']

    def test_crates(self):
        """The list has each crate, with a few words, above all that it stands on."""
        block = re.search(r'```text\n(.*?)```', self.text, re.S)[1]
        lines = re.findall(r'^ *(\w+) {2,}(\S.*)$', block, re.M)
        names = [it for it, _ in lines]
        self.check('crates', sorted(names), sorted(crates()))
        for at, name in enumerate(names):
            above = [it for it in crates()[name] if it in names[:at]]
            self.check(f'{name} stands on none above it', above, [])

    def test_one_list(self):
        """No other document that is written by hand lists the crates."""
        for name, text in pages().items():
            if name not in ['ARCHITECTURE', *WRITTEN]:
                named = [it for it in crates() if re.search(rf'^(\||-|\s)*`?{it}\b', text, re.M)]
                with self.subTest(name):
                    self.assertLess(len(named), len(crates()) / 2)

    def test_places(self):
        """What is named by its path is there."""
        named = set(PLACE.findall(self.text))
        self.check('there are places', len(named) > 20, True)
        for name in sorted(named):
            self.check(name, any(it.exists() for it in files(name)), True)

    def test_examples(self):
        """The row of the examples has each of their folders."""
        row = re.search(r'^\| `examples/` \|.*$', self.text, re.M)[0]
        folders = [it.name for it in (TOP / 'examples').iterdir() if it.is_dir()]
        self.check('folders', sorted(it for it in folders if f'`{it}`' not in row), [])


class Changes(TestCase):
    """A row of "Where a thing is changed" names each file that it needs; each holds the thing."""

    def setUp(self):
        super().setUp()
        below = pages()['ARCHITECTURE'].partition('## Where a thing is changed')[2]
        table = below.partition('\n## ')[0]
        self.rows = {what: do for what, do in re.findall(r'^\| ([^|]+?) \| (.*) \|$', table, re.M)}

    def test_rows(self):
        self.check('rows that are looked at', sorted(set(HOLDS) - set(self.rows)), [])
        for what, held in HOLDS.items():
            named = {it for it in PLACE.findall(self.rows.get(what, '')) if text_of(it)}
            self.check(f'{what}: files', sorted(named), sorted(held))

    def test_things(self):
        for what, held in HOLDS.items():
            for name, thing in held.items():
                self.check(f'{what}: {name} holds {thing}', thing in text_of(name), True)
