"""One version: that of the program's source, of CHANGELOG.md, of CITATION.cff and of
docs/openapi.json; and CHANGELOG.md has the form of Keep a Changelog. tests/test_program.py has what
--version prints, tests/test_package.py what the package has."""
# needs: python3
import datetime
import json
import re

from room import TOP, TestCase

SECTIONS = ['Added', 'Changed', 'Deprecated', 'Removed', 'Fixed', 'Security']
SOURCE = TOP / 'crates' / 'dispatch_room_cli' / 'src' / 'argument_parser.rt'


def released():
    """The versions of CHANGELOG.md with their days, newest first."""
    return re.findall(r'^## \[(\d+\.\d+(?:\.\d+)?)\] - (\S+)$', (TOP / 'CHANGELOG.md').read_text(),
                      re.M)


def cited(field):
    return re.search(f'^{field}: "(.*)"$', (TOP / 'CITATION.cff').read_text(), re.M)[1]


class Version(TestCase):
    def test_one_version(self):
        version, day = released()[0]
        source = re.search(r'^pub const VERSION: &str = "(.*)";$', SOURCE.read_text(), re.M)[1]
        self.check('the program', source, version)
        self.check('CITATION.cff', cited('version'), version)
        self.check('its day', cited('date-released'), day)
        described = json.loads((TOP / 'docs' / 'openapi.json').read_text())
        self.check('openapi.json', described['info']['version'], version)
        changes = (TOP / 'packaging' / 'changelog').read_text()
        self.check('the package', changes.partition('\n')[0],
                   'dispatch-room ({version}) unstable; urgency=medium')

    def test_changelog(self):
        text = (TOP / 'CHANGELOG.md').read_text()
        heads = re.findall(r'^## (.*)$', text, re.M)
        wanted = ['[Unreleased]', *(f'[{version}] - {day}' for version, day in released())]
        self.check('versions', heads, wanted)
        days = [datetime.date.fromisoformat(day) for _, day in released()]
        self.check('the newest is first', days, sorted(days, reverse=True))
        numbers = [tuple(map(int, version.split('.'))) for version, _ in released()]
        self.check('each once', numbers, sorted(set(numbers), reverse=True))
        for version in re.split(r'^## ', text, flags=re.M)[1:]:
            name, *parts = re.split(r'^### ', version, flags=re.M)
            names = [it.partition('\n')[0] for it in parts]
            self.check(f'the parts of {name.strip()}', names,
                       [it for it in SECTIONS if it in names])

    def test_names(self):
        """What the changelog names is there: options in the help's texts, examples by their
        folders."""
        text = (TOP / 'CHANGELOG.md').read_text()
        forms = (SOURCE.parent / 'command_options.rt').read_text()
        options = set(re.findall(r'`(?:\w+ )?--([a-z-]+)', text)) - {'version'}
        self.check('there are options', {'history', 'explain'} < options, True)
        for option in sorted(options):
            self.check(option, f'name: "{option}"' in forms, True)
        for name in sorted(set(re.findall(r'`(examples/\w+)`', text))):
            self.check(name, (TOP / name).is_dir(), True)
