"""Each link in README.md, what stands beside it, and docs/ leads to a file that is there, one to a
line to the function, the type, the clause or the field that it names, and one to a part of a page
to its heading."""
import re

from documents import LINK
from room import TOP, TestCase

# A link to a part of a page of documents.
PART = re.compile(r'\]\(([^)#\s]*\.md)?#([^)\s]+)\)')


def pages():
    return [*sorted(TOP.glob('*.md')), *sorted((TOP / 'docs').glob('*.md'))]


def parts(page):
    """The names by which the headings of a page are linked."""
    heads = re.findall(r'^#+ (.*)$', page.read_text(), re.M)
    return [re.sub(r'[^\w\- ]', '', it.lower()).replace(' ', '-') for it in heads]


class Links(TestCase):
    def test_parts(self):
        links = [(page, *it) for page in pages() for it in PART.findall(page.read_text())]
        self.check('there are links to parts', len(links) >= 14, True)
        for page, path, part in links:
            target = page.parent / path if path else page
            self.check(f'{page.name}: {path}#{part}', part in parts(target), True)

    def test_links(self):
        links = [(page, *it) for page in pages() for it in LINK.findall(page.read_text())]
        for page, name, path, line in links:
            if '://' not in path:
                with self.subTest(f'{page.name}: {name}, {path} {line}'):
                    self.look(page.parent / path, name, line)

    def look(self, target, name, line):
        self.assertTrue(target.exists(), 'there is no such file')
        if line:
            lines = ['', *target.read_text().split('\n')]
            self.assertRegex(lines[int(line)],
                             rf'\b(fn|struct|enum|trait|type|record) {name}\b'
                             rf'|\bensures {name} \{{|\bpub {name} :')
