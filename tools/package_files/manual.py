"""The manual page, whose words are those of the help, and its errors those of OPERATING.md."""
import re
import time

from package_files.words import usage

COLUMNS = 4  # of the table of exit statuses
DIAGNOSTICS = 'What standard error says, as OPERATING.md has it, with the sections that are named.'


def roff(text):
    """Text as roff shows it byte by byte: no letter of it is an instruction."""
    text = text.replace('\\', '\\e').replace('-', '\\-').replace("'", '\\(aq')
    text = text.replace('`', '\\(ga').replace('^', '\\(ha').replace('~', '\\(ti')
    return re.sub(r'^\.', r'\\&.', text, flags=re.M)


def verbatim(text):
    """Lines that stand as they are."""
    return f'.nf\n{roff(text.strip())}\n.fi\n'


def item(name, meaning):
    """An entry of a list: what it is of, and what is said of that."""
    return f'.TP\n.B {roff(name)}\n{roff(meaning)}\n'


def plain(text):
    """A cell of a document's table without its marks."""
    return re.sub(r'[`*]', '', re.sub(r'\[(.*?)\]\(.*?\)', r'\1', text))


def errors(document):
    """Each row of the document's table of exit statuses: the status, what standard error says,
    what it means, and what to do."""
    section = document.partition('\n## Exit statuses\n')[2].partition('\n## ')[0]
    for line in re.findall(r'^\| \d .*$', section, re.M):
        cells = [plain(it.strip()) for it in line.strip('|').split('|')]
        assert len(cells) == COLUMNS, line
        yield cells


def diagnostic(status, printed, means, does):
    """An entry for what the program reports."""
    return item(f'{printed or "nothing"} (status {status})', f'{means}. To do: {does}.')


def page(help_of, operating, places, moment):
    """The manual page of a moment, by the program's help and the document for operators; places
    are its files with what each is."""
    about = help_of.whole.partition('\n')[0]
    synopsis = '\n'.join(['dispatch_room', *map(usage, help_of.commands.values())])
    statuses = re.search('^Exit status: (.*)$', help_of.whole, re.M)[1]
    day = time.strftime('%Y-%m-%d', time.gmtime(moment))
    parts = [f'.TH DISPATCH_ROOM 1 {roff(day)} dispatch_room "User Commands"\n',
             f'.SH NAME\ndispatch_room \\- {roff(about[0].lower() + about[1:])}\n',
             f'.SH SYNOPSIS\n{verbatim(synopsis)}',
             f'.SH DESCRIPTION\n{verbatim(help_of.whole)}.SH COMMANDS\n',
             *(f'.SS {name}\n{verbatim(help_text)}' for name, help_text in help_of.commands.items()),
             '.SH "EXIT STATUS"\n',
             *(item(*it) for it in re.findall(r'(\d) ([^,]+)', statuses)),
             f'.SH DIAGNOSTICS\n{roff(DIAGNOSTICS)}\n',
             *(diagnostic(*it) for it in errors(operating)),
             '.SH FILES\n', *(item(*it) for it in places),
             '.SH "SEE ALSO"\n.BR curl (1),\n.BR sqlite3 (1),\n.BR systemctl (1)\n']
    return ''.join(parts)
