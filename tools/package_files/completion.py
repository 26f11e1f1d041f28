"""What completes the program's words in bash, made of its help."""
from package_files.words import options, usage

HEAD = """\
# Completes the words of dispatch_room in bash: commands, options, listed values and files.
_dispatch_room() {
    local word=${COMP_WORDS[COMP_CWORD]} words=
    case $COMP_CWORD:${COMP_WORDS[1]}:${COMP_WORDS[COMP_CWORD-1]} in
"""
TAIL = """\
    esac
    COMPREPLY=($(compgen -W "$words" -- "$word"))
}
complete -F _dispatch_room dispatch_room
"""
# What help calls the words that are files.
FILES = {'FILE', 'PLAN', 'FLEET', 'LIST'}
OR_A_FILE = '; compopt -o default'


def case(pattern, words, is_file=False):
    """What may stand where the pattern holds: one of these words, or else a file."""
    return f'        {pattern}) words="{" ".join(words)}"{OR_A_FILE if is_file else ""} ;;\n'


def cases(name, help_text):
    """The cases of a command: first the values of its options, then all that may follow it."""
    found = list(options(help_text))
    for it in found:
        if it.value:
            yield case(f'*:{name}:{it.name}', it.values, it.value in FILES)
    yield case(f'*:{name}:*', [it.name for it in found], any(it in usage(help_text) for it in FILES))


def script(help_of):
    """The text that bash reads."""
    first = case('1:*', [*help_of.commands, 'help', '--help', '--version'])
    rest = [case for it in help_of.commands.items() for case in cases(*it)]
    return ''.join([HEAD, first, *rest, TAIL])
