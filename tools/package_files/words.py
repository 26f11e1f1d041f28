"""The words of the program, as its help lists them."""
import dataclasses
import os
import re
import subprocess


def output(*words):
    """What a command prints."""
    return subprocess.run(words, check=True, stdin=subprocess.DEVNULL, capture_output=True,
                          text=True, env=os.environ | {'LC_ALL': 'C', 'TZ': 'UTC'}).stdout


class Help:
    """The help of the whole program, and of each command by its name."""

    def __init__(self, program):
        self.whole = output(program, '--help')
        listed = self.whole.partition('Commands:\n')[2].partition('\n\n')[0]
        names = [it for it in re.findall(r'^  (\w+) ', listed, re.M) if it != 'help']
        self.commands = {it: output(program, it, '--help') for it in names}


def usage(help_text):
    """How a command is called, by its help."""
    return re.search('^Usage: (.*)$', help_text, re.M)[1]


@dataclasses.dataclass
class Option:
    """An option with its dashes, what help calls the value that follows it, if one does, and the
    values that help lists."""
    name: str
    value: str
    values: list[str]


def options(help_text):
    """The options of a command, by its help."""
    for line in re.findall(r'^ +(?:-\w, )?(--.*)$', help_text, re.M):
        name, value = re.match(r'(--[\w-]+)(?: <(\w+)>)?', line).groups()
        listed = re.search(r'\[possible values: (.*?)\]', line)
        yield Option(name, value, listed[1].split(', ') if listed else [])
