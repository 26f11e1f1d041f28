"""The C functions that the toolchain's libraries declare, and those of them that a program has."""
import csv
import os
import pathlib
import re
import shutil
import subprocess
from dataclasses import dataclass

FILE = pathlib.Path(__file__).with_name('c_functions.csv')
DECLARING = ['libc', 'os', 'std']  # the libraries that declare any
BLOCK = re.compile(r'unsafe extern "C" \{(.*?)\n *\}', re.S)


@dataclass(frozen=True)
class Linked:
    """A C function: the part of a system that it belongs to, where the kit declares it, and what
    its contract assumes, in words."""
    part: str
    name: str
    declared: str
    assumed: str


def linked():
    """Those of the page."""
    with FILE.open(newline='') as text:
        return [Linked(**it) for it in csv.DictReader(text)]


def libraries():
    """Where the toolchain's libraries are."""
    return pathlib.Path(os.path.realpath(shutil.which('rt'))).parent.parent / 'rattle'


def declared():
    """Each C function that a library declares, with the file in which it does."""
    top = libraries()
    return {name: str(file.relative_to(top)) for it in DECLARING
            for file in sorted((top / it / 'src').glob('*.rt'))
            for block in BLOCK.findall(file.read_text())
            for name in re.findall(r'pub (?:safe |unsafe )?fn (\w+)', block)}


def reached(program):
    """The names of the declared ones that a program is linked with."""
    printed = subprocess.run(['nm', program], capture_output=True, text=True, check=True).stdout
    named = {line.split()[-1].partition('@')[0] for line in printed.splitlines()}
    return named & set(declared())
