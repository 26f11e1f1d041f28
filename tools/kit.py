"""The toolchain's command `rt` as a library, for what it has no words for: proofs side by side,
kept and measured."""
import argparse
import functools
import importlib.machinery
import importlib.util
import os
import pathlib
import re
import shutil
import subprocess
import sys
import tempfile
import threading

from forecast import Forecast
from refusals import Refusal, refusal

TOP = pathlib.Path(__file__).resolve().parent.parent


def program_of(name):
    """The program of a crate, where it is built."""
    return TOP / 'crates' / name / 'out' / name


def crate_name(text):
    """A word of a tool that names a crate."""
    if not (TOP / 'crates' / text / 'src').is_dir():
        raise argparse.ArgumentTypeError(f'no such crate: {text}')
    return text


def say(text):
    print(f'{pathlib.Path(sys.argv[0]).name}: {text}', file=sys.stderr, flush=True)


def stamp_once(crate_type):
    """A crate's stamp is made of those of all crates that it names, and each of them is made anew
    on every way down: here each is made once in a call."""
    plain, held = crate_type.stamp, threading.local()

    def stamp(crate):
        made = getattr(held, 'made', None)
        if made is None:
            held.made = {}
            try:
                return plain(crate)
            finally:
                held.made = None
        if crate.name not in made:
            made[crate.name] = plain(crate)
        return made[crate.name]

    crate_type.stamp = stamp


# What was said of the crate that a thread checked last: the toolchain's judge shows a line of it.
HEARD = threading.local()


def hear(module):
    """Has what is said of a checked crate kept."""
    plain = module.checked

    def checked(*given):
        ran = plain(*given)
        HEARD.lines = ran.stdout.splitlines()
        return ran

    module.checked = checked


@functools.lru_cache(maxsize=None)
def rt():
    """The module of the command."""
    command = shutil.which('rt')
    if not command:
        say("the Rattle toolchain's command rt is not on the PATH; install the kit of README.md")
        sys.exit(1)
    loader = importlib.machinery.SourceFileLoader('rt', os.path.realpath(command))
    module = importlib.util.module_from_spec(importlib.util.spec_from_loader('rt', loader))
    loader.exec_module(module)
    # What it starts ends when this program does, and of a library only the statements are kept.
    module.rtlib.guarded()
    hear(module)
    stamp_once(module.Crate)
    module.rtlib.Crate = module.Crate
    module.Crate.cuts_libraries = True
    module.Crate.allowed = module.handles_of(str(TOP))
    return module


def report_other():
    """Says so where the toolchain is another kit than README.md names."""
    wanted = re.search(r'rattle-kit-\w+', (TOP / 'README.md').read_text())[0]
    printed = subprocess.run(['rt', 'version'], capture_output=True, text=True).stdout
    kit = printed.partition(' ')[0].strip()
    if kit != wanted:
        say(f'the toolchain is {kit}, and README.md names {wanted}')


@functools.lru_cache(maxsize=None)
def crates():
    """The crates of the repository by their names, lowest first."""
    found = rt().rtlib.crates_below(str(TOP))
    return {it.name: it for it in sorted(found, key=lambda it: len(it.below()))}


def below(wanted):
    """The libraries below these crates, each after those that it uses."""
    found = {library.name for crate in wanted for library in crate.below()}
    return [it for it in crates().values() if it.name in found]


def quietly(crate, work):
    """Does a crate's work, and gives its status and what it said."""
    os.makedirs(f'{crate.folder}/out', exist_ok=True)
    with tempfile.TemporaryFile('w+', errors='replace') as crate.out:
        status = work()
        crate.out.seek(0)
        said = crate.out.read()
    crate.out = sys.stdout
    return status, said


def is_proved(crate, work):
    """Does a crate's work, and reports what it said where it fails."""
    status, said = quietly(crate, work)
    if status:
        say(f'{crate.name} is not proved:')
        print(*said.splitlines()[-40:], sep='\n', file=sys.stderr, flush=True)
    return not status


def judged(crate, edit, kept=None):
    """Whether the prover refuses an edit of a crate at a goal, by the toolchain's own judge, and
    what is said of it. What was proved of the crate as it stands may be kept in a folder."""
    outcome, report = rt().must_fail(crate, str(edit), ['--jobs', '1'], kept)
    # some kits name the outcome, others say whether the edit was refused
    is_refused = outcome in [getattr(rt(), it, True) for it in ('REFUSED', 'AT_LIMIT')]
    why = refusal(HEARD.lines) if is_refused else None
    return why is Refusal.GOAL, report if why in (None, Refusal.GOAL) else f'{report} ({why.value})'


def build(library, jobs):
    """Proves a library from nothing and keeps its statements for the crates above it."""
    stamp = library.stamp()
    if not is_proved(library, lambda: library.build_rlib(['--jobs', str(jobs)], anew=True)):
        return False
    if stamp == library.stamp():
        pathlib.Path(library.rlib).with_name('stamp').write_text(stamp)
    return True


def in_lanes(wanted, work):
    """Calls work(crate, jobs) for each crate after those of them that it stands on, as many at a
    time as processors and memory hold. What stands on a crate that failed is left out. Gives
    whether none failed."""
    key = lambda crate: (crate.name, 'proof')  # so a proof gets the processors that no other needs
    named = set(map(key, wanted))

    def task(crate):
        waits = [key(it) for it in crate.below() if key(it) in named]
        call = lambda given, jobs: all(given[it] for it in waits) and work(crate, jobs)
        return waits, crate.count(rb'\n'), rt().need(crate), call

    return all(rt().in_lanes({key(it): task(it) for it in wanted}).values())


def build_all(libraries, proved=lambda: None, program=None, build_program=None):
    """Proves, side by side, the libraries that are not kept, and a program above them. Says of each
    as it begins how much is left, and calls what shall come after each. Gives whether all are
    proved."""
    left = [it for it in [*libraries, program] if it and not it.is_built()]
    named, begun = {it.name for it in left}, []
    waits = {it.name: named & {below.name for below in it.below()} for it in left}
    forecast = Forecast(waits, rt().processors())
    if left:
        say(f'{len(left)} crates are to be proved, {forecast.said()} on {rt().processors()} '
            'processors of a usual speed; what is proved is kept')

    def work(crate, jobs):
        begun.append(crate)
        say(f'{crate.name}, {len(begun)} of {len(left)}, {forecast.said()}')
        if not (build_program if crate is program else build)(crate, jobs):
            return False
        forecast.end(crate.name)
        proved()
        return True

    return in_lanes(left, work)
