"""The words of a companion's command line, and the list that they name."""
import ipaddress
from argparse import ArgumentParser, ArgumentTypeError, Namespace, RawDescriptionHelpFormatter
from pathlib import Path

from certificates import Secured
from etcd import Member, Reach
from keeping import ETCD_WITHIN
from kept_list import KeptList
from members import NUMBERS

WAITS = 60.0  # seconds that a command waits for the machines


class Refused(Exception):
    """Why the companion does nothing."""


def address(text: str) -> tuple[str, int]:
    """An address in numbers with a port, written 127.0.0.1:8080 or [::1]:8080."""
    host, _, port = text.rpartition(':')
    try:
        return str(ipaddress.ip_address(host.strip('[]'))), range(65536).index(int(port))
    except ValueError:
        raise ArgumentTypeError(f'{text!r} is no address with a port') from None


def loopback(text: str) -> tuple[str, int]:
    """An address of this machine only."""
    host, port = address(text)
    if not ipaddress.ip_address(host).is_loopback:
        raise ArgumentTypeError(f'{text!r} is not of loopback')
    return host, port


# How the machine's member of etcd is reached, and what more is said of one that serves, and of one
# that changes the room: what it is called, its kind, its default and what it means.
ETCD = {
    '--etcd': ('ADDRESS', address, '127.0.0.1:2379', "the machine's member of etcd"),
    '--user': ('NAME', str, '', 'of etcd'),
    '--password': ('FILE', Path, None, "a file that has the user's password"),
    '--authority': ('FILE', Path, None, "TLS: of the member's certificate"),
    '--certificate': ('FILE', Path, None, "TLS: the companion's own"),
    '--key': ('FILE', Path, None, 'TLS: the key of that')}
PROGRAM = {'--program': ('PROGRAM', str, 'dispatch_room', 'the program that plays')}
SERVE = PROGRAM | {
    '--work': ('FOLDER', Path, None, 'where the room is played; one in memory is faster (FOLDER)'),
    '--deadline': ('SECONDS', float, 3.0, 'until a terminal is answered NoAnswer'),
    '--copy-every': ('RECORDS', int, 30_000, 'until a copy is made, the same on all machines'),
    '--revisions': ('N', int, 1000, 'that etcd keeps of what was dropped'),
    '--away-after': ('SECONDS', float, 86_400.0, "of another's silence, until it is reported")}
CHANGE = PROGRAM | {'--folder': ('FOLDER', Path, Path('/var/lib/dispatch-room-three/room'),
                                 "the machine's copies")}


def add(parser: ArgumentParser, words: dict[str, tuple]) -> None:
    for name, (called, kind, default, text) in words.items():
        more = '' if default in (None, '') else ' (%(default)s)'
        parser.add_argument(name, metavar=called, type=kind, default=default, help=text + more)


def words_of(line: list[str], about: str, names: dict) -> Namespace:
    """The words of a line that begins with the name of a command."""
    parser = ArgumentParser(description=about, formatter_class=RawDescriptionHelpFormatter)
    commands = parser.add_subparsers(required=True, metavar='COMMAND', dest='command')
    found = {name: commands.add_parser(name) for name in names}
    for it in found.values():
        add(it, ETCD)
    found['begin'].add_argument('room', metavar='ROOM', type=Path)
    for it in 'begin', 'serve':
        found[it].add_argument('folder', metavar='FOLDER', type=Path, help="the machine's copies")
    add_serve(found['serve'])
    add_changes(found)
    for it in 'leave-out', 'replace':
        found[it].add_argument('number', metavar='N', type=int, choices=NUMBERS)
    given = parser.parse_args(line)
    if len({bool(it) for it in (given.authority, given.certificate, given.key)}) > 1:
        parser.error('TLS wants --authority, --certificate and --key together')
    return given


def add_serve(parser: ArgumentParser) -> None:
    parser.add_argument('listen', metavar='ADDRESS', type=loopback)
    parser.add_argument('--machine', metavar='N', type=int, choices=NUMBERS, required=True,
                        help="this machine's number")
    add(parser, SERVE)
    parser.add_argument('--trust-clock', action='store_true',
                        help='take requests also where no other machine tells its clock')
    parser.add_argument('--log', action='store_true',
                        help='write a line for each answer on standard error')


def add_changes(found: dict[str, ArgumentParser]) -> None:
    for it in 'import', 'replan', 'terminals', 'renew':
        add(found[it], CHANGE)
    for it in 'import', 'replan':
        found[it].add_argument('file', metavar='FILE', type=Path)
    found['renew'].add_argument('--since', metavar='DAY', required=True)
    which = found['terminals'].add_mutually_exclusive_group(required=True)
    which.add_argument('--new', metavar='WHO', help='desk:1, position:3 or crew:A1: a new token')
    which.add_argument('--revoke', metavar='WHO', help='none')
    which.add_argument('--from', dest='file', metavar='FILE', type=Path,
                       help='those of a plan or a fleet')


def reach_of(given: Namespace) -> Reach:
    """The member that is meant. Without certificates it is one of this machine."""
    host, port = given.etcd
    secured = None
    if given.authority:
        secured = Secured(given.authority, given.certificate, given.key)
    elif not ipaddress.ip_address(host).is_loopback:
        raise OSError(f'{host} is another machine: that wants --authority, --certificate and --key')
    password = given.password.read_text().strip() if given.password else ''
    return Reach(host, port, secured, given.user, password)


def kept_list(given: Namespace, patience: float = WAITS) -> KeptList:
    return KeptList(Member(reach_of(given), ETCD_WITHIN, patience))
