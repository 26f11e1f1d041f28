"""What each of three machines is given: its member of etcd, and its companion. On one's own all
three are on loopback; else each has an address."""
import pathlib
import sys
import typing

HERE = pathlib.Path(__file__).resolve().parent
COMPANION = HERE / 'companion.py'
NUMBERS = range(1, 4)
QUOTA = 2 << 30  # bytes of etcd's file: its own default
# Milliseconds. Where the leader is killed, the others choose another one after one to two of the
# latter. etcd's own second is for members that are far apart; these are in one house.
HEARTBEAT, ELECTION = 50, 400

Command = list[str | pathlib.Path]


class Machine(typing.NamedTuple):
    """One of three: its number, its folder, where its terminals come, its member's addresses for
    the companion and for the other members, and the folder of its certificates."""
    number: int
    folder: pathlib.Path
    terminals: str
    etcd: str
    peers: tuple[str, ...]  # of all members
    certificates: pathlib.Path | None = None

    def url(self, address: str) -> str:
        return f'{"https" if self.certificates else "http"}://{address}'

    def settings(self) -> dict[str, str]:
        """What its member of etcd is given, by the names of etcd's words."""
        client, peer = self.url(self.etcd), self.url(self.peers[self.number - 1])
        members = (f'm{at}={self.url(it)}' for at, it in enumerate(self.peers, 1))
        return {'name': f'm{self.number}', 'data-dir': f'{self.folder}/etcd', 'logger': 'zap',
                'log-level': 'error', 'listen-client-urls': client,
                'advertise-client-urls': client, 'listen-peer-urls': peer,
                'initial-advertise-peer-urls': peer, 'initial-cluster': ','.join(members),
                'initial-cluster-token': 'dispatch-room', 'pre-vote': 'true',
                'heartbeat-interval': str(HEARTBEAT), 'election-timeout': str(ELECTION),
                'quota-backend-bytes': str(QUOTA)} | self.secured()

    def secured(self) -> dict[str, str]:
        """The certificates that its member has, and wants of companions and of members."""
        at = self.certificates
        if not at:
            return {}
        files = {'cert-file': f'{at}/member.pem', 'key-file': f'{at}/member.key',
                 'trusted-ca-file': f'{at}/authority.pem', 'client-cert-auth': 'true'}
        return files | {f'peer-{name}': value for name, value in files.items()} | {
            'peer-cert-allowed-cn': 'member'}

    def member(self) -> Command:
        """The command of its member of etcd."""
        return ['etcd', *(f'--{name}={value}' for name, value in self.settings().items())]

    def reach(self) -> Command:
        """The words by which its companion reaches the member."""
        at = self.certificates
        secured = ['--authority', f'{at}/authority.pem', '--certificate', f'{at}/companion.pem',
                   '--key', f'{at}/companion.key', '--user', 'root',
                   '--password', f'{at}/password'] if at else []
        return ['--etcd', self.etcd, *secured]

    def companion_does(self, *words: str | pathlib.Path) -> Command:
        """A command of the companion."""
        return [sys.executable, COMPANION, *words, *self.reach()]

    def begin(self, room: pathlib.Path) -> Command:
        """The command that makes a room's file its first copy."""
        return self.companion_does('begin', room, self.folder / 'room')

    def companion(self, *words: str | pathlib.Path) -> Command:
        """The command of its companion."""
        return self.companion_does('serve', self.folder / 'room', self.terminals,
                                   '--machine', str(self.number), *words)


def machines(folder: pathlib.Path, ports: int, is_secured: bool = False) -> list[Machine]:
    """Three on loopback: terminals come to the ports behind the first, etcd has the next tens."""
    peers = tuple(f'127.0.0.1:{ports + 20 + it}' for it in NUMBERS)
    return [Machine(it, folder / str(it), f'127.0.0.1:{ports + it}', f'127.0.0.1:{ports + 10 + it}',
                    peers, folder / str(it) / 'certificates' if is_secured else None)
            for it in NUMBERS]
