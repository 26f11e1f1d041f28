"""One machine's member of etcd, as one thread asks it."""
import asyncio
import base64
import re
import time
import typing

from channel import Channel, NoSpace, NoUser, Reach, Unreached

DEFRAGMENTS_WITHIN = 60.0  # seconds
ASKS_AGAIN_AFTER = 0.2  # seconds


class Sizes(typing.NamedTuple):
    """Bytes of a member's file, those in use, and the quota; whether there is a leader, and it is
    this member."""
    file: int = 0
    used: int = 0
    quota: int = 0
    has_leader: int = 0
    leads: int = 0


def coded(text: str | bytes) -> str:
    return base64.b64encode(text.encode() if isinstance(text, str) else text).decode()


def decoded(text: str) -> bytes:
    return base64.b64decode(text)


class Member:
    """One connection to a member, which is used by one thread at a time. One that has patience is
    for what may be asked twice: where no answer comes, as while the members choose another leader,
    it is asked again for so many seconds."""

    def __init__(self, reach: Reach, within: float, patience: float = 0.0):
        self.reach, self.patience = reach, patience
        self.channel, self.loop = Channel(reach, within), asyncio.new_event_loop()

    def ask(self, path: str, asked: dict) -> dict:
        until = time.monotonic() + self.patience
        while True:
            try:
                return self.loop.run_until_complete(self.channel.ask(path, asked))
            except (NoSpace, NoUser):
                raise
            except Unreached:
                if time.monotonic() >= until:
                    raise
            time.sleep(ASKS_AGAIN_AFTER)

    def ask_once(self, path: str, asked: dict, within: float = 0) -> dict:
        return self.loop.run_until_complete(self.channel.ask_once(path, asked, within))

    # ---- how full it is

    def sizes(self) -> Sizes:
        text = self.loop.run_until_complete(self.channel.exchange('/metrics')).decode()
        found = dict(re.findall(r'^(etcd_\w+) (\S+)$', text, re.M))
        return Sizes(*(int(float(found.get(it, 0))) for it in (
            'etcd_mvcc_db_total_size_in_bytes', 'etcd_mvcc_db_total_size_in_use_in_bytes',
            'etcd_server_quota_backend_bytes', 'etcd_server_has_leader', 'etcd_server_is_leader')))

    def compact(self, revision: int) -> None:
        """Lets go of what keys had before a revision."""
        self.ask('/v3/kv/compaction', {'revision': str(revision), 'physical': True})

    def defragment(self) -> None:
        """Gives the member's free pages back. It answers nothing meanwhile."""
        self.ask_once('/v3/maintenance/defragment', {}, DEFRAGMENTS_WITHIN)

    def alarms(self) -> list[dict]:
        return self.ask('/v3/maintenance/alarm', {'action': 'GET'}).get('alarms', [])

    def disarm(self, alarm: dict) -> None:
        self.ask('/v3/maintenance/alarm', {'action': 'DEACTIVATE', **alarm})
