"""What an administrator does where one of three machines, or their list, is to be mended."""
import argparse
import json
import time

from etcd import Member, Unreached
from keeping import TRY_EVERY
from kept_list import (HEAD, LIST, ROOM, KeptList, delete, is_of, is_value, linked, put, span,
                       under)
from upkeep import OUT, WORDS
from words import WAITS, Refused, kept_list, reach_of

PEERS = f'{ROOM}peers/'  # the addresses of members that are replaced
HEARS = 10.0  # seconds in which a machine that runs reports on itself
ON_IT = """\
sudo systemctl stop dispatch-room-companion dispatch-room-member
sudo rm -rf /var/lib/dispatch-room-three/etcd
echo ETCD_INITIAL_CLUSTER_STATE=existing | sudo tee -a /etc/dispatch-room-three/member.env
sudo systemctl start dispatch-room-member dispatch-room-companion
"""


def wait_for_silence(kept: KeptList, machines: set[str]) -> None:
    """Refuses where one of the machines goes on reporting on itself, while etcd answers."""
    def heard() -> set[tuple[str, int]]:
        return {(key, revision) for key, _, revision in kept.values(WORDS) if key in machines}
    before = heard()
    for _ in range(round(HEARS / TRY_EVERY)):
        time.sleep(TRY_EVERY)
        for number, _ in heard() - before:
            raise Refused(f'machine {number} is not away')


def leave_out(given: argparse.Namespace) -> None:
    """Takes a machine out of the count of those whose copies keep records in the list."""
    kept = kept_list(given)
    wait_for_silence(kept, {str(given.number)})
    kept.change([], [put(f'{OUT}{given.number}', b'')])
    print(f'machine {given.number} is left out until it has a copy again')


def replace(given: argparse.Namespace) -> None:
    """Has etcd let a machine's member go, and take one that has nothing in its place."""
    kept, name, key = kept_list(given), f'm{given.number}', f'{PEERS}{given.number}'
    wait_for_silence(kept, {str(given.number)})
    ask = kept.member.ask
    members = ask('/v3/cluster/member/list', {})['members']
    old = [it for it in members if it.get('name') == name]
    for it in old:
        kept.change([], [put(key, it['peerURLs'][0])])  # for where this ends before the next
        ask('/v3/cluster/member/remove', {'ID': it['ID']})
    urls = [value.decode() for _, value, _ in kept.values(key)]
    if not urls:
        raise Refused(f'etcd has no member {name}')
    if old or all(it['peerURLs'] != urls for it in members):
        ask('/v3/cluster/member/add', {'peerURLs': urls})
    print(f"{name} is a new member of etcd. On machine {given.number}, with what prepare.py made "
          f'for it:\n\n{ON_IT}\nWhere that has no copy of a record that is in the list, the newest '
          'copy.* of another machine\nis brought to its folder before.')


def drop_list(given: argparse.Namespace) -> None:
    """Deletes the list, once all companions have ended."""
    kept = kept_list(given)
    wait_for_silence(kept, {key for key, _, _ in kept.values(WORDS)})
    kept.change([], [delete(under('room/'))])
    print('there is no list any more')


def mend(given: argparse.Namespace) -> None:
    """Has the list end with the last of its entries that stand one behind the other, and deletes
    what is none of them; but not where a machine that counts has played more."""
    kept = kept_list(given)
    revision = max((it for _, _, it in kept.values(HEAD)), default=0)
    rows = {f'{LIST}{key}': value for key, value, _ in kept.values(LIST)}
    entries, foreign = linked(None, list(rows.items()))
    if not entries:
        raise Refused('the list has no entry')
    last, out = entries[-1].place, {key for key, _, _ in kept.values(OUT)}
    for machine, word, _ in kept.values(WORDS):
        played = json.loads(word).get('played', 0)
        if played > last.number and machine not in out:
            raise Refused(f'the list ends at record {last.number}, and machine {machine} has '
                          f'played {played}: bring its newest copy to the others, or leave it out')
    if not kept.change([is_of(HEAD, revision)], [put(HEAD, last.text())]).get('succeeded'):
        raise Refused('the list goes on')
    for it in foreign:
        kept.change([is_value(it, rows[it])], [delete(span(it))])
    print(f'the list ends at record {last.number}, and {len(foreign)} values are deleted')


def user(given: argparse.Namespace) -> None:
    """Makes the user whose name and password are given, and has etcd take nothing else."""
    member = Member(reach_of(given), WAITS)
    who = {'name': given.user, 'password': member.reach.password}
    try:
        member.ask_once('/v3/auth/authenticate', who)
    except Unreached:  # none is wanted yet
        for path, asked in (('user/add', who), ('role/add', {'name': 'root'}),
                            ('user/grant', {'user': given.user, 'role': 'root'})):
            try:
                member.ask_once(f'/v3/auth/{path}', asked)
            except Unreached as error:
                if 'already exists' not in str(error):
                    raise
        member.ask_once('/v3/auth/enable', {})
    print(f'etcd takes nothing without its user {given.user}')
