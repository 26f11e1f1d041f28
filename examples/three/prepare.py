#!/usr/bin/env python3
"""Makes what three real machines need, by their addresses: certificates, a password, and what the
units of systemd are given. What is in FOLDER/N goes to machine N, as /etc/dispatch-room-three; the
authority's key stays where it is.

  prepare.py FOLDER 192.0.2.1 192.0.2.2 192.0.2.3
  prepare.py FOLDER 192.0.2.1 192.0.2.2 192.0.2.3 --renew      makes certificates anew"""
import ipaddress
import os
import pathlib
import sys
from argparse import ArgumentParser, RawDescriptionHelpFormatter

import certificates
from members import NUMBERS, Machine

AT = pathlib.Path('/etc/dispatch-room-three')
STATE = pathlib.Path('/var/lib/dispatch-room-three')
TERMINALS, CLIENTS, PEERS = '127.0.0.1:8080', '127.0.0.1:2379', 2380


def member_environment(machine: Machine) -> str:
    """etcd takes each of its words from the environment too."""
    named = {f'ETCD_{name.upper().replace("-", "_")}': value
             for name, value in machine.settings().items()}
    return ''.join(f'{name}={value}\n' for name, value in named.items())


def main() -> int:
    parser = ArgumentParser(description=__doc__, formatter_class=RawDescriptionHelpFormatter)
    parser.add_argument('folder', metavar='FOLDER', type=pathlib.Path)
    parser.add_argument('addresses', metavar='ADDRESS', nargs=3, type=ipaddress.ip_address,
                        help='by which the members of etcd reach each other')
    parser.add_argument('--renew', action='store_true',
                        help='make certificates anew, which are good beside those of before')
    words = parser.parse_args()
    peers = tuple(f'[{it}]:{PEERS}' if it.version == 6 else f'{it}:{PEERS}'
                  for it in words.addresses)
    os.umask(0o077)
    folders = {words.folder / str(it): str(words.addresses[it - 1]) for it in NUMBERS}
    try:
        certificates.make_all(words.folder / 'authority', folders, words.renew)
        for number in NUMBERS:
            machine = Machine(number, STATE, TERMINALS, CLIENTS, peers, AT)
            folder = words.folder / str(number)
            (folder / 'member.env').write_text(member_environment(machine))
            (folder / 'companion.env').write_text(
                f'MACHINE={machine.number}\nADDRESS={machine.terminals}\n'
                f'REACH="{" ".join(map(str, machine.reach()))}"\n')
    except OSError as error:
        print(f'prepare: {error}', file=sys.stderr)
        return 1
    print(f'prepared: {words.folder}/1, {words.folder}/2 and {words.folder}/3')
    return 0


if __name__ == '__main__':
    sys.exit(main())
