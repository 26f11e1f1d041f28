"""Three machines in network namespaces of their own, which see each other over a bridge: each is
cut off, or two from each other, as by a switch. What asks them comes by relays from outside."""
import contextlib
import ctypes
import os
import socket
import subprocess
import threading

from machines import PATIENCE, Machines

import members

NUMBERS = 1, 2, 3
ADDRESSES = [f'10.99.56.{it}' for it in NUMBERS]
NEW_NETWORK = 0x40000000  # of setns(2)
TERMINALS, CLIENTS, PEERS = 8080, 2379, 2380


def done(*command, **named):
    return subprocess.run([str(it) for it in command], capture_output=True, text=True,
                          timeout=PATIENCE, **named)


class Namespaces:
    """The namespaces, and a fourth that has the bridge."""

    def __init__(self):
        self.names = {it: f'three{os.getpid()}m{it}' for it in NUMBERS}
        self.hub = f'three{os.getpid()}hub'

    def ip(self, *words):
        output = done('ip', *words)
        assert output.returncode == 0, f'no network namespace here (ip {words}): {output.stderr}'

    def make(self):
        self.ip('netns', 'add', self.hub)
        self.ip('-n', self.hub, 'link', 'add', 'hub', 'type', 'bridge')
        self.ip('-n', self.hub, 'link', 'set', 'hub', 'up')
        for number, name in self.names.items():
            self.ip('netns', 'add', name)
            self.ip('-n', name, 'link', 'set', 'lo', 'up')
            self.ip('-n', self.hub, 'link', 'add', f'm{number}', 'type', 'veth', 'peer', 'name',
                    'eth', 'netns', name)
            self.ip('-n', self.hub, 'link', 'set', f'm{number}', 'master', 'hub', 'up')
            self.ip('-n', name, 'addr', 'add', f'{ADDRESSES[number - 1]}/24', 'dev', 'eth')
            self.ip('-n', name, 'link', 'set', 'eth', 'up')

    def close(self):
        for it in *self.names.values(), self.hub:
            done('ip', 'netns', 'del', it)

    def inside(self, number, *command):
        return ['ip', 'netns', 'exec', self.names[number], *map(str, command)]

    def cut(self, number, is_cut):
        self.ip('-n', self.hub, 'link', 'set', f'm{number}', 'down' if is_cut else 'up')

    def part(self, one, other, is_apart):
        """Takes two machines from each other, which both see the third."""
        for here, there in (one, other), (other, one):
            self.ip('-n', self.names[here], 'route', 'add' if is_apart else 'del', 'blackhole',
                    f'{ADDRESSES[there - 1]}/32')

    def connection(self, number, port):
        """A connection to a port of a machine's own loopback."""
        enter = ctypes.CDLL(None, use_errno=True).setns
        with (open('/proc/thread-self/ns/net') as own,
              open(f'/run/netns/{self.names[number]}') as its):
            assert enter(its.fileno(), NEW_NETWORK) == 0, os.strerror(ctypes.get_errno())
            try:
                return socket.create_connection(('127.0.0.1', port), PATIENCE)
            finally:
                enter(own.fileno(), NEW_NETWORK)


class Relay(threading.Thread):
    """Takes connections on a port of its own, and hands on what comes by each to another and
    back."""

    def __init__(self, connect):
        super().__init__(daemon=True)
        self.connect = connect
        self.listening = socket.create_server(('127.0.0.1', 0))
        self.address = '127.0.0.1:%d' % self.listening.getsockname()[1]
        self.start()

    def run(self):
        while True:
            near, _ = self.listening.accept()
            threading.Thread(target=self.serve, args=[near], daemon=True).start()

    def serve(self, near):
        with near, contextlib.suppress(OSError), self.connect() as far:
            back = threading.Thread(target=self.hand_on, args=(far, near, True), daemon=True)
            back.start()
            self.hand_on(near, far, False)
            back.join()

    def is_handed_on(self, is_answer):
        """Whether what was read is handed on; else the connection ends."""
        return True

    def hand_on(self, source, sink, is_answer):
        with contextlib.suppress(OSError):
            while (read := source.recv(65536)) and self.is_handed_on(is_answer):
                sink.sendall(read)
        for it in source, sink:
            with contextlib.suppress(OSError):
                it.shutdown(socket.SHUT_RDWR)


class Apart(Machines):
    """Three machines, each in a network of its own."""

    def __init__(self, folder, first):
        super().__init__(folder, first)
        self.spaces = Namespaces()
        self.spaces.make()
        peers = tuple(f'{it}:{PEERS}' for it in ADDRESSES)
        self.machines = {it: members.Machine(it, folder / str(it), f'127.0.0.1:{TERMINALS}',
                                             f'127.0.0.1:{CLIENTS}', peers) for it in NUMBERS}
        self.relays = {(it, port): Relay(lambda it=it, port=port: self.spaces.connection(it, port))
                       for it in NUMBERS for port in (TERMINALS, CLIENTS)}

    def inside(self, number, command):
        return self.spaces.inside(number, *command)

    def terminals(self, number):
        return self.relays[number, TERMINALS].address

    def etcd(self, number):
        return self.relays[number, CLIENTS].address

    def close(self):
        super().close()
        self.spaces.close()
