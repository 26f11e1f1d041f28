"""What is seen of three machines: health before etcd is there, metrics that have all that health
has, rules for Prometheus that its own tool plays, and what is said on standard error."""
# needs: etcd-server sqlite3 prometheus
# builds: dispatch_room
import contextlib
import http.client
import io
import json
import re
import unittest.mock

from documents import blocks
from listed import ThreeTestCase
from machines import PATIENCE, THREE
from many_terminals import exchange
from room import TestCase, message
from test_metrics import promtool

import said

RULES = THREE / 'rules.yml'
# Each rule: a series of a metric, its values every 15 seconds, and whether people are called at two
# minutes.
PLAYED = [
    ('NoMachineServes', 'dispatch_room_serving{instance="1"}', '1x20', False),
    ('NoMachineServes', 'dispatch_room_serving{instance="1"}', '1 1 1 0x20', True),
    ('NoMachineServes', 'other', '1x20', True),
    ('MachineDoesNotServe', 'dispatch_room_serving{instance="2"}', '1x20', False),
    ('MachineDoesNotServe', 'dispatch_room_serving{instance="2"}', '1 0 1x20', False),
    ('MachineDoesNotServe', 'dispatch_room_serving{instance="2"}', '1 0x20', True),
    ('MachineDoesNotServe', 'up{job="dispatch_room_three"}', '0x20', True),
    ('RoomDiffers', 'dispatch_room_other_differs_from_record{machine="2"}', '0x20', True),
    ('RoomDiffers', 'other', '0x20', False),
    ('MachineIsSilent', 'dispatch_room_other_silent_seconds{machine="2"}', '0+10x20', True),
    ('MachineIsSilent', 'dispatch_room_other_silent_seconds{machine="2"}', '1x20', False),
    ('MachineIsBehind', 'dispatch_room_records_behind', '2001x20', True),
    ('MachineIsBehind', 'dispatch_room_records_behind', '2000x20', False),
    ('NoCopy', 'dispatch_room_copy_failed', '1x20', False),
    ('FolderIsFull', 'dispatch_room_free_bytes{folder="work"}', '1e8x20', True),
    ('FolderIsFull', 'dispatch_room_free_bytes{folder="work"}', '1e9x20', False),
    ('NoLeader', 'dispatch_room_etcd_has_leader', '0x20', True),
    ('NoLeader', 'dispatch_room_etcd_has_leader', '1x20', False),
    ('ForeignValues', 'dispatch_room_foreign_values', '1x20', True),
    ('ForeignValues', 'dispatch_room_foreign_values', '0x20', False),
    ('ClockIsWrong', 'dispatch_room_clock_ahead_seconds', '-6x20', True),
    ('ClockIsWrong', 'dispatch_room_clock_ahead_seconds', '5x20', False),
    ('CertificateEnds', 'dispatch_room_certificate_days{name="member"}', '30x20', True),
    ('CertificateEnds', 'dispatch_room_certificate_days{name="member"}', '31x20', False),
]


class Rules(TestCase):
    def test_form(self):
        self.check('rules', promtool('check', 'rules', RULES)[0], 0)
        self.check('each is played, but one of two metrics',
                   set(re.findall('alert: (.*)', RULES.read_text())) - {it[0] for it in PLAYED},
                   {'EtcdFills'})

    def test_configuration(self):
        """What the page says to write into Prometheus' own file, beside the rules."""
        page = blocks((THREE / 'README.md').read_text())
        [shown] = [it.text for it in page if it.text.startswith('scrape_configs:')]
        (self.folder / 'rules.yml').write_text(RULES.read_text())
        file = self.folder / 'prometheus.yml'
        file.write_text(shown)
        self.check('as shown', promtool('check', 'config', file)[0], 0)

    def test_played(self):
        for name, series, values, fires in PLAYED:
            self.check(f'{name}: {series} {values}', self.fires(name, series, values), fires)

    def fires(self, name, series, values):
        """(What the tool reads is YAML, of which JSON is a part.)"""
        test = {'rule_files': [str(RULES)], 'evaluation_interval': '15s', 'tests': [{
            'interval': '15s', 'input_series': [{'series': series, 'values': values}],
            'alert_rule_test': [{'eval_time': '2m', 'alertname': name, 'exp_alerts': []}]}]}
        file = self.folder / 'test.yml'
        file.write_text(json.dumps(test))
        status, reported = promtool('test', 'rules', file)
        self.assertEqual(status != 0, f'alertname="{name}"' in reported)
        return status != 0


class Watched(ThreeTestCase):
    def metrics(self, number):
        connection = http.client.HTTPConnection(*self.machines.address(number), timeout=PATIENCE)
        with contextlib.closing(connection):
            connection.request('GET', '/metrics')
            return connection.getresponse().read().decode()

    def test_before_etcd(self):
        """A companion that has not reached etcd says so, to who asks how it is."""
        self.machines.start('companion', 2)
        self.machines.until(lambda: self.machines.health(2).get('refuses', '').startswith('etcd: '),
                            'it says why it does not serve')
        self.check('its number', self.machines.state(2)['machine'], 2)
        self.check('to Prometheus', 'dispatch_room_serving 0' in self.metrics(2), True)
        self.check('to a terminal', exchange(self.machines.address(2), message(
            'deskof01', 'GET /queue'), PATIENCE), (None, 503, '{"error":"NoAnswer","kept":"no"}'))
        self.machines.kill('companion', 2)
        self.machines.start_all()

    def test_metrics(self):
        """All numbers of health are in the metrics, as are those that the rules name."""
        self.machines.start_all()
        self.machines.until(lambda: self.machines.health(1).get('etcd', {}).get('has_leader'),
                            'etcd was looked at')
        text = self.metrics(1)
        reported = promtool('check', 'metrics', given=text)[1].splitlines()
        self.check('Prometheus reads it, and wants help',
                   [it for it in reported if not it.endswith(' no help text')], [])
        health = self.machines.state(1)
        for name in 'free', 'others', 'etcd':
            self.check(f'{name} is in health', bool(health[name]), True)
        found = set(re.findall(r'^(dispatch_room_\w+)', text, re.M))
        named = set(re.findall(r'dispatch_room_\w+(?=[ )]|$)', RULES.read_text(), re.M))
        kinds = {'dispatch_room_three', 'dispatch_room_other_differs_from_record',
                 'dispatch_room_certificate_days'}  # of which there is none at the time
        self.check('what the rules name is there', named - found - kinds, set())


class Said(TestCase):
    def test_alternating(self):
        """The same is said once in a while, whatever is said between."""
        stopped = unittest.mock.Mock(monotonic=lambda: now[0])
        now, printed = [1000.0], io.StringIO()
        self.enterContext(unittest.mock.patch.object(said, 'time', stopped))
        self.enterContext(unittest.mock.patch.object(said, 'said', {}))
        with contextlib.redirect_stderr(printed):
            for at in range(1000):
                said.say('one')
                said.say('another')
                said.say(f'{at} bytes', 'bytes')
            now[0] += said.AGAIN
            said.say('one')
        self.check('lines', printed.getvalue().splitlines(), [
            'companion: one', 'companion: another', 'companion: 0 bytes', 'companion: one'])
