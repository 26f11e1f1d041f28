"""Certificates of three machines that end: they are reported, renewed one machine after another
while terminals are answered, and taken by companions that are not started again."""
# needs: etcd-server sqlite3 openssl faketime
# builds: dispatch_room
import http.client
import os
import re
import shutil
import ssl
import subprocess
import sys
import time

from listed import ThreeTestCase, call
from machines import PATIENCE, THREE, Machines

import certificates

LASTS = 70  # seconds that certificates are good for
# In place of openssl: what it makes of an authority ends so many seconds from now.
SHORT = """#!/bin/sh
for word in "$@"; do
    [ "$before" = -days ] && days=$word
    [ "$word" = -CA ] && is_of=authority
    before=$word
done
[ "$is_of" ] || exec %(openssl)s "$@"
exec faketime -f "-$((days * 86400 - %(lasts)d))s" %(openssl)s "$@"
"""


class Certificates(ThreeTestCase):
    def setUp(self):
        super().setUp()
        self.machines.close()
        self.machines = Machines(self.folder, self.first, is_secured=True)
        self.addCleanup(self.machines.close)
        self.short = self.folder / 'bin'
        self.short.mkdir()
        (self.short / 'openssl').write_text(
            SHORT % {'openssl': shutil.which('openssl'), 'lasts': LASTS})
        (self.short / 'openssl').chmod(0o700)

    def prepare(self, *words, path=''):
        command = [sys.executable, THREE / 'prepare.py', self.folder / 'prepared',
                   *['127.0.0.1'] * 3, *words]
        done = subprocess.run(command, capture_output=True, text=True,
                              env=os.environ | {'PATH': f'{path}:{os.environ["PATH"]}'})
        self.check('prepared', (done.returncode, done.stderr), (0, ''))

    def bring(self, number):
        """Brings a machine what was made for it."""
        shutil.copytree(self.folder / 'prepared' / str(number),
                        self.machines.machines[number].certificates, dirs_exist_ok=True)

    def days(self, number):
        return self.machines.state(number)['days']

    def days_in_metrics(self, number, name):
        connection = http.client.HTTPConnection(*self.machines.address(number), timeout=PATIENCE)
        connection.request('GET', '/metrics', headers={'Connection': 'close'})
        lines = connection.getresponse().read().decode().splitlines()
        line = f'dispatch_room_certificate_days{{name="{name}"}} '
        return [int(it.removeprefix(line)) for it in lines if it.startswith(line)]

    def test_apart(self):
        """No two end in one week, also of those that are made anew; and these are of one
        authority."""
        none = subprocess.run([sys.executable, THREE / 'prepare.py', self.folder / 'none',
                               *['127.0.0.1'] * 3, '--renew'], capture_output=True, text=True)
        self.check('nothing is renewed that is not there', none.returncode, 1)
        for words in (), ('--renew',):
            self.prepare(*words)
            found = sorted((self.folder / 'prepared').glob('[123]/[cm]*.pem'))
            ends = sorted(certificates.end_of(it) for it in found)
            self.check('six', len(ends), 6)
            self.check('apart', min(b - a for a, b in zip(ends, ends[1:])) > 7 * 86400, True)
        first = self.folder / 'prepared' / '1'
        done = subprocess.run(['openssl', 'verify', '-CAfile', first / 'authority.pem', *found],
                              capture_output=True, text=True)
        self.check('of one authority', done.returncode, 0)

    def test_renewed(self):
        """(A busy machine may look at them, or have other ones, only after their end, -1 days.)"""
        self.prepare()
        for it in self.machines.machines:
            self.bring(it)
        self.machines.start_all()
        self.check('a call', self.answered(1, call(1))[1], 200)
        self.prepare('--renew', path=self.short)
        until = time.time() + LASTS
        for it in self.machines.machines:
            self.bring(it)
        for it in self.machines.machines:
            self.machines.until(lambda: {self.days(it).get(name) for name in (
                'companion', 'member')} <= {0, -1}, 'they end')
            self.check('the authority', self.days(it)['authority'], certificates.AUTHORITY_DAYS - 1)
            self.check('in metrics', self.days_in_metrics(it, 'member')[0] in (0, -1), True)
        self.machines.until(lambda: re.search('the certificate member ends in (0|-1) days',
                                              self.machines.said()), 'it is reported')
        self.prepare('--renew')
        for it in self.machines.machines:
            self.bring(it)
            self.machines.until(lambda: self.days(it)['companion'] > 3000, 'it is taken')
            self.check('a call', self.answered(it, call(1 + it))[1], 200)
        time.sleep(max(until + 1 - time.time(), 0))
        for it in self.machines.machines:
            self.machines.kill('member', it)
            self.machines.start('member', it)
            self.machines.wait_for(it)
            self.check('a call', self.answered(it, call(4 + it))[1], 200)
        self.check('all end well', self.machines.stop_companions(), [0, 0, 0])

    def test_half(self):
        """A certificate whose key has not come yet is not taken, and what is used stays."""
        self.prepare()
        one, two = (self.folder / 'prepared' / it for it in '12')
        secured = certificates.Secured(one / 'authority.pem', one / 'companion.pem',
                                       one / 'companion.key')
        secured.renew()
        before = secured.days()
        shutil.copy(two / 'companion.pem', one / 'companion.pem')
        with self.assertRaises(ssl.SSLError):
            secured.renew()
        self.check('as before', secured.days(), before)
        shutil.copy(two / 'companion.key', one / 'companion.key')
        secured.renew()
        self.check('taken', secured.days()['companion'] < before['companion'], True)
