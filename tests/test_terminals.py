"""The terminals of a room from outside: who has one, a new token, one that is taken away, and those
that a file gives; what the command sqlite3 reads of all tables before and after, and who is answered
by which token."""
# needs: python3 sqlite3
# builds: dispatch_room
import itertools
import json
import re

from room import (FLEET, PLAN, TestCase, ask, dump, made, message, run, serving, sql)

PLAN_HEAD = 'what,number,a,b,c,d'
ZONE = 'zone,0,"GMT0BST,M3.5.0/1,M10.5.0",,,'
WEST = 'area,1,500000,100000,549999,199999'
THIRD = 'area,3,400000,100000,449999,199999'
FLEET_HEAD = 'callsign,division,kind,place,token'

A1 = 'A1,1,1,TQ303804,crewofa1'
B1 = 'B1,2,1,TQ600800,crewofb1'
TOKEN = re.compile(r'[A-Za-z0-9]{8,32}\n')

# Whom a command names, with what stands in the table: its role, number and callsign.
LISTED = {'desk:1': ('0', '1', ''), 'desk:2': ('0', '2', ''), 'position:1': ('1', '1', ''),
          'position:99': ('1', '99', ''), 'crew:A1': ('2', '0', 'A1'), 'crew:B1': ('2', '0', 'B1')}


def rows(room):
    """The rows of the table: token, role, number, callsign."""
    lines = sql(room, 'SELECT * FROM terminals').split()
    return sorted(tuple(it.split('|')) for it in lines)


def others(room):
    """All that the file holds beside terminals."""
    return [it for it in dump(room).splitlines() if not it.startswith('INSERT INTO terminals')]


def named(room, who):
    """The tokens by which one is known."""
    return [token for token, *it in rows(room) if tuple(it) == LISTED[who]]


def answered(room, *asked):
    """How each terminal is answered that asks for a path: the status, and a refusal's number."""
    with serving(room, 1) as (port, _):
        answers = ask(port, *[message(token, f'GET {path}') for token, path in asked])
    return [status if status == 200 else (status, json.loads(body)['number'])
            for status, body in answers]


class Listing(TestCase):
    def test_list(self):
        room = made(self.folder / 'room.db', B1, A1)
        before = dump(room)
        wanted = 'desk 1\ndesk 2\nposition 1\ncrew A1\ncrew B1\n'
        self.assertEqual(run('terminals', room), (0, wanted, ''))
        self.assertEqual(dump(room), before)

    def test_order(self):
        """Numbers stand in their order, also where they have two digits, and no token is listed."""
        room = made(self.folder / 'room.db', A1)
        for who in ['position:10', 'position:9', 'position:2']:
            run('terminals', room, '--new', who)
        status, out, err = run('terminals', room)
        wanted = 'desk 1\ndesk 2\nposition 1\nposition 2\nposition 9\nposition 10\ncrew A1\n'
        self.assertEqual([status, out, err], [0, wanted, ''])


class Changing(TestCase):
    def test_new(self):
        for who in LISTED:
            room = made(self.folder / f'{who.replace(":", "")}.db', A1, B1)
            before = rows(room)
            rest = others(room)
            status, out, err = run('terminals', room, '--new', who)
            self.check(f'new {who}', [status, bool(TOKEN.fullmatch(out)), err], [0, True, ''])
            kept = [it for it in before if it[1:] != LISTED[who]]
            self.check(f'rows of {who}', rows(room), sorted([*kept, (out[:-1], *LISTED[who])]))
            self.check(f'other tables, {who}', others(room), rest)
            self.check(f'check, {who}', run('check', room)[0], 0)

    def test_tokens_differ(self):
        room = made(self.folder / 'room.db', A1)
        tokens = [run('terminals', room, '--new', 'crew:A1')[1] for _ in range(20)]
        self.assertEqual(len(set(tokens)), 20)
        self.assertEqual(named(room, 'crew:A1'), [tokens[-1][:-1]])

    def test_several(self):
        """A desk with two terminals has one afterwards."""
        plan = self.folder / 'plan.csv'
        plan.write_text(PLAN.read_text() + 'desk,1,deskother,,,\n')
        room = self.folder / 'room.db'
        run('init', room, plan)
        self.assertEqual(sorted(named(room, 'desk:1')), ['deskone1', 'deskother'])
        self.assertEqual(run('terminals', room)[1], 'desk 1\ndesk 1\ndesk 2\nposition 1\n')
        token = run('terminals', room, '--new', 'desk:1')[1]
        self.assertEqual(named(room, 'desk:1'), [token[:-1]])
        self.assertEqual(run('terminals', room)[1], 'desk 1\ndesk 2\nposition 1\n')

    def test_revoke(self):
        for who in ['desk:1', 'position:1']:
            room = made(self.folder / f'{who.replace(":", "")}.db', A1)
            kept = [it for it in rows(room) if it[1:] != LISTED[who]]
            rest = others(room)
            self.check(f'revoke {who}', run('terminals', room, '--revoke', who),
                       (0, 'revoked\n', ''))
            self.check(f'rows, {who}', rows(room), kept)
            self.check(f'others, {who}', others(room), rest)
            self.check(f'again, {who}', run('terminals', room, '--revoke', who),
                       (1, '', 'refused: input\n'))
            self.check(f'check, {who}', run('check', room)[0], 0)

    def test_revoke_crew(self):
        """A crew that is left has a token that was printed nowhere, and its vehicle stays."""
        room = made(self.folder / 'room.db', A1, B1)
        kept = [it for it in rows(room) if it[1:] != LISTED['crew:A1']]
        rest = others(room)
        self.assertEqual(run('terminals', room, '--revoke', 'crew:A1'), (0, 'revoked\n', ''))
        secret, = named(room, 'crew:A1')
        self.assertNotEqual(secret, 'crewofa1')
        self.assertEqual(len(secret), 24)
        self.assertEqual(rows(room), sorted([*kept, (secret, *LISTED['crew:A1'])]))
        self.assertEqual(others(room), rest)
        self.assertEqual(run('check', room)[0], 0)

    def test_lost_terminal(self):
        """The old token is none's, the new one is its desk's or crew's, and all others go on."""
        room = made(self.folder / 'room.db', A1, B1)
        none = (403, 38)
        self.assertEqual(answered(room, ('deskone1', '/queue'), ('crewofa1', '/order'),
                                  ('nobody00', '/queue')), [200, 200, none])
        crews = run('terminals', room, '--new', 'crew:A1')[1][:-1]
        desks = run('terminals', room, '--new', 'desk:1')[1][:-1]
        self.assertEqual(
            answered(room, (crews, '/order'), ('crewofa1', '/order'), ('crewofb1', '/order'),
                     (desks, '/queue'), ('deskone1', '/queue'), ('desktwo2', '/queue')),
            [200, none, 200, 200, none, 200])
        run('terminals', room, '--revoke', 'desk:2')
        run('terminals', room, '--revoke', 'crew:A1')
        self.assertEqual(answered(room, (desks, '/queue'), ('desktwo2', '/queue'),
                                  (crews, '/order'), ('crewofb1', '/order')),
                         [200, none, none, 200])


class Setting(TestCase):
    def set(self, room, *lines):
        """Sets the terminals of a file with these lines; what the command gives."""
        file = self.folder / 'new.csv'
        file.write_text('\n'.join(lines) + '\n')
        return run('terminals', room, '--from', file)

    def test_plan(self):
        """The desks and positions of a plan have its tokens only; one has two, one as before, one is
        new, and desk 2, which it doesn't name, has what it had, as the crews have."""
        room = made(self.folder / 'room.db', A1, B1)
        rest = others(room)
        self.assertEqual(self.set(room, PLAN_HEAD, ZONE, WEST, 'desk,1,newdesk1,,,',
                                  'desk,1,newdesk2,,,', 'position,1,takerone,,,',
                                  'position,99,takers99,,,'), (0, 'set: terminals 4\n', ''))
        self.assertEqual(rows(room), sorted([
            ('newdesk1', '0', '1', ''), ('newdesk2', '0', '1', ''), ('desktwo2', '0', '2', ''),
            ('takerone', '1', '1', ''), ('takers99', '1', '99', ''),
            ('crewofa1', '2', '0', 'A1'), ('crewofb1', '2', '0', 'B1')]))
        self.assertEqual(others(room), rest)
        self.assertEqual(run('check', room)[0], 0)
        self.assertEqual(answered(room, ('newdesk2', '/queue'), ('deskone1', '/queue'),
                                  ('desktwo2', '/queue'), ('crewofb1', '/order')),
                         [200, (403, 38), 200, 200])

    def test_fleet(self):
        """The crews of a fleet have its tokens only; of a row, all but callsign and token are not
        looked at, and a crew that it doesn't name has what it had."""
        room = made(self.folder / 'room.db', A1, B1)
        rest = others(room)
        self.assertEqual(self.set(room, FLEET_HEAD, 'A1,2,3,TQ600800,othera11'),
                         (0, 'set: terminals 1\n', ''))
        self.assertEqual(named(room, 'crew:A1'), ['othera11'])
        self.assertEqual(named(room, 'crew:B1'), ['crewofb1'])
        self.assertEqual(len(rows(room)), 5)
        self.assertEqual(others(room), rest)
        self.assertEqual(run('check', room)[0], 0)
        self.assertEqual(answered(room, ('othera11', '/order'), ('crewofa1', '/order')),
                         [200, (403, 38)])

    def test_swap(self):
        """Two that a file names may have each other's tokens."""
        room = made(self.folder / 'room.db', A1, B1)
        self.assertEqual(self.set(room, FLEET_HEAD, 'A1,1,1,TQ303804,crewofb1',
                                  'B1,2,1,TQ600800,crewofa1')[0], 0)
        self.assertEqual(named(room, 'crew:A1') + named(room, 'crew:B1'), ['crewofb1', 'crewofa1'])

    def test_again(self):
        """The files that made a room change nothing, and no terminal that it got since comes back."""
        room = made(self.folder / 'room.db', A1, B1)
        before = sorted(dump(room).splitlines())
        self.check('plan', run('terminals', room, '--from', PLAN), (0, 'set: terminals 3\n', ''))
        self.check('fleet', self.set(room, FLEET_HEAD, A1, B1), (0, 'set: terminals 2\n', ''))
        self.check('none', self.set(room, FLEET_HEAD), (0, 'set: terminals 0\n', ''))
        self.check('all', sorted(dump(room).splitlines()), before)

    def test_refused(self):
        """Where a row is refused nothing is changed, and the first one is explained."""
        room = made(self.folder / 'room.db', A1, B1)
        before = dump(room)
        good = 'A1,1,1,TQ303804,othera11'
        for what, lines, said, cause in [
                ('no vehicle', [FLEET_HEAD, good, 'Z9,1,1,TQ303804,crewofz9'],
                 'crew Z9: no vehicle has the callsign', 'input'),
                ("another's token", [FLEET_HEAD, good, 'B1,2,1,TQ600800,deskone1'],
                 "crew B1: its token is another terminal's", 'input'),
                ('one token twice', [FLEET_HEAD, good, 'B1,2,1,TQ600800,othera11'],
                 "crew B1: its token is another terminal's", 'input'),
                ('two tokens', [FLEET_HEAD, good, 'A1,1,1,TQ303804,othera12'],
                 'crew A1: a row before gives it another token', 'input'),
                ('no division', [PLAN_HEAD, ZONE, WEST, THIRD, 'desk,1,newdesk1,,,',
                                 'desk,3,deskthree,,,'],
                 'desk 3: its division is not in the plan', 'division'),
                ("a crew's token", [PLAN_HEAD, ZONE, WEST, 'position,7,crewofa1,,,'],
                 "position 7: its token is another terminal's", 'input')]:
            self.check(what, self.set(room, *lines), (1, '', f'refused: {cause}\n'))
            self.check(f'{what}, explained',
                       run('terminals', room, '--from', self.folder / 'new.csv', '--explain'),
                       (1, '', f'{said}\nrefused: {cause}\n'))
            self.check(f'{what}, unchanged', dump(room), before)

    def test_no_file(self):
        """What is neither a plan nor a fleet is refused before the room is opened."""
        room = made(self.folder / 'room.db', A1)
        before = dump(room)
        for what, lines, cause in [
                ('a bad row', [FLEET_HEAD, 'A1,1,1,TQ303804,short'], 'refused: input\n'),
                ('a short row', [FLEET_HEAD, 'A1,1'], 'refused: input\n'),
                ('another header', ['name,token', 'A1,othera11'], 'refused: input\n'),
                ('a bad plan', [PLAN_HEAD, ZONE, WEST, 'desk,9,deskofnone,,,'],
                 'refused: plan row 3\n')]:
            self.check(what, self.set(room, *lines), (1, '', cause))
        self.check('none', run('terminals', room, '--from', self.folder / 'none.csv'),
                   (1, '', 'refused: input\n'))
        self.assertEqual(dump(room), before)


class Refusing(TestCase):
    def test_refused(self):
        room = made(self.folder / 'room.db', A1)
        before = dump(room)
        for words, cause in [(['--new', 'desk:3'], 'division'), (['--new', 'crew:Z9'], 'input'),
                             (['--revoke', 'desk:3'], 'input'), (['--revoke', 'crew:Z9'], 'input'),
                             (['--revoke', 'position:7'], 'input')]:
            self.check(' '.join(words), run('terminals', room, *words),
                       (1, '', f'refused: {cause}\n'))
            self.check(f'unchanged by {words}', dump(room), before)

    def test_explained(self):
        room = made(self.folder / 'room.db', A1)
        for words, cause in [
                (['--new', 'desk:3'], f'no division 3 in the plan of {room}\nrefused: division\n'),
                (['--new', 'crew:Z9'], f'no vehicle Z9 in {room}\nrefused: input\n'),
                (['--revoke', 'position:7'],
                 f'position 7 has no terminal in {room}\nrefused: input\n')]:
            self.check(' '.join(words), run('terminals', room, *words, '--explain'), (1, '', cause))

    def test_usage(self):
        for who in ['desk', 'desk:', 'desk:0', 'desk:10', 'desk:01', 'desk:+1', 'position:100',
                    'crew:', 'crew:a1', 'crew:ABCDEFGHI', 'A1', '']:
            for option in ['--new', '--revoke']:
                status, out, err = run('terminals', self.folder / 'room.db', option, who)
                self.check(f'{option} {who!r}', [status, out, 'error: ' in err], [2, '', True])
        options = {'--new': 'desk:1', '--revoke': 'desk:1', '--from': 'plan.csv'}
        for one, other in itertools.combinations(options, 2):
            status, _, err = run('terminals', 'a', one, options[one], other, options[other])
            cause = re.search(f"'{one} <[A-Z]+>' cannot be used with '{other} <[A-Z]+>'", err)
            self.check(f'{one} {other}', [status, bool(cause)], [2, True])

    def test_served(self):
        room = made(self.folder / 'room.db', A1)
        before = rows(room)
        with serving(room, 1) as (_, process):
            cause = f'{room} is in use by process {process.pid}\nstorage\n'
            for words in [[], ['--new', 'crew:A1'], ['--revoke', 'desk:1'], ['--from', PLAN]]:
                self.check(f'served {words}', run('terminals', room, *words), (3, '', 'storage\n'))
                self.check(f'served {words}, explained',
                           run('terminals', room, *words, '--explain'), (3, '', cause))
        self.assertEqual(rows(room), before)

    def test_no_room(self):
        self.assertEqual(run('terminals', self.folder / 'none.db')[0], 1)
        self.assertFalse((self.folder / 'none.db').exists())

    def test_import_again(self):
        """The fleet's file has the old token: its row is refused, and the new token stays."""
        room = self.folder / 'room.db'
        run('init', room, PLAN)
        run('import', room, FLEET)
        token = run('terminals', room, '--new', 'crew:A1')[1][:-1]
        status, out, _ = run('import', room, FLEET)
        self.assertEqual([status, out.splitlines()[0]], [1, 'A1 refused 20'])
        self.assertEqual(named(room, 'crew:A1'), [token])
