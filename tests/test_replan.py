"""A room that gets another plan, from outside: what the command sqlite3 reads of all tables before and
after, which plans it doesn't get, and in whose area a call is taken afterwards."""
# needs: python3 sqlite3
# builds: dispatch_room
import json

from room import TestCase, ask, call, dump, made, message, run, serving, sql

A1 = 'A1,1,1,TQ303804,crewofa1'
B1 = 'B1,2,1,TQ600800,crewofb1'
HEAD = 'what,number,a,b,c,d'
LONDON = 'zone,0,"GMT0BST,M3.5.0/1,M10.5.0",,,'
UTC = 'zone,0,UTC0,,,'
WEST = 'area,1,500000,100000,549999,199999'
EAST = 'area,2,550000,100000,599999,199999'
FAR = 'area,3,400000,100000,449999,199999'
NORTH = 'area,1,500000,200000,549999,249999'

# The terminals of the room's own plan and of its fleet.
HAD = [('crewofa1', '2', '0', 'A1'), ('crewofb1', '2', '0', 'B1'), ('deskone1', '0', '1', ''),
       ('desktwo2', '0', '2', ''), ('takerone', '1', '1', '')]


def rows(room, table):
    return [tuple(it.split('|')) for it in sql(room, f'SELECT * FROM {table}').splitlines()]


def history(room):
    """All that the file holds beside the plan, the divisions and the terminals."""
    tables = ('meta', 'areas', 'divisions', 'terminals')
    left = [f'INSERT INTO {it} ' for it in tables] + [f'INSERT INTO "{it}" ' for it in tables]
    return [it for it in dump(room).splitlines() if not it.startswith(tuple(left))]


def zone(room):
    return sql(room, 'SELECT zone FROM meta').strip()


class Replanning(TestCase):
    def setUp(self):
        super().setUp()
        self.room = made(self.folder / 'room.db', A1, B1)

    def replan(self, *lines, words=()):
        file = self.folder / 'new.csv'
        file.write_text('\n'.join([HEAD, *lines]) + '\n')
        return run('replan', self.room, file, *words)

    def test_division(self):
        """A division is added, with its desk: its row has had no incident, and all else stays."""
        before = history(self.room)
        self.assertEqual(self.replan(LONDON, WEST, EAST, FAR, 'desk,3,deskthree,,,'),
                         (0, 'replanned\n', ''))
        self.check('areas', rows(self.room, 'areas'),
                   [(str(at), *it.split(',')[1:]) for at, it in enumerate([WEST, EAST, FAR], 1)])
        self.check('divisions', rows(self.room, 'divisions'), [('1', '0'), ('2', '0'), ('3', '0')])
        self.check('terminals', sorted(rows(self.room, 'terminals')),
                   sorted([*HAD, ('deskthree', '0', '3', '')]))
        self.check('zone', zone(self.room), 'GMT0BST,M3.5.0/1,M10.5.0')
        self.check('history', history(self.room), before)
        self.check('check', run('check', self.room)[0], 0)

    def test_areas_and_zone(self):
        """Areas are added, moved and in another order, and the zone is another: no division's last
        number is lost."""
        sql(self.room, 'UPDATE divisions SET last_incident = 7 WHERE number = 2')
        before = history(self.room)
        self.assertEqual(self.replan(UTC, EAST, NORTH, WEST), (0, 'replanned\n', ''))
        self.check('areas', rows(self.room, 'areas'),
                   [(str(at), *it.split(',')[1:]) for at, it in enumerate([EAST, NORTH, WEST], 1)])
        self.check('divisions', rows(self.room, 'divisions'), [('1', '0'), ('2', '7')])
        self.check('terminals', sorted(rows(self.room, 'terminals')), HAD)
        self.check('zone', zone(self.room), 'UTC0')
        self.check('history', history(self.room), before)
        self.check('check', run('check', self.room)[0], 0)

    def test_terminals(self):
        """Whom the plan names has its tokens only."""
        self.assertEqual(self.replan(LONDON, WEST, EAST, 'desk,1,newdesk1,,,',
                                     'position,2,takertwo,,,')[0], 0)
        self.assertEqual(sorted(rows(self.room, 'terminals')), sorted([
            *(it for it in HAD if it[0] != 'deskone1'), ('newdesk1', '0', '1', ''),
            ('takertwo', '1', '2', '')]))

    def test_same(self):
        """By its own plan a room stays as it is."""
        before = sorted(dump(self.room).splitlines())
        self.assertEqual(self.replan(LONDON, WEST, EAST, 'desk,1,deskone1,,,', 'desk,2,desktwo2,,,',
                                     'position,1,takerone,,,')[0], 0)
        self.assertEqual(sorted(dump(self.room).splitlines()), before)

    def test_served(self):
        """A call from an area that is new is taken there, and a desk that is new is answered."""
        far = 'SU200800'
        with serving(self.room, 1) as (port, _):
            (status, body), = ask(port, call(1, far))
        self.check('before', [status, json.loads(body)['number']], [409, 16])
        self.assertEqual(self.replan(LONDON, WEST, EAST, FAR, 'desk,3,deskthree,,,')[0], 0)
        with serving(self.room, 1) as (port, _):
            taken, shown = ask(port, call(2, far), message('deskthree', 'GET /incidents'))
        self.check('after', [taken[0], json.loads(taken[1])],
                   [200, {'division': 3, 'incident': 1, 'linked': False}])
        self.check('shown', [it['number'] for it in json.loads(shown[1])['incidents']], [1])

    def test_refused(self):
        before = dump(self.room)
        lacking = 'the plan has no area of division 2, which the room has'
        for what, lines, said, reported in [
                ('a division is gone', [LONDON, WEST, FAR], lacking, 'division'),
                ("a crew's token", [LONDON, WEST, EAST, FAR, 'desk,3,crewofa1,,,'],
                 "desk 3: its token is another terminal's", 'input')]:
            self.check(what, self.replan(*lines), (1, '', f'refused: {reported}\n'))
            self.check(f'{what}, explained', self.replan(*lines, words=['--explain']),
                       (1, '', f'{said}\nrefused: {reported}\n'))
        self.check('no area', self.replan(LONDON), (1, '', 'refused: plan row 0\n'))
        self.check('no zone', self.replan('zone,0,Nowhere/None,,,', WEST, EAST),
                   (1, '', 'refused: plan row 1\n'))
        self.check('no file', run('replan', self.room, self.folder / 'none.csv'),
                   (1, '', 'refused: input\n'))
        with serving(self.room, 1):
            self.check('served', self.replan(LONDON, WEST, EAST, FAR), (3, '', 'storage\n'))
        self.check('unchanged', dump(self.room), before)
