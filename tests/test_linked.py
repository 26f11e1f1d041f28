"""The C functions of the page of trust are those of the program: of what the toolchain's libraries
declare, the names that the built program is linked with."""
# needs: python3 binutils
# builds: dispatch_room
import sys

from room import PROGRAM, TOP, TestCase

sys.path.insert(0, str(TOP / 'tools'))
from trust_files.linked import declared, linked, reached  # noqa: E402

# It lies in one file of the kit's C with `rattle_arg`, and nothing calls it.
BESIDE = {'rattle_arg_count'}


class Linked(TestCase):
    def test_program(self):
        named, found = {it.name for it in linked()}, reached(PROGRAM)
        self.check('the program reaches some', 'read' in found, True)
        self.check('not on the page', sorted(found - named - BESIDE), [])
        self.check('on the page, and not in the program', sorted(named - found), [])

    def test_places(self):
        """Each stands where the kit declares it."""
        places = declared()
        self.check('places', {it.name: it.declared for it in linked()},
                   {it.name: places.get(it.name) for it in linked()})
