"""What the prover's words about an edited crate show of its clauses. It refuses a meaning where it
leaves a goal of a clause open, or what is written to prove one, or a law, no longer fits. That a
proof names what the edit took away, that a text can't be read, or that a limit was met shows
nothing of a clause."""
import enum
import re

# A goal that is left open, with its place in the code.
GOAL = re.compile(r'note: (?:\./)?(\S+):(\d+):\d+: it is not proved that ')
# A proof that does not fit, with its file. (At a limit it is not known whether it does.)
UNFIT = re.compile(r'(?:\./)?proofs/(\S+?):\d+:\d+: error: (?!.*antt ran out of )')
# A proof that names what is gone, with its file.
LOST = re.compile(r'(?:note: )?(?:\./)?proofs/(\S+?):\d+:\d+: .*'
                  r'(?:has no field|is not in scope|has no `)')


class Refusal(enum.Enum):
    """Why the prover refuses a text."""
    GOAL = 'at a goal'
    NAME = 'only since a proof names what is gone'
    NO_GOAL = 'at no goal'


def found(pattern, lines):
    return [it.groups() for it in filter(None, map(pattern.match, lines))]


def refusal(lines, is_meant=lambda path, line: True, is_own=lambda proof: True):
    """Why a text is refused, by what is said of it: at goals at places that are meant, and in
    proofs of its own. Where a name is lost, a goal may be open for that."""
    if any(is_own(proof) for proof, in found(LOST, lines)):
        return Refusal.NAME
    is_open = any(is_meant(path, int(line)) for path, line in found(GOAL, lines))
    is_unfit = any(is_own(proof) for proof, in found(UNFIT, lines))
    return Refusal.GOAL if is_open or is_unfit else Refusal.NO_GOAL
