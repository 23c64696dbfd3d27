"""The part of a long script that this call does. With PART=K/N in the environment it is the K-th of N parts of the cases;
N calls, with K from 1 to N, do each case once. Without PART it is all."""
import itertools
import os
import random
import re
import sys


def read_part(text):
    """K and N of this text, 1 and 1 where it is empty; another form of it ends the script with 2."""
    found = re.fullmatch("([1-9][0-9]?[0-9]?)/([1-9][0-9]?[0-9]?)", text or "1/1")
    if not found or int(found[1]) > int(found[2]):
        print(f"{os.path.basename(sys.argv[0])}: PART={text} is not K/N, with K from 1 to N", file=sys.stderr)
        sys.exit(2)
    return int(found[1]), int(found[2])


PART, PARTS = read_part(os.environ.get("PART", ""))
# what the last line of a script ends with, which says what was done: nothing where it was all
IN_PART = f", part {PART} of {PARTS}" if os.environ.get("PART") else ""


class Deal:
    """Deals cases out to the parts in turn, so that each part takes about as long. Every part deals out the same cases."""

    def __init__(self):
        self.dealt = 0

    def is_mine(self):
        """Deals out the next case; says whether this part has it."""
        self.dealt += 1
        return self.dealt % PARTS == PART % PARTS

    def mine(self, cases):
        """Those of these cases that this part has."""
        return [case for case in cases if self.is_mine()]

    def mine_from(self, first, step):
        """Of the numbers first, first + step and so on, whose end is not known, those that this part has. They are dealt out
        from another part on each time, as nobody knows which part got the last one."""
        self.dealt += 1
        return itertools.count(first + (PART + self.dealt) % PARTS * step, PARTS * step)


def chances(seed):
    """Two sources of chance: one that gives every part the same, to choose the cases that are dealt out; and one for what
    happens in a case, which a part draws for its own cases alone. Where there is one part they are one."""
    chance = random.Random(seed)
    return chance, chance if PARTS == 1 else random.Random(f"{seed}, {PART} of {PARTS}")
