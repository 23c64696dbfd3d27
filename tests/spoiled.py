"""Finds a wrong body of the program by a scene of failing calls: some calls of the scene fail, once in the proved program, of
which no run may be wrong, and then in a spoiled one, of which one has to be. Prints what is wrong with the spoiled one.

spoiled.py CALLS.so SCENE SPOILED    the program itself is DESK
"""
import errno
import os
import random
import sys

import driving
from failing_calls import CHANGES, FAILED, SOCKETS, Trial, scenes

# of each scene, the calls that are tried, and which of them
TRIED = {"recover": (CHANGES, slice(-3, None)), "serve": (SOCKETS, slice(0, 4))}


class Ends(Trial):
    """How runs end in which a call failed."""

    def judge(self, *_):
        """Nothing but the end is looked at."""


def main():
    library, name, spoiled = os.path.abspath(sys.argv[1]), sys.argv[2], os.path.abspath(sys.argv[3])
    names, which = TRIED[name]
    scene = next(scene for scene in scenes() if scene.name == name)
    trial = Ends(scene, random.Random(1987), library)
    tried, call = [], 1
    while trial.fails(FAIL=call, ERROR=errno.EIO):
        if FAILED.read_text(encoding="ascii").split()[0] in names:
            tried.append(call)
        call += 1
    if trial.wrong or not tried:
        sys.exit(f"the proved program: {(trial.wrong or ['no such call'])[0]}")
    driving.DESK = spoiled
    for call in tried[which]:
        trial.fails(FAIL=call, ERROR=errno.EIO)
        if trial.wrong:
            print(trial.wrong[0])
            return


main()
