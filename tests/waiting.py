"""What a terminal is shown while the desk reads an input that comes in slowly.

Standard error is a terminal of this script's own (a pseudo-terminal); the input comes through a pipe, or from that terminal.
"""
import array
import contextlib
import fcntl
import os
import pty
import re
import subprocess
import sys
import termios
import threading
import time
import tty

from driving import DESK, PATIENCE, same, waits_for, wrong

LINES = [f"set b{n} F/AL/A{n}/2030-06-01 9\n" for n in range(1, 9)]
ANSWERS = "".join(f"loaded b{n} 1\n" for n in range(1, 9))
ROWS = ["kind,supplier,product,night,places\n"] + [f"flight,AL,B{n},2030-06-01,9\n" for n in range(1, 8)]
PAUSE = 0.6
AWAY = " " * 48 + "\r"


def is_taken_in(stream):
    """Whether nothing is left in this pipe."""
    left = array.array("i", [1])
    fcntl.ioctl(stream, termios.FIONREAD, left)
    return left[0] == 0


def run(words, lines, pause, at_terminal=("err",)):
    """The status, the output and what the terminal was shown, of a run whose input comes line by line. All that is shown is less than
    a terminal and a pipe hold."""
    outer, inner = pty.openpty()
    tty.setraw(inner)
    ends = {name: inner if name in at_terminal else subprocess.PIPE for name in ("in", "out", "err")}
    desk = subprocess.Popen([DESK, *words], stdin=ends["in"], stdout=ends["out"], stderr=ends["err"])
    os.close(inner)
    output = ""
    for line in lines:
        time.sleep(pause)
        if desk.stdin:
            desk.stdin.write(line.encode())
            desk.stdin.flush()
            # a desk that is slow reads it later
            waits_for(lambda: not pause or is_taken_in(desk.stdin))
        else:
            os.write(outer, line.encode())
    if not desk.stdin:
        late = threading.Timer(PATIENCE, desk.kill)
        late.start()
        output = b"".join(desk.stdout.readline() for _ in lines).decode()
        late.cancel()
        time.sleep(0.5)
        desk.kill()
    rest, errors = (text.decode() if text else "" for text in desk.communicate(timeout=PATIENCE))
    shown = b""
    with contextlib.suppress(OSError):
        while piece := os.read(outer, 4096):
            shown += piece
    os.close(outer)
    return desk.returncode, output + rest, shown.decode(), errors


def shows_numbers(what, shown, most):
    """The terminal was shown rising numbers of lines, at most `most`, and they were taken away again."""
    numbers = [int(number) for number in re.findall(r"desk: lines read: (\d+)\r", shown)]
    same(f"{what}: some numbers are shown", True, len(numbers) >= 3)
    same(f"{what}: the numbers rise", sorted(set(numbers)), numbers)
    same(f"{what}: the last number", True, bool(numbers) and 0 < numbers[-1] <= most)
    same(f"{what}: nothing else is shown", "".join(f"desk: lines read: {n}\r" for n in numbers) + AWAY, shown)


def main():
    status, output, shown, _ = run(["run", "a.db"], LINES, PAUSE)
    same("slow lines: the end", (0, ANSWERS), (status, output))
    shows_numbers("slow lines", shown, len(LINES))
    status, output, shown, _ = run(["load", "a.db", "-", "--batch", "slow"], ROWS, PAUSE)
    same("a slow file: the end", (0, "loaded slow 7\n"), (status, output))
    shows_numbers("a slow file", shown, len(ROWS))
    begun = time.monotonic()
    status, output, shown, _ = run(["run", "b.db"], LINES, 0)
    same("lines at once: the end", (0, ANSWERS), (status, output))
    if time.monotonic() - begun < 1:
        same("lines at once: nothing is shown", "", shown)
    status, output, shown, errors = run(["run", "c.db"], LINES, PAUSE, at_terminal=())
    same("no terminal", (0, ANSWERS, "", ""), (status, output, shown, errors))
    status, output, shown, _ = run(["run", "d.db"], LINES, PAUSE, at_terminal=("out", "err"))
    same("answers at the terminal", (0, ANSWERS), (status, shown))
    _, output, shown, _ = run(["run", "e.db"], LINES, PAUSE, at_terminal=("in", "err"))
    same("typed lines", (ANSWERS, ""), (output, shown))
    status, output, shown, _ = run(["stock", "a.db"], [], 0)
    same("a report", (0, "", True), (status, shown, output.endswith("cells 15\n")))
    status, output, shown, _ = run(["stock", "absent.db"], [], 0)
    same("a fault, which is explained", (1, "", "fault 26 File\nThe file is absent. Look at its name.\n"), (status, output, shown))
    sys.exit("\n".join(wrong) or 0)


main()
