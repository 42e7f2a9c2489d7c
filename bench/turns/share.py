#!/usr/bin/env python3
"""usage: share.py SAID PROGRAM WORD ..

Runs the program with the words, its output into the file SAID, and looks at its turn lock from outside while it runs. Prints, between bars: seconds by the clock; turns; the share of the time in
which a turn was on, of the time that was looked at; how many workers waited for a turn, in the middle of that time; that time's share of the whole; looks; and the processor seconds that looking
took. A look that comes late, 5 milliseconds after the last, tells nothing of the time between.

The lock is two neighbouring words in memory: the ticket to be drawn next, and the one that is served. A turn is on where they differ; by how much more than 1, so many workers wait. A turn's end
wakes all who wait on the second word. So strace, which holds on to the program from its start until the first turn ends, tells its address, and lets the program go then.
"""
import os
import re
import signal
import struct
import subprocess
import sys
import tempfile
import time

# The program's start, which waits for a signal to go on.
START = ["sh", "-c", 'kill -STOP "$$"; exec "$@"', "sh"]
WAKE = re.compile(r"futex\((0x[0-9a-f]+), FUTEX_WAKE(?:_PRIVATE)?, 2147483647\)")
PAUSE, LATE = 0.0001, 0.005
# More workers than these there are not, and so no more tickets that are drawn and not served.
MOST = 64


def until(is_so, program):
    while not is_so() and program.poll() is None:
        time.sleep(0.0005)


def says(program, line):
    """Whether the system says this of the program's process."""
    with open(f"/proc/{program.pid}/status", encoding="utf-8") as lines:
        return any(re.match(line, it) for it in lines)


def hold(program, log):
    """Has strace hold on to the program, which has stopped itself, and lets it go on."""
    until(lambda: says(program, r"State:\s+T"), program)
    words = ["strace", "-f", "-qq", "-e", "trace=futex", "-e", "signal=none", "-o", log, "-p", str(program.pid)]
    strace = subprocess.Popen(words, stderr=subprocess.DEVNULL)
    until(lambda: strace.poll() is not None or says(program, r"TracerPid:\s+[1-9]"), program)
    program.send_signal(signal.SIGCONT)
    return strace


def place_of(program, strace, log):
    """Returns the address of the word that the first turn's end wakes on, or None where the program ended before."""
    found = None
    while found is None and strace.poll() is None and program.poll() is None:
        time.sleep(0.0005)
        if os.path.exists(log):
            with open(log, encoding="utf-8", errors="replace") as lines:
                found = next(filter(None, map(WAKE.search, lines)), None)
    strace.terminate()
    strace.wait()
    return int(found[1], 16) if found else None


class Looks:
    """What was seen: seconds in all, those with a turn on, and those times the workers that waited."""

    def __init__(self):
        self.count, self.seen, self.held, self.waited, self.turns = 0, 0.0, 0.0, 0.0, 0

    def add(self, span, drawn, served):
        if not 0 <= drawn - served <= MOST:
            # The lock isn't there any more.
            return
        self.turns = max(self.turns, served)
        if span > LATE:
            return
        self.count += 1
        self.seen += span
        if drawn > served:
            self.held += span
            self.waited += span * (drawn - served - 1)


def look(program, address):
    looks, last = Looks(), time.monotonic()
    with open(f"/proc/{program.pid}/mem", "rb", buffering=0) as memory:
        while program.poll() is None:
            try:
                both = os.pread(memory.fileno(), 16, address - 8)
            except OSError:
                break
            if len(both) < 16:
                break
            now = time.monotonic()
            looks.add(now - last, *struct.unpack("<QQ", both))
            last = now
            time.sleep(PAUSE)
    return looks


def main(said, *words):
    with open(said, "wb") as output, tempfile.TemporaryDirectory() as room:
        program = subprocess.Popen([*START, *words], stdout=output, stdin=subprocess.DEVNULL)
        strace = hold(program, f"{room}/log")
        start = time.monotonic()
        address = place_of(program, strace, f"{room}/log")
        looks = look(program, address) if address else Looks()
        status = program.wait()
        whole = time.monotonic() - start
    if status or not looks.seen:
        sys.exit(f"share.py: status {status}, {looks.count} looks")
    used = os.times()
    print(
        f"{whole:.2f} | {looks.turns} | {looks.held / looks.seen:.2%} | {looks.waited / looks.seen:.3f} | {looks.seen / whole:.0%}"
        f" | {looks.count} | {used.user + used.system:.2f}"
    )


main(*sys.argv[1:])
