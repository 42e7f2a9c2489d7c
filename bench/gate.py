#!/usr/bin/env python3
"""usage: bench/gate.py LOG [--pid PID] [--every SECONDS]

Prints what a run of rt ci costs, in processor minutes by crate and phase. Start it beside the run, whose standard output is LOG:

    rt ci > LOG 2>&1 &
    bench/gate.py LOG

It looks at the run's processes every 2 seconds (or SECONDS), and prints its table when the run ends, or when it is interrupted. PID is that
of the run, which is else the one whose standard output is LOG.

library   the crate's own proof
tests     the proof of its test functions
seed      the proof that its must-fail edits begin with, and the last look at it
edits     the edits
programs  what is compiled and linked, and the runs of programs and tests
planning  rt itself, and the check of the layout
"""
import os
import re
import signal
import sys
import time

PHASES = ("library", "tests", "seed", "edits", "programs", "planning")
TICKS = os.sysconf("SC_CLK_TCK")
ITSELF = "(rt itself)"


def read(path):
    try:
        with open(path, "rb") as file:
            return file.read().decode(errors="replace")
    except OSError:
        return ""


def link_of(path):
    try:
        return os.readlink(path)
    except OSError:
        return ""


def words_of(pid):
    return read(f"/proc/{pid}/cmdline").split("\0")[:-1]


class Process:
    """A process as /proc shows it: times in ticks, of itself and of its children that have ended."""

    def __init__(self, pid, text):
        fields = text[text.rindex(")") + 2 :].split()
        self.pid, self.parent = pid, int(fields[1])
        self.own = int(fields[11]) + int(fields[12])
        self.children = int(fields[13]) + int(fields[14])
        self.start = fields[19]


def processes():
    found = {}
    for name in os.listdir("/proc"):
        text = read(f"/proc/{name}/stat") if name.isdigit() else ""
        if ")" in text:
            found[int(name)] = Process(int(name), text)
    return found


def gate_of(log):
    """Returns the process of the rt ci whose standard output is the log, or None."""
    for pid in processes():
        words = words_of(pid)
        is_gate = any(a.rpartition("/")[2] == "rt" and b == "ci" for a, b in zip(words, words[1:]))
        if is_gate and link_of(f"/proc/{pid}/fd/1") == log:
            return pid
    return None


def place_of(pid, words):
    """Returns the crate and the phase that a process which rt started works for."""
    cwd = link_of(f"/proc/{pid}/cwd")
    crate = (re.findall(r"/crates/(\w+)$", cwd) or [""])[0]
    if "--crate-name" in words:
        crate = words[words.index("--crate-name") + 1]
        if "/rt-edit-" in cwd:
            over = words[words.index("--incremental") + 1] if "--incremental" in words else ""
            return crate, "seed" if over.endswith("/seed") else "edits"
        if "--crate-checked" in words:
            return crate, "programs"
        return crate, "tests" if "--test" in words else "library"
    ran = re.findall(r"/rt-run-[^/ ]+/bin/(\w+?)(?:_tests)?(?: |$)", " ".join(words))
    if ran:
        return ran[0], "programs"
    is_link = any(it.endswith(("/rattle-link", "llvm-nm")) for it in words)
    return crate or ITSELF, "programs" if is_link else "planning"


class Costs:
    def __init__(self, gate):
        self.gate, self.start, self.since = gate, None, time.time()
        # by process: its crate and phase, and its ticks in the last sample
        self.samples = {}
        self.itself = self.before = self.children = 0
        # the ticks that all that was at work had in the first sample
        self.at_start = 0

    def look(self):
        """Takes a sample. Returns whether the run goes on."""
        found = processes()
        gate = found.get(self.gate)
        if gate is None or self.start not in (None, gate.start):
            return False
        if self.start is None:
            self.start, self.before = gate.start, gate.children
        is_first = not self.samples and not self.itself
        self.itself, self.children = gate.own, gate.children
        below = {}
        for it in found.values():
            below.setdefault(it.parent, []).append(it)
        for child in below.get(self.gate, []):
            ticks, left = 0, [child]
            while left:
                it = left.pop()
                ticks += it.own + it.children
                left += below.get(it.pid, [])
            words, key = words_of(child.pid), (child.pid, child.start)
            # (one that has ended and isn't waited for yet has no words)
            place = self.samples[key][0] if key in self.samples and not words else place_of(child.pid, words)
            self.samples[key] = (place, ticks)
        if is_first:
            self.at_start = self.itself + sum(ticks for _, ticks in self.samples.values())
        return True

    def rows(self):
        """Returns the ticks of each crate by phase."""
        rows = {}
        for (crate, phase), ticks in self.samples.values():
            row = rows.setdefault(crate, dict.fromkeys(PHASES, 0))
            row[phase] += ticks
        rows.setdefault(ITSELF, dict.fromkeys(PHASES, 0))["planning"] += self.itself
        return rows


def minutes(ticks):
    return f"{ticks / TICKS / 60:9.1f}" if ticks else " " * 8 + "-"


def table(costs, log):
    rows = costs.rows()
    sums = {it: sum(row[it] for row in rows.values()) for it in PHASES}
    lines = [f"{'processor minutes':24}" + "".join(f"{it:>9}" for it in (*PHASES, "sum"))]
    for crate, row in sorted(rows.items(), key=lambda it: -sum(it[1].values())):
        lines.append(f"{crate:24}" + "".join(minutes(it) for it in (*row.values(), sum(row.values()))))
    whole = sum(sums.values())
    lines.append(f"{'all':24}" + "".join(minutes(it) for it in (*sums.values(), whole)))
    elapsed = (time.time() - costs.since) / 60
    lines.append("")
    # What rt's ended children took in all, less what was seen of them.
    rest = max(costs.children - costs.before - (whole - costs.itself), 0)
    at_work = (whole - costs.at_start) / TICKS / 60 / max(elapsed, 0.01)
    lines.append(f"{elapsed:.1f} minutes passed, with {at_work:.1f} processors at work")
    lines.append(f"not seen, as it ended between two looks: {minutes(rest).strip()} minutes")
    if costs.before:
        lines.append(f"done before the first look, and not in the table: {minutes(costs.before).strip()} minutes")
    said = read(log)
    kept = len(set(re.findall(r"(?m)^rt: (\w+) is kept:", said)))
    tried = re.findall(r"(?m)^rt: (\w+): trying its must-fail edits \((\d+)\)", said)
    lines.append(f"crates kept from an earlier run: {kept}; edits tried: {sum(int(n) for _, n in tried)} of {len(tried)} crates")
    last = said.rstrip("\n").rpartition("\n")[2]
    if re.match(r"\d+ passed, \d+ failed", last):
        lines.append(f"the run ended with: {last}")
    return "\n".join(lines)


def option(words, name, usual):
    """Takes an option and its value out of the words."""
    if name not in words:
        return usual
    at = words.index(name)
    value = words[at + 1]
    del words[at : at + 2]
    return value


def main(words):
    every, gate = float(option(words, "--every", "2")), int(option(words, "--pid", "0"))
    if len(words) != 1 or words[0].startswith("-"):
        print(__doc__.rstrip(), file=sys.stderr)
        return 2
    log = os.path.realpath(words[0])
    for _ in range(60):
        gate = gate or gate_of(log)
        if gate:
            break
        time.sleep(1)
    if not gate:
        print(f"gate: no rt ci writes to {log}", file=sys.stderr)
        return 2
    costs = Costs(gate)

    def end(*_):
        raise KeyboardInterrupt

    signal.signal(signal.SIGTERM, end)
    try:
        while costs.look():
            time.sleep(every)
    except KeyboardInterrupt:
        pass
    print(table(costs, log))
    return 0


if __name__ == "__main__":
    sys.exit(main(sys.argv[1:]))
