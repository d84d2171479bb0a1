"""What compare/drills, compare/reasons and compare/fuzz share.

Drill files, runs of the runner, of the model and through the C interface, and what is told of a difference.
"""

import collections
import itertools
import os
import re
import signal
import subprocess
import sys
import tempfile

PROGRAM = os.path.basename(sys.argv[0])
ROOT = os.path.dirname(os.path.dirname(os.path.abspath(__file__)))
GREATEST_FILE = 65536
TRAILER = 12
SHUT = 255
# A run that takes longer counts as one that never ends.
LONGEST_RUN = 120

# A drill, and what it has to print where that is known without the model.
Case = collections.namedtuple("Case", "kind name drill prints", defaults=[None])
Run = collections.namedtuple("Run", "lines complaint status")


# Files.


def read(path):
    with open(path, "rb") as file:
        return file.read()


def write(path, content):
    with open(path, "wb") as file:
        file.write(content)


# Document 01, "One drill, whole".
WHOLE_DRILL = read(os.path.join(ROOT, "examples", "whole-drill", "drill"))
WHOLE_DRILL_PRINTS = read(os.path.join(ROOT, "examples", "whole-drill", "prints"))


# Drill files from their parts.


def trailer(width, height, hunter, target, actions, offset):
    numbers = (width, 1), (height, 1), (hunter, 2), (target, 2), (actions, 2), (offset, 4)
    return b"".join(number.to_bytes(length, "little") for number, length in numbers)


def drill(width, height, hunter, target, plan, actions):
    return plan + b"".join(actions) + trailer(width, height, hunter, target, len(actions), len(plan))


def action(kind, cell=0, direction=0, cost=0):
    return bytes([kind]) + cell.to_bytes(2, "little") + bytes([direction, cost])


def change(cell, direction, cost):
    return action(1, cell, direction, cost)


def hunter_to(cell):
    return action(2, cell)


def target_to(cell):
    return action(3, cell)


SEARCH = action(4)


def with_byte(drill_bytes, at, byte):
    """The same drill with one byte changed."""
    return drill_bytes[:at] + bytes([byte]) + drill_bytes[at + 1 :]


def plan_of(width, height, cost_of_move):
    """A plan in which each move that stays in it costs what cost_of_move() says."""
    plan = bytearray()
    for row in range(height):
        for column in range(width):
            stays = row > 0, column + 1 < width, row + 1 < height, column > 0
            plan += bytes(cost_of_move() if move_stays else SHUT for move_stays in stays)
    return bytes(plan)


def open_plan(width, height):
    return plan_of(width, height, lambda: 1)


def drawn_action(cells, chance):
    """Any action; its cell may be just outside the plan, and its direction and cost may be refused."""
    cell = chance.randrange(cells + 1)
    drawn_change = change(cell, chance.randrange(5), chance.choice([0, 1, 3, 250, 251, SHUT]))
    return chance.choice([drawn_change, hunter_to(cell), target_to(cell), SEARCH, SEARCH])


# Drill files that are there or that the model draws.


def drawn_in(text):
    """The drill file of what a text draws and tells."""
    make = os.path.join(ROOT, "examples", "make")
    return subprocess.run([make, text], stdout=subprocess.PIPE, check=True).stdout


def examples():
    """The examples print what stands beside them, and are what their texts draw and tell. README.md has one too."""
    folder = os.path.join(ROOT, "examples")
    for name in sorted(os.listdir(folder)):
        if os.path.exists(os.path.join(folder, name, "drill")):
            stored = read(os.path.join(folder, name, "drill"))
            if drawn_in(os.path.join(folder, name, "README.md")) != stored:
                sys.exit(f"{PROGRAM}: examples/{name}/drill is not what its README.md draws and tells")
            yield Case("examples", name, stored, read(os.path.join(folder, name, "prints")))
    page = os.path.join(ROOT, "README.md")
    prints = re.search(rb"^```prints\n(.*?)^```$", read(page), re.MULTILINE | re.DOTALL)
    yield Case("examples", "README.md", drawn_in(page), prints.group(1))


def made(models, seed, folder):
    """Drills that the model's own generator draws. Every fourth is damaged; number 99 has as many actions as fit."""
    subprocess.run([os.path.join(models, "make_drills"), str(seed), "100", folder], check=True)
    for name in sorted(os.listdir(folder)):
        yield Case("made", name, read(os.path.join(folder, name)))


# Playing.


def start_once(command):
    """Starts the runner with no limit of time and for all to see, since the command may have to build it first."""
    if subprocess.run(command, input=WHOLE_DRILL, stdout=subprocess.DEVNULL).returncode != 0:
        sys.exit(f"{PROGRAM}: the runner does not start")


def play(command, stdin=subprocess.DEVNULL):
    # A session of its own, so that a run without end can be ended with all that the command has started.
    process = subprocess.Popen(
        command, stdin=stdin, stdout=subprocess.PIPE, stderr=subprocess.PIPE, start_new_session=True
    )
    try:
        lines, complaint = process.communicate(timeout=LONGEST_RUN)
    except subprocess.TimeoutExpired:
        os.killpg(process.pid, signal.SIGKILL)
        process.communicate()
        return Run(b"", b"no end after %d seconds\n" % LONGEST_RUN, None)
    return Run(lines, complaint, process.returncode)


def only_told(run):
    """Nothing printed, one line that says what is wrong, and a failure given back."""
    one_line = len(run.complaint.splitlines()) == 1 and run.complaint.endswith(b"\n")
    return run.lines == b"" and one_line and run.status not in (0, None)


class ThroughC:
    """A program of compare/library that is given each drill and makes its calls through the C interface."""

    def __init__(self, models, archive, name, who):
        subprocess.run([os.path.join(ROOT, "compare", "link"), models, archive, name], check=True)
        self.program = os.path.join(models, name)
        self.who = who
        self.outcomes = []

    def fault(self, path):
        """What is wrong with a drill there: nothing, or what was wanted and what came."""
        came = play([self.program, path])
        if (came.complaint, came.status) != (b"", 0):
            return self.who, Run(b"", b"", 0), came
        self.outcomes.append(came.lines.decode().strip())
        return None


class Rewriting(ThroughC):
    """Drills taken apart and written again, and what came of it."""

    def __init__(self, models, archive):
        super().__init__(models, archive, "rewrites", "the writer")

    def __str__(self):
        return f"through the C interface {counted(collections.Counter(self.outcomes))}"


class Explaining(ThroughC):
    """Drills whose answers the reasons are asked for, and how many of each kind there were."""

    def __init__(self, models, archive):
        super().__init__(models, archive, "explains", "the reasons")

    def __str__(self):
        counts = collections.Counter()
        for outcome in self.outcomes:
            words = outcome.split()
            counts.update({word: int(number) for number, word in zip(words[::2], words[1::2])})
        ways, moves, none, caught = (counts[word] for word in ("ways", "moves", "none", "caught"))
        return f"reasons of {ways:,} ways (through {moves:,} moves), {none:,} none, {caught:,} caught"


# The report.


def counted(counter):
    return ", ".join(f"{count:,} {name}" for name, count in sorted(counter.items()))


def first_difference(wanted, came):
    """The first line in which two runs differ, or else what differs beside the lines."""
    pairs = itertools.zip_longest(wanted.lines.splitlines(), came.lines.splitlines(), fillvalue=b"(no line)")
    for number, (line, other) in enumerate(pairs, 1):
        if line != other:
            return f"line {number}", line[:200], other[:200]
    return "the rest", *((run.lines[-20:], run.complaint[-200:], run.status) for run in (wanted, came))


def tell_fault(faults):
    """Tells of the smallest case at fault and keeps its drill."""
    case, (who, wanted, came) = faults[0]
    kept = os.path.join(tempfile.mkdtemp(prefix="drill-at-fault-"), "drill")
    write(kept, case.drill)
    print(f"{PROGRAM}: {len(faults)} at fault; the smallest, {case.name} ({case.kind}, {len(case.drill)} bytes), is kept as {kept}")
    where, as_wanted, as_came = first_difference(wanted, came)
    print(f"  {where}, wanted: {as_wanted}")
    print(f"  {where}, from {who}: {as_came}")
    if (came.complaint, came.status) != (b"", 0):
        print(f"  {who} ended with {came.status} and said {came.complaint[-200:]}")
