"""Counts what each call of the library costs, beside libxml2, and holds it to the targets.

Every figure is a number of x86-64 instructions, the difference of two runs; only the stack is in bytes. What
a call gives is compared with what it must give: a wrong answer has no figure. A call that the archive does
not have yet is not measured, and its rows say so. The exit status is 0 if no target is missed, 1 if one is or
a call answers wrongly, 2 if nothing could be measured.

    bench.py [--stack] [ARCHIVE]    an archive in place of the one that rt makes; --stack: the stack alone
"""
import platform
import re
import subprocess
import sys
from pathlib import Path

import procedures

TOP = Path(__file__).resolve().parent.parent
BUILD = TOP / "build" / "bench"
FILES = BUILD / "files"
CRATE = "seqp_c"
ARCHIVE = TOP / "crates" / CRATE / "out" / f"lib{CRATE}.a"

COMPILER = "x86_64-linux-gnu-gcc"
COMPILER_PACKAGES = {"x86_64": "gcc,libc6-dev"}
CROSS_PACKAGES = "gcc-x86-64-linux-gnu,libc6-dev-amd64-cross"

# The ratios to libxml2 that are asked for, by procedure; a procedure without one is shown and not judged.
JUDGE_TARGETS = {**dict.fromkeys(["P6", "P7", "P8", "P10"], "1/5"), **dict.fromkeys(["P1", "P4"], "1/3")}
ONE_EVENT_TARGETS = {**dict.fromkeys(["P6", "P7", "P8", "P10"], "1/3"), **dict.fromkeys(["P1", "P4"], "1/2")}
EVENT_TARGETS = dict.fromkeys(["P3", "P6", "P7", "P9"], "1")
# So many instructions at most, whatever libxml2 takes; the largest procedure alike with codes of one word and of both.
LARGEST = ("P10", "P10 mod 128")
JUDGE_LIMITS = {"P1": 1_847, **dict.fromkeys(LARGEST, 56_000)}
ONE_EVENT_LIMITS = dict.fromkeys(LARGEST, 76_000)
MIDRUN_LIMITS = dict.fromkeys(LARGEST, 79_000)
PROMPT_LIMITS = dict.fromkeys(LARGEST, 76_000)
# Twice the nodes may cost so many times as much.
DOUBLING_TARGET = "2.2"

# The header states the stack of a call in whole 1,024 bytes, and no more than so many beyond what is measured.
HEADER = TOP / "include" / "seqp.h"
STATED = re.compile(r"^#define SEQ_(\w+)_STACK (\d+)$", re.M)
MOST_BEYOND = 2048
# And so many bytes at most, where a call does not nest in the number of nodes.
STACK_LIMITS = dict.fromkeys(["judge", "follow", "prompt"], 32_000)

# libxml2's cost of a repetition settles only after the first, when its memory is used again.
LIBXML2_REPEATS = 10
# A shorter run says nothing on the cost of an event in bulk.
LEAST_BULK = 4096

CALLS = ("judge", "follow", "write", "check", "prompt")


class Failed(Exception):
    """Why a figure cannot be had."""


def say(text):
    print(text, flush=True)


def command(*words):
    done = subprocess.run([str(word) for word in words], cwd=TOP, stdin=subprocess.DEVNULL)
    if done.returncode != 0:
        raise Failed(f"{words[0]} ended with status {done.returncode}")


def output(*words):
    """What a command writes on standard output and on standard error."""
    done = subprocess.run([str(word) for word in words], cwd=TOP, stdin=subprocess.DEVNULL, capture_output=True)
    if done.returncode != 0:
        raise Failed(f"{words[0]} {words[1]}: {done.stderr.decode(errors='replace').strip()}")
    return done.stdout, done.stderr.decode()


def counted(program, *words):
    """How many instructions a run of a program takes, and what it writes."""
    written, errors = output("scripts/insn", program, *words)
    return int(errors.split()[-1]), written


def file_of(name, kind):
    return (FILES / f"{name}.{kind}").relative_to(TOP)


# Building.


def build_archive():
    """Has rt prove and make the archive."""
    say(f"proving and making the archive of {CRATE}")
    command("scripts/made", CRATE)
    return ARCHIVE


def build_measure(archive):
    program = BUILD / "measure"
    command(COMPILER, "-static", "-O2", "-Wall", "-Wextra", "-Iinclude", "bench/measure.c", archive, "-o", program)
    return program


def build_libxml2():
    """The libraries that libxml2 reads compressed files and foreign letters with are not linked: nothing calls them."""
    command("scripts/libxml2")
    program, root = BUILD / "libxml2", "build/libxml2/usr"
    command(COMPILER, "-static", "-O2", "-Wall", "-Wextra", f"-I{root}/include/libxml2", f"-I{root}/include",
            "bench/libxml2.c", f"{root}/lib/x86_64-linux-gnu/libxml2.a", "-lm",
            "-Wl,--unresolved-symbols=ignore-all,--no-warnings", "-o", program)
    return program


# Measuring.


class Ours:
    """The library's calls."""

    def __init__(self, program):
        self.program = program
        self.laid = {name: procedures.Laid(tree) for name, (tree, _) in procedures.ALL.items()}

    def must_give(self, call, name, given):
        """What the call prints where it does its work, from the start of the run."""
        if call == "judge":
            return b"0 0 0 0 0 0 0\n"
        if call == "follow":
            run = file_of(name, "run").read_bytes()[:given]
            return b"0 %d %d\n" % (len(run), 0 if self.laid[name].is_word(run) else 1)
        if call == "midrun":
            return b"0 1 %d\n" % (0 if self.laid[name].is_word(file_of(name, "run").read_bytes()[:given]) else 1)
        if call == "write":
            record = file_of(name, "record").read_bytes() if given else b""
            return b"0 %d\n" % len(record) + record
        if call == "check":
            return b"0 1\n"
        return b"0 %d %d\n" % self.laid[name].first()

    def arguments(self, call, name, given):
        return file_of(name, "seqp"), file_of(name, "record" if call == "check" else "run"), given

    def cost(self, call, name, given):
        """The instructions of one call that is lent so many bytes of the run, or of the record."""
        words = [call, *self.arguments(call, name, given)]
        once, written = counted(self.program, *words, 1)
        twice, again = counted(self.program, *words, 2)
        if written != self.must_give(call, name, given) or again != written:
            raise Failed(f"{call} of {name} gives {written[:40]!r}, not {self.must_give(call, name, given)[:40]!r}")
        return twice - once

    def stack(self, call, name, given):
        return int(output("scripts/run", self.program, "stack", call, *self.arguments(call, name, given))[0])


class Theirs:
    """libxml2's automata; each figure is measured once."""

    def __init__(self, program):
        self.program = program
        self.version = output("scripts/run", program, "version")[0].decode().strip()
        self.known = {}

    def cost(self, what, name, repeats):
        if (what, name) not in self.known:
            words = [self.program, what, file_of(name, "seqp"), file_of(name, "run")]
            first, last = counted(*words, 1)[0], counted(*words, 1 + repeats)[0]
            self.known[what, name] = (last - first) / repeats
        return self.known[what, name]

    def compile(self, name):
        return self.cost("compile", name, LIBXML2_REPEATS)

    def push(self, name):
        return self.cost("push", name, 1) / file_of(name, "run").stat().st_size


# The table.

HEADINGS = ("what", "procedure", "ours", "libxml2", "ratio", "target", "verdict")
WIDTHS = (28, 13, 11, 11, 7, 7, 0)


def line(cells):
    return "".join(
        cell.ljust(width) if i in (0, 1) or width == 0 else cell.rjust(width) + " " * (i == 5) * 2
        for i, (cell, width) in enumerate(zip(cells, WIDTHS))).rstrip()


def figure(value):
    return "-" if value is None else f"{value:,.0f}" if value >= 1000 else f"{value:,.1f}".removesuffix(".0")


def value_of(target):
    over, _, under = target.partition("/")
    return float(over) / float(under or 1)


class Table:
    """Prints a row as soon as it is measured, and counts the verdicts."""

    def __init__(self):
        self.met = self.missed = self.wrong = 0
        say(line(HEADINGS))

    def row(self, what, name, ours, against, target=None, theirs=None, limit=None):
        """A row; ours is measured here, and held to what it is compared with, and to a limit of its own."""
        ratio, verdict = "", ""
        try:
            mine = ours()
        except Failed as reason:
            self.wrong += 1
            mine, verdict = None, f"FAILED: {reason}"
        if mine is not None and against:
            ratio = f"{mine / against:.3f}"
        if mine is not None and against and target:
            verdict = self.judged(mine <= value_of(target) * against)
        if mine is not None and limit:
            verdict += f"{', ' * bool(verdict)}{self.judged(mine <= limit)} {limit:,}"
        say(line((what, name, figure(mine), figure(theirs), ratio, target or "", verdict)))
        return mine

    def stack_row(self, what, ours, stated, limit):
        """A row of bytes; the header states as many or somewhat more."""
        mine = ours()
        held = stated is not None and mine <= stated <= mine + MOST_BEYOND
        verdict = f"{self.judged(held)}, the header states {stated or 0:,}"
        if limit:
            verdict += f", {self.judged(mine <= limit)} {limit:,}"
        say(line((what, "deepest", figure(mine), "", "", "", verdict)))

    def judged(self, held):
        self.met, self.missed = self.met + held, self.missed + (not held)
        return "met" if held else "MISSED"

    def end(self):
        say("")
        say(f"{self.met} targets met, {self.missed} missed, {self.wrong} figures failed")
        return 1 if self.missed or self.wrong else 2 if self.met == 0 else 0


class Bench:
    def __init__(self, ours, theirs):
        self.ours, self.theirs, self.table = ours, theirs, Table()

    def compare(self, what, name, ours, theirs, target, limit=None):
        self.table.row(what, name, ours, theirs, target, theirs, limit)

    def judge(self):
        for name in procedures.NAMED:
            self.compare("Judge a file", name, lambda: self.ours.cost("judge", name, 0),
                         self.theirs.compile(name), JUDGE_TARGETS.get(name), JUDGE_LIMITS.get(name))

    def follow_one(self):
        for name in procedures.NAMED:
            self.compare("Follow one event", name, lambda: self.ours.cost("follow", name, 1),
                         self.theirs.compile(name) + self.theirs.push(name), ONE_EVENT_TARGETS.get(name),
                         ONE_EVENT_LIMITS.get(name))

    def follow_midrun(self):
        """One event from the state that half of the run leads to."""
        for name, (_, run) in procedures.NAMED.items():
            self.compare("Follow one event mid-run", name, lambda: self.ours.cost("midrun", name, len(run) // 2 + 1),
                         self.theirs.compile(name) + self.theirs.push(name), None, MIDRUN_LIMITS.get(name))

    def each_event(self, what, cost):
        for name, (_, run) in procedures.NAMED.items():
            if len(run) >= LEAST_BULK:
                self.compare(what, name, lambda: cost(name, len(run)) / len(run),
                             self.theirs.push(name), EVENT_TARGETS.get(name))

    def in_bulk(self):
        def beyond_the_call(name, length):
            return self.ours.cost("follow", name, length) - self.ours.cost("follow", name, 0)

        self.each_event("Follow in bulk, an event", beyond_the_call)
        self.each_event("Write, an event", lambda name, _: self.ours.cost("write", name, "all"))
        self.each_event("Check, an event", lambda name, _: self.ours.cost("check", name, "all"))

    def prompt_at_start(self):
        """libxml2 has no such call."""
        for name in procedures.NAMED:
            self.table.row("Prompt at the start", name, lambda: self.ours.cost("prompt", name, 0), None,
                           limit=PROMPT_LIMITS.get(name))

    def growth(self):
        """What a call costs that has little to do besides reading the file, as the file grows."""
        for call, what, given in (("judge", "Judge", 0), ("follow", "Follow one event", 1),
                                  ("write", "Write no event", 0), ("check", "Check no item", 0),
                                  ("prompt", "Prompt", 0)):
            for shape in procedures.SHAPES:
                self.growth_of(call, f"{what}, growth", given, shape)

    def growth_of(self, call, what, given, shape):
        before = None
        for nodes in procedures.SIZES:
            name, target = f"{shape} {nodes}", DOUBLING_TARGET if nodes != procedures.SIZES[0] else None
            before = self.table.row(what, name, lambda: self.ours.cost(call, f"{shape}{nodes}", given),
                                    before, target)

    def run(self):
        self.judge()
        self.follow_one()
        self.follow_midrun()
        self.in_bulk()
        self.prompt_at_start()
        self.growth()
        stack_rows(self.ours, self.table)
        return self.table.end()


def stated_stack():
    """The bytes that the header states, by call."""
    return {call.lower(): int(stack) for call, stack in STATED.findall(HEADER.read_text(encoding="utf-8"))}


def stack_rows(ours, table):
    """What each call takes on the deepest procedures, held to what the header states."""
    stated = stated_stack()
    for call in CALLS:
        table.stack_row(f"{call.capitalize()}, stack in bytes", lambda: worst_stack(ours, call), stated.get(call),
                        STACK_LIMITS.get(call))


def worst_stack(ours, call):
    return max(ours.stack(call, name, "all") for name in procedures.DEEPEST)


def stack_alone(ours):
    table = Table()
    stack_rows(ours, table)
    return table.end()


def main(words):
    only_stack = words[:1] == ["--stack"]
    archives = words[only_stack:]
    command("scripts/need", f"{COMPILER}={COMPILER_PACKAGES.get(platform.machine(), CROSS_PACKAGES)}")
    say("making the procedures, their runs and their records")
    procedures.write_all(FILES)
    ours = Ours(build_measure(Path(archives[0]).resolve() if archives else build_archive()))
    if only_stack:
        return stack_alone(ours)
    theirs = Theirs(build_libxml2())
    say(f"libxml2 {theirs.version}")
    say("")
    return Bench(ours, theirs).run()


if __name__ == "__main__":
    try:
        sys.exit(main(sys.argv[1:]))
    except (Failed, OSError) as reason:
        say(f"bench: {reason}")
        sys.exit(2)
