"""Counting the steps of a test script: each is a command that must end well."""
import re
import subprocess
import time
from pathlib import Path

TOP = Path(__file__).resolve().parent.parent
VERDICT = re.compile(r"^(\d+) passed, (\d+) failed$", re.M)
MOST_SECONDS = 1800


class Count:
    def __init__(self):
        self.passed = self.failed = 0

    def add(self, passed, failed):
        self.passed, self.failed = self.passed + passed, self.failed + failed

    def expect(self, what, given, wanted):
        """One comparison; gives whether the two are equal."""
        good = given == wanted
        print(f"-- {what}: {'ok' if good else f'FAILED: it is {given!r}, and not {wanted!r}'}", flush=True)
        self.add(good, not good)
        return good

    def step(self, what, command, output=None):
        """One command that must end well; gives whether it did, and with `output` whether it printed that."""
        began = time.monotonic()
        print(f"-- {what}", flush=True)
        done = subprocess.run([str(word) for word in command], cwd=TOP, stdin=subprocess.DEVNULL,
                              stdout=subprocess.PIPE if output is not None else None, timeout=MOST_SECONDS)
        good = done.returncode == 0
        if output is not None and done.stdout.decode(errors="replace") != output:
            print(f"it prints\n{done.stdout.decode(errors='replace')}and not\n{output}", end="")
            good = False
        print(f"-- {what}: {'ok' if good else 'FAILED'}, {time.monotonic() - began:.1f} s", flush=True)
        self.add(good, not good)
        return good

    def cases(self, program):
        """Runs a test program and adds what it counted; a program that ends early has failed."""
        child = subprocess.Popen(["scripts/run", str(program)], cwd=TOP, stdin=subprocess.DEVNULL,
                                 stdout=subprocess.PIPE)
        said = ""
        for line in child.stdout:
            said += line.decode(errors="replace")
            print(line.decode(errors="replace"), end="", flush=True)
        status, verdicts = child.wait(timeout=MOST_SECONDS), VERDICT.findall(said)
        passed, failed = map(int, verdicts[-1]) if verdicts else (0, 1)
        self.add(passed, failed + (status != 0 and failed == 0))

    def end(self):
        print(f"{self.passed} passed, {self.failed} failed")
        return 1 if self.failed or self.passed == 0 else 0
