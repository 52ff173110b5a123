"""The parts of the gate, run in turn and counted.

A part is a name, a command and a way to count what the command says it did. A part fails if its
command is missing, does not end well, or did nothing. What each part printed is shown as it comes.
"""
import codecs
import os
import re
import selectors
import shutil
import signal
import subprocess
import sys
import time
from pathlib import Path

TOP = Path(__file__).resolve().parent.parent
BUILD = TOP / "build"
# The whole gate has 90 minutes; a part that would go beyond these is stopped and counted as failed.
MOST_SECONDS = 85 * 60
# A part that prints nothing for so long is named again, so that a reader sees that it is alive.
QUIET_SECONDS = 60

VERDICT = re.compile(r"^(\d+) passed, (\d+) failed$")
# What rt ci says where all is well: by a limit or bad, an edit shows nothing.
RT_OK = re.compile(r"^rt: ok; handles allowed: none; must-fail edits: (\d+) refused;", re.M)
COMPARED = re.compile(r"^(\d+) compared, (\d+) differ$", re.M)
# Fewer comparisons than these cover too little.
LEAST_COMPARED = 20_000
STORED = "stored-cases: crates/answers holds what the second matcher makes"
CARGO_BEGINS = re.compile(r"^running (\d+) tests?$", re.M)
CARGO_RESULT = re.compile(r"^test result: \w+\. (\d+) passed; (\d+) failed; (\d+) ignored; (\d+) measured; "
                          r"(\d+) filtered out;", re.M)


class Unfit(Exception):
    """What a part printed does not show that it did its work."""


def seconds(since):
    return f"{time.monotonic() - since:.0f} s"


def run(name, command, env, until):
    """Runs a command, shows what it prints, and gives its exit status and its whole output."""
    began = time.monotonic()
    child = subprocess.Popen(
        command, cwd=TOP, env=env, stdin=subprocess.DEVNULL, stdout=subprocess.PIPE,
        stderr=subprocess.STDOUT, start_new_session=True)
    said, decoder = "", codecs.getincrementaldecoder("utf-8")("replace")
    with selectors.DefaultSelector() as ready:
        ready.register(child.stdout, selectors.EVENT_READ)
        while True:
            left = until - time.monotonic()
            if left <= 0:
                os.killpg(child.pid, signal.SIGKILL)
                child.wait()
                raise Unfit("stopped: the gate's time is up")
            if not ready.select(min(left, QUIET_SECONDS)):
                print(f"   .. still at {name}, {seconds(began)}", flush=True)
                continue
            piece = os.read(child.stdout.fileno(), 65536)
            if not piece:
                break
            text = decoder.decode(piece)
            said += text
            print(text, end="", flush=True)
    return child.wait(), said


def last_line(text):
    lines = text.rstrip("\n").splitlines()
    return lines[-1] if lines else ""


def counted_once(text):
    """A command that says no number: it is one test."""
    return 1, 0


def counted_by_words(words):
    """A command that says no number, and these words where it has done its work: it is one test."""
    def count(text):
        if last_line(text) != words:
            raise Unfit(f"its last line is not: {words}")
        return 1, 0
    return count


def counted_by_verdict(text):
    """The numbers of a last line "N passed, M failed"."""
    found = VERDICT.match(last_line(text))
    if not found:
        raise Unfit("its last line is no verdict")
    return int(found[1]), int(found[2])


def counted_by_rt(text, top=TOP):
    """The verdict of rt ci, which has to count every crate of the tree and every must-fail edit, and to call none bad."""
    passed, failed = counted_by_verdict(text)
    crates, edits = listed_crates(top), list(top.glob("crates/*/must-fail/*.edit"))
    unlisted = {path.name for path in top.glob("crates/*") if path.is_dir()} - set(crates)
    if unlisted:
        raise Unfit(f"crates.txt does not list {', '.join(sorted(unlisted))}")
    if failed == 0 and passed < len(crates) + len(edits):
        raise Unfit(f"it counted {passed}, and there are {len(crates)} crates and {len(edits)} must-fail edits")
    told = RT_OK.findall(text)
    if failed == 0 and told != [str(len(edits))]:
        raise Unfit(f"it has no line rt: ok with {len(edits)} must-fail edits refused, none bad, and no handle")
    return passed, failed


def counted_by_comparison(text):
    """The numbers of a line "N compared, D differ"."""
    found = COMPARED.findall(text)
    if len(found) != 1:
        raise Unfit("it says no number of comparisons")
    compared, differ = map(int, found[0])
    if compared < LEAST_COMPARED:
        raise Unfit(f"it compared {compared}, and {LEAST_COMPARED} are asked for")
    return compared - differ, differ


def counted_by_cargo(text):
    """The sum over the test programs of one cargo package. A test that was ignored or left out has failed."""
    began = sum(map(int, CARGO_BEGINS.findall(text)))
    results = [tuple(map(int, numbers)) for numbers in CARGO_RESULT.findall(text)]
    if began == 0:
        raise Unfit("no test ran")
    passed, failed, ignored, measured, left_out = map(sum, zip((0, 0, 0, 0, 0), *results))
    # A program that ends in the midst of a test, with status 0, says no result.
    if passed + failed + ignored + measured != began:
        raise Unfit(f"it began {began} tests, and told the result of {passed + failed + ignored + measured}")
    return passed, failed + ignored + left_out


def listed_crates(top=TOP):
    text = (top / "crates.txt").read_text(encoding="utf-8")
    return [line.split(":")[0].split()[0] for line in text.splitlines() if ":" in line.split("#")[0]]


def parts():
    """Name, command, way to count, further environment; in the order in which they run."""
    yield "the gate's own tests", ["python3", "scripts/gate-tests"], counted_by_verdict, {}
    # The layout of every file is a part of it.
    yield "every proof, must-fail edit and program", ["rt", "ci"], counted_by_rt, {}
    yield "why each must-fail edit was refused", ["python3", "scripts/must-fail-logs"], counted_by_verdict, {}
    yield "what the page of promises cites", ["python3", "scripts/promises-page"], counted_by_verdict, {}
    yield "the program on files at the limits", ["python3", "scripts/program-cases"], counted_by_verdict, {}
    yield "the stored cases, made anew", ["bash", "scripts/stored-cases", "--check"], counted_by_words(STORED), {}
    yield "the library beside the second matcher", ["bash", "scripts/compare"], counted_by_comparison, {}
    for manifest in sorted(TOP.glob("tests/*/Cargo.toml")):
        name = manifest.parent.name
        command = ["cargo", "test", "--release", "--offline", "--manifest-path", f"tests/{name}/Cargo.toml"]
        yield f"the tests of tests/{name}", command, counted_by_cargo, {"CARGO_TARGET_DIR": str(BUILD / "cargo" / name)}
    yield "the procedures of examples", ["python3", "scripts/procedures", "--check"], counted_by_verdict, {}
    yield "what makes procedures of sources", ["python3", "scripts/procedures-tests"], counted_by_verdict, {}
    yield "the header and the archive from C", ["python3", "scripts/c-tests"], counted_by_verdict, {}
    yield "what make install puts into place", ["python3", "scripts/install-tests"], counted_by_verdict, {}
    yield "the station on its scripts", ["python3", "scripts/station-tests"], counted_by_verdict, {}


# Commands that Debian has, by package; rt comes with the machine.
PACKAGES = {"cargo": "cargo"}


def present(tool):
    """Whether a command is there, after an attempt to install it."""
    if shutil.which(tool) is None and tool in PACKAGES:
        subprocess.run(["scripts/need", f"{tool}={PACKAGES[tool]}"], cwd=TOP, stdin=subprocess.DEVNULL)
    return shutil.which(tool) is not None


def outcome(name, command, count, env, until):
    """What a part adds to the verdict, and why, where it failed."""
    if not present(command[0]):
        return 0, 1, f"{command[0]} is not on this machine"
    try:
        status, text = run(name, command, {**os.environ, **env}, until)
        if count is counted_by_rt:
            BUILD.mkdir(exist_ok=True)
            (BUILD / "rt-ci.log").write_text(text, encoding="utf-8")
        passed, failed = count(text) if status == 0 or count is not counted_once else (0, 1)
    except (Unfit, OSError) as reason:
        return 0, 1, str(reason)
    if status != 0 and failed == 0:
        return passed, 1, f"exit status {status}"
    if passed + failed == 0:
        return 0, 1, "it did nothing"
    return passed, failed, f"{failed} failed" if failed else ""


def main():
    until = time.monotonic() + MOST_SECONDS
    passed, failed, lines = 0, 0, []
    for name, command, count, env in parts():
        print(f"== {name}: {' '.join(command)}", flush=True)
        began = time.monotonic()
        good, bad, why = outcome(name, command, count, env, until)
        passed, failed = passed + good, failed + bad
        word = "FAILED" if bad else "ok"
        lines.append(f"{word:6} {name}: {good} passed, {bad} failed, {seconds(began)}{': ' + why if why else ''}")
        print(lines[-1], flush=True)
    print("== summary")
    print("\n".join(lines))
    verdict = f"{passed} passed, {failed} failed"
    BUILD.mkdir(exist_ok=True)
    (BUILD / "verdict").write_text(verdict + "\n", encoding="utf-8")
    print(verdict, flush=True)
    return 1 if failed or passed == 0 else 0


if __name__ == "__main__":
    sys.exit(main())
