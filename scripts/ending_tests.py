"""Tests of .ci/run and scripts/test: how they end, and what of the caller's environment reaches the gate.

They run in a small tree of their own, with the Makefile of this one and a gate that does what a test asks for.
"""
import json
import os
import shutil
import subprocess
import tempfile
import unittest
from pathlib import Path

TOP = Path(__file__).resolve().parent.parent
COPIED = ".ci/run", "Makefile", "scripts/need", "scripts/test"

# A gate that keeps what environment reached it, and then ends in its own way.
KEEPS = "import json, os\njson.dump(dict(os.environ), open('build/reached', 'w'))\n"
SAYS = KEEPS + "print({0!r})\nopen('build/verdict', 'w').write({0!r} + '\\n')\nraise SystemExit({1})\n"
PASSES = SAYS.format("3 passed, 0 failed", 0)
FAILS = SAYS.format("3 passed, 2 failed", 1)

# What a make that called .ci/run may have left, and what its user may have set for it.
CALLERS = (
    {"MAKELEVEL": "1"}, {"MAKEFLAGS": "i"}, {"MAKEFLAGS": "n"}, {"MAKEFLAGS": "q"}, {"MAKEFLAGS": "t"}, {"MAKEFLAGS": "w"},
    {"MAKEFLAGS": "i", "MAKELEVEL": "1", "MFLAGS": "-i"}, {"GNUMAKEFLAGS": "-i"}, {"MAKEFILES": "caller.mk"},
    {"MAKEFLAGS": " -j2 --jobserver-auth=fifo:gone -- ARCHIVE=other.a", "MAKEOVERRIDES": "ARCHIVE=other.a"},
)
# What a shell takes from its environment before it reads its first line, and what leads its cd astray.
SHELLS = ({"SHELLOPTS": "noexec"}, {"BASH_ENV": "caller.sh"}, {"BASH_FUNC_make%%": "() { true; }"}, {"CDPATH": "astray"})
# What the Makefile, the scripts and the tools that they call would take from the environment.
OTHERS = ("ARCHIVE", "EMULATOR", "SEED", "CASES", "PREFIX", "DESTDIR", "VERSION", "CC", "CFLAGS", "CPATH", "LIBRARY_PATH",
          "CARGO_TARGET_DIR", "CARGO_BUILD_TARGET", "RUSTFLAGS", "RUSTC_WRAPPER", "RUST_TEST_NOCAPTURE", "RT_CUT",
          "PYTHONOPTIMIZE", "PYTHONPATH", "PKG_CONFIG_PATH", "BASH_ENV", "CDPATH", "LANG", "LC_MESSAGES")
NEEDED = "CARGO_HOME", "RUSTUP_HOME", "RATTLE_HOME", "TMPDIR", "http_proxy", "HTTPS_PROXY", "no_proxy"


class Ending(unittest.TestCase):
    def setUp(self):
        # Not where the machine keeps its temporary files: programs may be barred from running there.
        (TOP / "build").mkdir(exist_ok=True)
        folder = tempfile.TemporaryDirectory(dir=TOP / "build")
        self.addCleanup(folder.cleanup)
        self.top = Path(folder.name)
        for name in COPIED:
            (self.top / name).parent.mkdir(exist_ok=True)
            shutil.copy(TOP / name, self.top / name)
        (self.top / "crates").mkdir()
        (self.top / "astray" / ".ci").mkdir(parents=True)
        (self.top / "caller.mk").write_text("test: caller\ncaller:\n\t@exit 1\n")
        (self.top / "caller.sh").write_text("exit 0\n")

    def ended(self, gate, command=(".ci/run",), **caller):
        """The exit status and the last line of a command, and the environment that reached the gate."""
        (self.top / "scripts" / "gate.py").write_text(gate)
        env = {"PATH": os.environ["PATH"], "HOME": os.environ.get("HOME", "/"), **caller}
        done = subprocess.run(command, cwd=self.top, env=env, stdin=subprocess.DEVNULL, stdout=subprocess.PIPE,
                              stderr=subprocess.STDOUT, timeout=60)
        kept = self.top / "build" / "reached"
        reached = json.loads(kept.read_text()) if kept.is_file() else None
        return done.returncode, done.stdout.decode(errors="replace").splitlines()[-1:], reached

    def test_a_gate_that_passes_and_one_that_fails(self):
        self.assertEqual(self.ended(PASSES)[:2], (0, ["3 passed, 0 failed"]))
        self.assertEqual(self.ended(FAILS)[:2], (1, ["3 passed, 2 failed"]))

    def test_a_gate_without_a_verdict(self):
        for gate in ("", "raise SystemExit(1)\n", "raise ValueError\n", "import os\nos.kill(os.getpid(), 9)\n"):
            for command in ([".ci/run"], ["scripts/test"]):
                with self.subTest(gate=gate, command=command):
                    self.assertEqual(self.ended(gate, command)[:2], (1, ["0 passed, 1 failed"]))

    def test_a_verdict_that_the_exit_status_denies(self):
        denied = ("3 passed, 0 failed", 1), ("0 passed, 0 failed", 0), ("all is well", 0), ("3 passed, 1 failed", 0)
        for said, status in denied:
            with self.subTest(said=said, status=status):
                ended, last, _ = self.ended(SAYS.format(said, status))
                self.assertEqual(ended, 1)
                self.assertRegex(last[0], r"^\d+ passed, [1-9]\d* failed$")

    def test_an_old_verdict_does_not_count(self):
        (self.top / "build").mkdir()
        (self.top / "build" / "verdict").write_text("3 passed, 0 failed\n")
        (self.top / "scripts" / "test").write_text("")
        self.assertEqual(self.ended("")[:2], (1, ["0 passed, 1 failed"]))

    def test_no_make(self):
        (self.top / "scripts" / "need").write_text("#!/bin/sh\nexit 1\n")
        self.assertEqual(self.ended(PASSES)[:2], (1, ["0 passed, 1 failed"]))

    def test_what_a_calling_make_or_shell_left_changes_nothing(self):
        for caller in CALLERS + SHELLS:
            with self.subTest(caller=caller):
                self.assertEqual(self.ended(PASSES, **caller)[:2], (0, ["3 passed, 0 failed"]))
                self.assertEqual(self.ended(FAILS, **caller)[:2], (1, ["3 passed, 2 failed"]))

    def test_what_reaches_the_gate(self):
        caller = {name: "/outside" for name in OTHERS}
        words = [f"{name}=/outside" for name in ("ARCHIVE", "EMULATOR", "SEED", "CASES")]
        for command in ([".ci/run"], ["make", "test"], ["make", "test", *words], ["make", "-e", "-j2", "test", *words]):
            with self.subTest(command=command):
                reached = self.ended(PASSES, command, **caller)[2]
                self.assertEqual([name for name in OTHERS if reached.get(name) == "/outside"], [])
                self.assertEqual([name for name in reached if name.startswith("MAKE") or name == "MFLAGS"], [])

    def test_what_the_tools_need_reaches_the_gate(self):
        reached = self.ended(PASSES, **{name: "/outside" for name in NEEDED})[2]
        self.assertEqual([name for name in NEEDED if reached.get(name) != "/outside"], [])
        self.assertEqual(reached["HOME"], os.environ.get("HOME", "/"))
