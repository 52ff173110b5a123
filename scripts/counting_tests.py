"""Tests of how the gate counts its parts."""
import contextlib
import io
import re
import tempfile
import types
import unittest
from pathlib import Path

import gate
from loading import load


def cargo(passed, failed=0, ignored=0, filtered=0):
    """What cargo prints of one test program."""
    word, began = "FAILED" if failed else "ok", passed + failed + ignored
    return (f"running {began} test{'' if began == 1 else 's'}\n\ntest result: {word}. {passed} passed; {failed} failed; "
            f"{ignored} ignored; 0 measured; {filtered} filtered out; finished in 0.00s\n")


class Counting(unittest.TestCase):
    def test_a_verdict(self):
        self.assertEqual(gate.counted_by_verdict("a\n12 passed, 3 failed\n"), (12, 3))

    def test_no_verdict(self):
        for text in ("", "rt: ok", "1 passed, 0 failed\nmore\n"):
            with self.assertRaises(gate.Unfit):
                gate.counted_by_verdict(text)

    def test_a_comparison(self):
        self.assertEqual(gate.counted_by_comparison("a\n20000 compared, 0 differ\n"), (20000, 0))
        self.assertEqual(gate.counted_by_comparison("a\n20001 compared, 3 differ\nthe outcomes differ\n"), (19998, 3))

    def test_no_comparison_or_too_small_a_one(self):
        for text in ("", "19999 compared, 0 differ\n", "case 1: 20000 compared, 0 differ\n"):
            with self.assertRaises(gate.Unfit):
                gate.counted_by_comparison(text)

    def test_cargo_adds_up_its_programs(self):
        self.assertEqual(gate.counted_by_cargo(cargo(3) + "x\n" + cargo(4, failed=2)), (7, 2))

    def test_cargo_without_a_test(self):
        for text in ("error: could not compile", cargo(0)):
            with self.assertRaises(gate.Unfit):
                gate.counted_by_cargo(text)

    def test_a_cargo_test_that_was_ignored_or_left_out_has_failed(self):
        self.assertEqual(gate.counted_by_cargo(cargo(3, ignored=2)), (3, 2))
        self.assertEqual(gate.counted_by_cargo(cargo(0, ignored=5)), (0, 5))
        self.assertEqual(gate.counted_by_cargo(cargo(3, filtered=1)), (3, 1))

    def test_a_cargo_program_that_ends_before_its_result(self):
        with self.assertRaises(gate.Unfit):
            gate.counted_by_cargo(cargo(3) + "running 4 tests\n")

    def test_words_that_must_come_last(self):
        count = gate.counted_by_words("all is well")
        self.assertEqual(count("a\nall is well\n"), (1, 0))
        for text in ("", "all is well\nmore\n"):
            with self.assertRaises(gate.Unfit):
                count(text)


class Tests(unittest.TestCase):
    """How the gate's own tests are counted."""

    def counted(self, **tests):
        module = types.ModuleType("few_tests")
        module.Few = type("Few", (unittest.TestCase,), tests)
        with contextlib.redirect_stdout(io.StringIO()):
            return load("gate-tests").counted([module])

    def test_tests_that_pass_and_fail(self):
        self.assertEqual(self.counted(test_a=lambda test: None, test_b=lambda test: test.fail()), (1, 1))

    def test_a_test_that_is_left_out_or_expected_to_fail(self):
        self.assertEqual(self.counted(test_a=unittest.skip("later")(lambda test: None)), (0, 1))
        self.assertEqual(self.counted(test_a=unittest.expectedFailure(lambda test: test.fail())), (0, 1))

    def test_a_file_without_a_test(self):
        self.assertEqual(self.counted(), (0, 1))


class Rt(unittest.TestCase):
    """A tree of two crates with three edits, of which rt ci has to count each."""

    OK = "rt: ok; handles allowed: none; must-fail edits: 3 refused; every proof and must-fail edit was done in this run\n"

    def setUp(self):
        folder = tempfile.TemporaryDirectory()
        self.addCleanup(folder.cleanup)
        self.top = Path(folder.name)
        for edit in ("one/must-fail/a.edit", "one/must-fail/b.edit", "two/must-fail/a.edit"):
            path = self.top / "crates" / edit
            path.parent.mkdir(parents=True, exist_ok=True)
            path.write_text("")
        self.list_crates("# NAME: crates\none:\ntwo staticlib: one # both\n")

    def list_crates(self, text):
        (self.top / "crates.txt").write_text(text)

    def test_every_crate_and_edit_is_counted(self):
        self.assertEqual(gate.counted_by_rt(self.OK + "5 passed, 0 failed\n", self.top), (5, 0))
        self.assertEqual(gate.counted_by_rt("1 passed, 2 failed\n", self.top), (1, 2))

    def test_one_is_not_counted(self):
        for text in ("0 passed, 0 failed\n", "4 passed, 0 failed\n"):
            with self.assertRaises(gate.Unfit):
                gate.counted_by_rt(self.OK + text, self.top)

    def test_an_edit_that_is_bad_or_met_a_limit_and_a_handle(self):
        for said in ("", "rt: ok\n", self.OK.replace("3 refused", "3 refused, 1 bad"), self.OK.replace("3", "2"),
                     self.OK.replace("3 refused", "3 refused, 1 of them only by a limit"), self.OK.replace("none", "Wait")):
            with self.subTest(said=said), self.assertRaises(gate.Unfit):
                gate.counted_by_rt(said + "5 passed, 0 failed\n", self.top)

    def test_crates_that_are_not_listed(self):
        for listed in ("", "# one:\n# two:\n", "one:\n"):
            self.list_crates(listed)
            with self.assertRaises(gate.Unfit):
                gate.counted_by_rt(self.OK + "5 passed, 0 failed\n", self.top)


class Parts(unittest.TestCase):
    def outcome(self, command, count=gate.counted_by_verdict, seconds=60):
        return gate.outcome("x", command, count, {}, gate.time.monotonic() + seconds)[:2]

    def test_a_missing_tool_and_a_failing_command(self):
        self.assertEqual(self.outcome(["no-such-tool"], gate.counted_once), (0, 1))
        self.assertEqual(self.outcome(["false"], gate.counted_once), (0, 1))
        self.assertEqual(self.outcome(["true"], gate.counted_once), (1, 0))

    def test_a_missing_script_and_an_empty_one(self):
        self.assertEqual(self.outcome(["python3", "scripts/no-such-script"]), (0, 1))
        self.assertEqual(self.outcome(["python3", "/dev/null"]), (0, 1))

    def test_no_script_of_ours_passes_by_saying_nothing(self):
        for name, command, count, _ in gate.parts():
            if any(word.startswith("scripts/") for word in command):
                with self.subTest(name=name), self.assertRaises(gate.Unfit):
                    count("")

    def test_a_part_that_did_nothing(self):
        self.assertEqual(self.outcome(["echo", "0 passed, 0 failed"]), (0, 1))

    def test_a_verdict_and_then_a_bad_end(self):
        self.assertEqual(self.outcome(["sh", "-c", "echo 3 passed, 0 failed; exit 1"]), (3, 1))
        self.assertEqual(self.outcome(["sh", "-c", "echo 3 passed, 0 failed; kill -9 $$"]), (3, 1))
        self.assertEqual(self.outcome(["sh", "-c", "echo 3 passed, 0 failed; echo lost >&2"]), (0, 1))

    def test_a_failure_and_then_a_good_end(self):
        self.assertEqual(self.outcome(["echo", "3 passed, 2 failed"]), (3, 2))

    def test_time_that_is_up(self):
        self.assertEqual(self.outcome(["sleep", "60"], gate.counted_once, seconds=0), (0, 1))

    def test_every_part_of_the_map_is_run(self):
        page = (gate.TOP / "docs" / "ARCHITECTURE.md").read_text(encoding="utf-8")
        section = page.partition("\n## The gate\n")[2].partition("\n## ")[0]
        rows = [line.split("|")[1] for line in section.splitlines() if line.startswith("|")]
        mapped = [command for row in rows for command in re.findall("`([^`]+)`", row)]
        run = [" ".join(command) for _, command, _, _ in gate.parts()]
        self.assertGreater(len(mapped), 0)
        self.assertEqual([command for command in mapped if not any(command in line for line in run)], [])
