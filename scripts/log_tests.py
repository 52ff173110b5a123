"""Tests of the reader of what rt ci says of must-fail edits, on lines as rt writes them."""
import tempfile
import unittest
from pathlib import Path

from loading import load

logs = load("must-fail-logs")

CODE = "file: src/lib.rt\nold: n <= m\nnew: n < m\n"
DEFINITION = "# why\nfile: specs/Record.antt\nold: leb\nnew: ltb\n"

FAILS = (
    "expected type `a ≤ b`, but this has type `a < b`",
    "expected type `Decides (low n ≤ k)`",
    "as printed, the two types differ only where one has `m` (expected), right after `n <`, and the other has `n`",
    "as printed, the two types first differ where one has `m`",
    "computed as far as they go, the two types differ only where one has `pickList (isLe a b)`",
    "computed as far as they go, the two types first differ where one has `(List ℕ)` (expected) and the other has `ℕ`",
    "computed as far as they go, the two types are `NotFound e`",
    "computed as far as they go, the two sides differ only where one has `lower_of e`",
    "computed as far as they go, the two indices are `Broken`",
    "computed as far as they go, the two values differ only where one has `c.verdict_number.result`",
    "`omega`: the goal does not follow from what it read. All of that holds, and the goal fails, at `j` = 0, `i` = 0.",
    "`omega`: the part `.fits` of the goal does not follow from what it read. All of that holds, and the part fails.",
    "`search`: no proof of `a ≤ b`",
    "computed as a goal is, one side reads `Decides (low n ≤ k)`",
    "this `broken_at` lands at index `Broken` (position 1) but the expected type",
    "computed as far as they go, the two types d",
)
OTHER_WORDS = (
    "in its elaboration: deep recursion",
    "`simp` gave up after 64 rounds",
    "`both` takes 5 arguments, and 6 are given",
    "`low` is ambiguous: brought in from `Normal` and `Sets`",
    "`search` broke off: it had taken 1,000,000 steps",
    "`omega`: found no proof, and no values at which the goal fails",
    "`omega` does not read the goal: it is a path, and not between native numbers",
    "antt met a limit while it made the two types ready to print, so they are not shown",
    "`other` is not in scope; did you mean `another`?",
    "record `Lts.Else2` has no field `if1`",
    "words that nobody has judged yet, and then: the two types differ only where one has `a`",
    "computed as far as they g",
)
PARTS = ("src/lib.rt", 6, "returns")
NOTE = "note: src/lib.rt:6:1: it is not proved that what the function ensures holds when it returns (`returns`)"


def refused(text, file="./proofs/body/Answers.antt"):
    return f"refused, as it must be: {file}:48:6: error: `returns`: {text}"


def put(folder, name, text=""):
    path = folder / name
    path.parent.mkdir(parents=True, exist_ok=True)
    path.write_text(text)


class Judging(unittest.TestCase):
    class Goals:
        @staticmethod
        def has(*told):
            return told == PARTS

    def counts(self, edit, said):
        good, why = logs.judged(edit, said, self.Goals)
        self.assertTrue(good, why)

    def fails(self, reason, edit, said):
        good, why = logs.judged(edit, said, self.Goals)
        self.assertFalse(good, why)
        self.assertIn(reason, why)


class Forms(Judging):
    def test_what_says_that_a_fact_fails_counts(self):
        for text in FAILS:
            with self.subTest(text=text):
                self.counts(CODE, refused(text))
                self.counts(DEFINITION, refused(text))

    def test_nothing_else_counts(self):
        for text in OTHER_WORDS:
            with self.subTest(text=text):
                self.fails("does not say that a fact fails", CODE, refused(text))
                self.fails("does not say that a fact fails", DEFINITION, refused(text))

    def test_a_goal_that_has_no_answer(self):
        self.counts(CODE, f"refused, as it must be: {NOTE}; the facts known there allow values at which this goal")
        self.counts(CODE, "refused, as it must be: note: src/lib.rt:6:9: `search` found no proof (`returns`); `search` gave up")
        self.fails("does not say that a fact fails", CODE, "refused, as it must be: note: src/lib.rt:6:1: it is not proved that wha")

    def test_a_goal_that_the_edit_has_renamed(self):
        self.fails("renamed the goal", CODE, f"refused, as it must be: {NOTE.replace('`returns`', '`returns-then-a`')}")

    def test_what_is_no_note_on_a_goal(self):
        self.fails("does not say that a fact fails", CODE, "refused, as it must be: note: src/lib.rt:6:1: it ran out of stack")


class Lines(Judging):
    def test_an_edit_of_which_nothing_was_said(self):
        self.fails("said nothing", CODE, None)

    def test_an_edit_that_was_refused_for_another_reason_or_not_at_all(self):
        for said in ("BAD EDIT: an 'old:' text is in src/lib.rt 0 times, and not once",
                     "NOT REFUSED: the crate is still proved with this edit",
                     "NOT TRIED: its check was killed, most likely for memory, so nothing is known of it: run this again",
                     "refused, as it must be (only because a proof file names what the edit took away, so this says little)",
                     "refused, as it must be (only by a limit of the prover, which gave no verdict)", "refused, as it must be"):
            with self.subTest(said=said):
                self.fails(said, CODE, said)

    def test_a_refusal_that_shows_no_error(self):
        self.fails("no error is shown", CODE, "refused, as it must be: something")

    def test_an_edit_of_a_proof(self):
        self.fails("edits a proof", "file: proofs/body/Answers.antt\nold: a\nnew: b\n", refused(FAILS[0]))

    def test_the_code_does_not_compile(self):
        self.fails("the edit is itself at fault", CODE,
                   "refused, as it must be: src/lib.rt:38:12: error[unknown-name]: cannot find value `m` in this scope")

    def test_the_edited_definition_or_contract_is_ill_typed(self):
        self.fails("the edit is itself at fault", DEFINITION, refused(FAILS[0], "./specs/Record.antt"))
        self.fails("the edit is itself at fault", CODE, refused(FAILS[0], "src/lib.rt"))

    def test_an_unedited_definition_may_say_that_a_fact_fails(self):
        self.counts(DEFINITION, refused(FAILS[0], "./specs/Table.antt"))

    def test_the_lines_of_a_log(self):
        log = f"rt: one proved\nrt: must-fail one/a_b.edit: {refused(FAILS[0])}\nrt: must-fail two/a.edit: NOT REFUSED: so\n2 passed, 1 failed\n"
        self.assertEqual(logs.lines(log), {("one", "a_b"): refused(FAILS[0]), ("two", "a"): "NOT REFUSED: so"})


class Goals(unittest.TestCase):
    """Of a crate with a function `body` and two that call one another, `one` and `two`, in a module."""

    NAMES = {"Rattle-c-proofs.body.Lts": {"needs": [["a", "returns"], ["b", "f-requires"]]},
             "Rattle-c-proofs.walk.+one_two.Lts-one": {"stem": "one-", "needs": [["a", "returns"]]},
             "Rattle-c-proofs.walk.+one_two.Lts-two": {"stem": "two-", "needs": [["a", "returns"]]}, "off:c": 3}

    def setUp(self):
        folder = tempfile.TemporaryDirectory()
        self.addCleanup(folder.cleanup)
        self.crate = Path(folder.name)
        put(self.crate, "src/lib.rt", "// c\npub fn body() {\n    f();\n}\n")
        put(self.crate, "src/walk.rt", "pub fn one() {\n}\n\nfn two() {\n}\n")
        self.goals = logs.Goals(self.crate, self.NAMES)

    def test_a_function_without_answers_cannot_lose_one(self):
        self.assertTrue(self.goals.has("src/lib.rt", 3, "returns-then-a"))
        self.assertTrue(self.goals.has("src/walk.rt", 4, "two-returns-then-a"))

    def test_the_goals_of_functions_that_have_answers(self):
        put(self.crate, "proofs/body/Answers.antt")
        put(self.crate, "proofs/walk/+one_two/Answers.antt")
        for path, line, goal in (("src/lib.rt", 2, "returns"), ("src/lib.rt", 3, "f-requires-clause-low"),
                                 ("src/walk.rt", 2, "one-returns"), ("src/walk.rt", 5, "two-returns")):
            self.assertTrue(self.goals.has(path, line, goal), goal)
        for path, line, goal in (("src/lib.rt", 2, "returns-then-a"), ("src/walk.rt", 2, "two-returns"),
                                 ("src/walk.rt", 4, "one-returns"), ("src/lib.rt", 3, "g-requires")):
            self.assertFalse(self.goals.has(path, line, goal), goal)


class Edits(unittest.TestCase):
    """A tree of one crate, in which a test puts edits, and what rt said of them."""

    SAID = f"rt: must-fail one/a.edit: {refused(FAILS[0])}\n"

    def setUp(self):
        folder = tempfile.TemporaryDirectory()
        self.addCleanup(folder.cleanup)
        self.top = Path(folder.name)
        (self.top / "crates" / "one").mkdir(parents=True)

    def test_an_edit_with_its_line_and_one_without(self):
        put(self.top, "crates/one/must-fail/a.edit", CODE)
        self.assertEqual(logs.read(self.top, ""), (0, 1))
        self.assertEqual(logs.read(self.top, self.SAID), (1, 0))

    def test_a_crate_without_an_edit(self):
        self.assertEqual(logs.read(self.top, ""), (0, 1))

    def test_an_edit_that_nothing_tries(self):
        for name in ("one/must-fail/b.edits", "one/must-fail/more/b.edit", "one/must_fail/b.edit", "b.edit"):
            with self.subTest(name=name):
                self.setUp()
                put(self.top, "crates/one/must-fail/a.edit", CODE)
                put(self.top, f"crates/{name}", CODE)
                passed, failed = logs.read(self.top, self.SAID)
                self.assertEqual(passed, 1)
                self.assertGreater(failed, 0)
