"""Tests of what checks the page of promises, on small pages."""
import tempfile
import unittest
from pathlib import Path

from loading import load

page = load("promises-page")

SPECS = """-- Ghost : in a comment
use a.B.{C}

pub data Expr : Type 0 where
  empty : Expr
  left right : Expr

abbrev pub Word : Expr → Type 0
Word e =
    let inner : Type 0 = Expr in inner

_is_ : Expr → Type 0
"""
CODE = """// fn ghost
pub enum Answer {
    Done,
}

#[no_mangle]
pub extern "C" fn seq_ask(x: u8) -> u32
    ensures { λ r. ⌜ AskPromise x r ⌝ }
{
    0
}

#[no_mangle]
pub extern "C" fn seq_tell(
    x: u8,
) -> u32
    ensures { λ r. ⌜ TellPromise x r ⌝ }
{
    0
}

pub fn help(x: u8) -> u32 {
    0
}
"""
PROOFS = """-- ask-any : in a comment
pub ask-one-outcome : (x out other : ℕ) → AskPromise x out → AskPromise x other → out ≡ other
unfolding AskPromise
ask-one-outcome x out other p q = p .2 ∙ sym (q .2)

pub tell-one-outcome : (x out other : ℕ) (z y : List ℕ)
    → TellPromise x out z → TellPromise x other y → (out ≡ other) × (z ≡ y)
tell-one-outcome x out other z y p q = TellPromise ≡ p

ask-given : (x out : ℕ) → AskPromise x out → out ≡ 0
ask-given x out p = AskPromise ≡ AskPromise

ask-twice : (x out other : ℕ) → AskPromise x out → AskPromise x other → out < other
ask-twice x out other p q = p ≡ q
"""
WORD = "`Word` (`crates/meaning/specs/Word.antt`)"
RENDERED = "\n| the request says | rendered by |\n|---|---|\n"
ASK = "| Ask: `seq_ask` (`crates/seqp/src/lib.rt`) | `ask-one-outcome` (`crates/meaning/proofs/Outcomes.antt`) |\n"
TELL = "| Tell: `seq_tell` (`crates/seqp/src/lib.rt`) | `tell-one-outcome` (`crates/meaning/proofs/Outcomes.antt`) |\n"
OUTCOME = "\n## One outcome\n\nFor each call.\n\n| call | rendered by |\n|---|---|\n"


def no_row(name):
    return f'`{name}` has no row in the section "One outcome" with its theorem'


class Page(unittest.TestCase):
    def setUp(self):
        folder = tempfile.TemporaryDirectory()
        self.addCleanup(folder.cleanup)
        self.top = Path(folder.name)
        for name, text in (("meaning/specs/Word.antt", SPECS), ("seqp/src/lib.rt", CODE),
                           ("meaning/proofs/Outcomes.antt", PROOFS), ("meaning/specs/Outcomes.antt", PROOFS)):
            path = self.top / "crates" / name
            path.parent.mkdir(parents=True, exist_ok=True)
            path.write_text(text)

    def faults(self, text, outcome=OUTCOME + ASK + TELL):
        """What is wrong with a page of the text and, below it, the rows of one outcome."""
        return [fault.split(": ")[-1] for fault in page.check(self.top, text + outcome)[1]]


class Citations(Page):
    def test_what_a_file_declares(self):
        self.assertEqual(page.declared(self.top / "crates/meaning/specs/Word.antt"),
                         {"Expr", "empty", "left", "right", "Word", "_is_"})
        self.assertEqual(page.declared(self.top / "crates/seqp/src/lib.rt"), {"Answer", "seq_ask", "seq_tell", "help"})

    def test_citations_that_hold(self):
        text = f"{WORD}, `left` (`crates/meaning/specs/Word.antt`); `help` (`crates/seqp/src/lib.rt`)\n"
        self.assertEqual(page.check(self.top, text + OUTCOME + ASK + TELL), (7, []))

    def test_a_name_that_is_not_declared(self):
        text = "`inner` (`crates/meaning/specs/Word.antt`)\n"
        self.assertEqual(page.check(self.top, text + OUTCOME + ASK + TELL),
                         (4, ["crates/meaning/specs/Word.antt does not declare `inner`"]))

    def test_a_name_in_a_comment(self):
        self.assertEqual(len(self.faults("`Ghost` (`crates/meaning/specs/Word.antt`)\n")), 1)
        self.assertEqual(len(self.faults("`ghost` (`crates/seqp/src/lib.rt`)\n")), 1)

    def test_a_file_that_is_not_there(self):
        self.assertEqual(self.faults("`Word` (`crates/meaning/specs/None.antt`)\n"),
                         ["there is no file crates/meaning/specs/None.antt"])

    def test_a_page_that_cites_nothing(self):
        for text in ("", "Nothing.\n"):
            self.assertIn("the page cites nothing", self.faults(text, ""))

    def test_a_path_outside_a_citation(self):
        self.assertEqual(len(self.faults(f"{WORD} and `crates/seqp/src/lib.rt`\n")), 1)


class Tables(Page):
    def test_a_name_without_its_file_in_the_column(self):
        self.assertEqual(self.faults(f"{RENDERED}| `SEQP` | {WORD}, `Expr` |\n"), ["`Expr` has no file"])

    def test_a_cell_that_says_nothing(self):
        for row in ("| a word | |", "| a word |", "| a word | tested |", "| a word | `help` |"):
            with self.subTest(row=row):
                self.assertIn("nothing is cited or run", self.faults(f"{RENDERED}| all | {WORD} |\n{row}\n"))

    def test_a_run_of_the_gate(self):
        self.assertEqual(self.faults(f"{RENDERED}| a word | tested: `scripts/compare`, and by `rt ci` |\n"), [])
        self.assertEqual(self.faults(f"{RENDERED}| a word | tested: `scripts/landing` |\n"),
                         ["`scripts/landing` has no file", "nothing is cited or run"])

    def test_a_table_that_nothing_checks(self):
        rule = "|---|---|\n"
        for table in (f"| the request says | shown by |\n{rule}| a | b |\n", f"| all | {WORD} |\n",
                      f"| the request says | rendered by |\n| all | {WORD} |\n| a word | {WORD} |\n",
                      f"| the request says | rendered by |\n{rule}"):
            with self.subTest(table=table):
                self.assertEqual(len(self.faults(f"\n{table}")), 1)

    def test_edits_that_a_crate_has(self):
        edits = self.top / "crates/meaning/must-fail"
        edits.mkdir()
        (edits / "a_word_lost.edit").write_text("")
        table = ("\n| tried | edit | crate |\n|---|---|---|\n"
                 "| a lost word | `a_word_lost`, `all_lost` | record, meaning |\n| a lost list | | meaning |\n")
        self.assertEqual(self.faults(table), ["`all_lost` is no edit of record, meaning", "no edit is named"])


class OneOutcome(Page):
    def test_the_section_or_a_row_is_missing(self):
        self.assertEqual(self.faults(WORD, ""), [no_row("seq_ask"), no_row("seq_tell")])
        self.assertEqual(self.faults(WORD, OUTCOME + TELL), [no_row("seq_ask")])
        self.assertEqual(self.faults(WORD, (OUTCOME + ASK + TELL).replace("One outcome", "Outcomes")),
                         [no_row("seq_ask"), no_row("seq_tell")])

    def test_a_row_without_its_theorem(self):
        for cell in ("", "`ask-one-outcome`", WORD, "`seq_ask` (`crates/seqp/src/lib.rt`)"):
            with self.subTest(cell=cell):
                row = f"| Ask: `seq_ask` (`crates/seqp/src/lib.rt`) | {cell} |\n"
                self.assertIn(no_row("seq_ask"), self.faults(WORD, OUTCOME + row + TELL))

    def test_a_theorem_that_says_something_else(self):
        for name in ("ask-given", "ask-twice", "tell-one-outcome", "ask-any"):
            with self.subTest(name=name):
                row = ASK.replace("ask-one-outcome", name)
                self.assertIn(no_row("seq_ask"), self.faults(WORD, OUTCOME + row + TELL))

    def test_a_definition_is_no_theorem(self):
        self.assertEqual(self.faults(WORD, OUTCOME + ASK.replace("/proofs/", "/specs/") + TELL), [no_row("seq_ask")])

    def test_a_call_without_a_promise_and_no_call(self):
        code = self.top / "crates/seqp/src/lib.rt"
        code.write_text(CODE.replace("AskPromise", "Asked"))
        self.assertEqual(self.faults(WORD), [no_row("seq_ask")])
        code.write_text("pub fn seq_ask() {}\npub fn seq_tell() {}\n")
        self.assertEqual(self.faults(WORD), ["no crate has a call for C"])
