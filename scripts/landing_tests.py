"""Tests of what makes a landing's note: the readers of sources and logs, the pairing, and the tables."""
import tempfile
import unittest
from pathlib import Path

import landing_note as note
import sources
from sources import Item

SPECS = """-- Ghost : in a comment
use a.B.{C}
unfoldable pub use a.D.{E}

-- a list of codes
abbrev pub Codes : Type 0
Codes = ℕ

pub data Tree (A : Type 0) : Type 0 where
  leaf : A → Tree A -- an end
  node : Tree A → Tree A → Tree A

record-size : Codes → ℕ
record-size c = let n : ℕ = c in n

even : ℕ → Bool
odd : ℕ → Bool
even zero = true
odd zero = false
mod Other
"""

CODE = """// fn ghost(x: u8)
use a::b;

#[no_mangle]
pub extern "C" fn seq_one(
    file: &[u64; 512], // lent
    n: usize,
) -> u32
    requires { ⌜ n < 512 ⌝ }
    ensures { λ r. ⌜ r ≡ one (now (file .entry)) n ⌝ }
{
    if n == 0 { 1 } else { 2 }
}

fn two() -> u32 { 2 }
"""


class Sources(unittest.TestCase):
    def test_declarations_with_their_clauses(self):
        self.assertEqual(sources.definitions(SPECS), {
            "Codes": "abbrev Codes : Type 0 Codes = ℕ",
            "Tree": "data Tree (A : Type 0) : Type 0 where leaf : A → Tree A node : Tree A → Tree A → Tree A",
            "record-size": "record-size : Codes → ℕ record-size c = let n : ℕ = c in n",
            "even": "even : ℕ → Bool even zero = true",
            "odd": "odd : ℕ → Bool odd zero = false"})

    def test_comments_layout_and_who_may_name_it_do_not_count(self):
        other = SPECS.replace("a list of codes", "codes").replace("\nCodes = ℕ", "\nCodes =\n    ℕ").replace("pub data", "data")
        self.assertNotEqual(other, SPECS)
        self.assertEqual(sources.definitions(other), sources.definitions(SPECS))

    def test_a_constructor_and_a_mark_count(self):
        for old, new in (("leaf : A", "leaf : A → A"), ("abbrev", "unfoldable")):
            self.assertNotEqual(sources.definitions(SPECS.replace(old, new)), sources.definitions(SPECS))

    def test_contracts(self):
        self.assertEqual(list(sources.contracts(CODE)), [
            ("seq_one", 'extern "C" fn seq_one(file: &[u64; 512], n: usize) -> u32 requires { ⌜ n < 512 ⌝ } '
                        "ensures { λ r. ⌜ r ≡ one (now (file .entry)) n ⌝ }"),
            ("two", "fn two() -> u32")])

    def test_a_body_is_no_part_of_a_contract(self):
        self.assertEqual(list(sources.contracts(CODE.replace("{ 1 }", "{ 3 }"))), list(sources.contracts(CODE)))
        self.assertNotEqual(list(sources.contracts(CODE.replace("r ≡ one", "r ≡ two"))), list(sources.contracts(CODE)))

    def test_the_text_of_a_proof(self):
        proof = "-- Laws.\nuse a.B.{C}\npub use a.D.{\n    E,\n    F}\n\npub law : C\nlaw = refl\n"
        self.assertEqual(sources.proof_text(proof), "pub law : C law = refl")

    def test_a_tree(self):
        with tempfile.TemporaryDirectory() as folder:
            top = Path(folder)
            for path, text in (("specs/Promises.antt", SPECS), ("src/lib.rt", CODE), ("src/deep/in.rt", CODE),
                               ("proofs/f/Proof.antt", "use a\n\nf : A\n")):
                (top / "crates/one" / path).parent.mkdir(parents=True, exist_ok=True)
                (top / "crates/one" / path).write_text(text, encoding="utf-8")
            self.assertEqual({note.definition_name(item) for item in sources.definitions_of(top)} & {"`one/Promises.even`"},
                             {"`one/Promises.even`"})
            self.assertEqual([note.function_name(item) for item in sources.contracts_of(top)],
                             ["`one::deep::in::seq_one`", "`one::deep::in::two`", "`one::seq_one`", "`one::two`"])
            self.assertEqual(sources.proofs_of(top), [
                Item("", "crates/one/proofs/f/Proof.antt", "f : A", 3, "crates/one/proofs/f/Proof.antt")])
            self.assertEqual(sources.lines_of(top, "src", ".rt"), 2 * len(CODE.splitlines()))


def proof(path, text, lines=1, later=""):
    return Item("", f"crates/{path}.antt", text, lines, f"crates/{later or path}.antt")


class Pairing(unittest.TestCase):
    def test_the_same_text_counts_before_the_place(self):
        old = [Item("f", "a/A", "1"), Item("f", "b/B", "2")]
        new = [Item("f", "a/A", "2"), Item("f", "c/C", "1"), Item("f", "d/D", "3")]
        moves = note.pair_named(old, new)
        self.assertEqual(moves, note.Moves([new[2]], [], [], [(old[1], new[0]), (old[0], new[1])]))

    def test_the_same_place_counts_before_the_name_alone(self):
        old = [Item("f", "a/A", "1"), Item("f", "b/B", "2")]
        new = [Item("f", "c/C", "3"), Item("f", "b/B", "4")]
        self.assertEqual(note.pair_named(old, new), note.Moves([], [(old[1], new[1]), (old[0], new[0])], [], []))

    def test_another_name_is_another_definition(self):
        old, new = [Item("f", "a/A", "1")], [Item("g", "a/A", "1")]
        self.assertEqual(note.pair_named(old, new), note.Moves(new, [], old, []))

    def test_a_proof_file_that_moved_has_stayed(self):
        old, new = [proof("a/proofs/L", "x")], [proof("b/proofs/M", "x")]
        self.assertEqual(note.pair_files(old, new), note.Moves([], [], [], [(old[0], new[0])]))

    def test_a_proof_file_that_moved_and_changed(self):
        old, new = [proof("a/proofs/L", "x", later="b/proofs/L")], [proof("b/proofs/L", "y")]
        self.assertEqual(note.pair_files(old, new), note.Moves([], [(old[0], new[0])], [], []))
        self.assertEqual(note.pair_files([proof("a/proofs/L", "x")], new).changed, [])


class Note(unittest.TestCase):
    def test_definitions(self):
        old = [Item("f", "a/A", "1"), Item("g", "a/A", "2"), Item("h", "a/A", "3"), Item("gone", "a/A", "8")]
        new = [Item("f", "b/B", "1"), Item("g", "b/B", "4"), Item("k", "b/B", "5"), Item("m", "b/B", "6")]
        self.assertEqual(note.definitions_section(old, new, [Item("m", "a/P", "6")], [Item("gone", "a/P", "8")]), (
            "## Definitions\n\n1 added, 1 changed, 1 dropped, 1 moved from proofs, 1 moved to proofs; 1 stayed, "
            "1 of them in another file.\n\n- added: `b/B.k`\n- changed: `a/A.g` → `b/B.g`\n- dropped: `a/A.h`\n"
            "- moved from proofs: `b/B.m`\n- moved to proofs: `a/A.gone`"))

    def test_a_definition_from_the_proofs_is_no_change_of_its_namesake(self):
        old, new = [Item("f", "a/A", "1")], [Item("f", "b/B", "2")]
        self.assertEqual(note.definitions_section(old, new, [Item("f", "b/P", "2")], []), (
            "## Definitions\n\n0 added, 0 changed, 1 dropped, 1 moved from proofs; 0 stayed.\n\n"
            "- dropped: `a/A.f`\n- moved from proofs: `b/B.f`"))

    def test_public_promises(self):
        call, own, said = Item("seq", "s", 'extern "C" fn seq()'), Item("own", "s", "fn own()"), Item("P", "m/Promises", "1")
        old = [call, own], [said, Item("D", "m/Other", "1")]
        new = [call, own._replace(text="fn own(x: u8)")], [said, Item("D", "m/Other", "2")]
        self.assertIn("No public promise moved: the contracts of 1 calls and 1 definitions", note.public_section(old, new))
        self.assertIn("- changed: `s::own`", note.contracts_section(old[0], new[0]))
        changed = note.public_section(old, ([call._replace(text='extern "C" fn seq(x: u8)')], [said._replace(text="2")]))
        self.assertNotIn("No public promise moved", changed)
        self.assertIn("- changed: `s::seq`", changed)
        self.assertIn("- changed: `m/Promises.P`", changed)

    def test_proof_files(self):
        old = [proof("a/proofs/L", "x", 1000), proof("a/proofs/M", "y", 5), proof("c/proofs/N", "z", 7)]
        new = [proof("b/proofs/L", "x", 1001), proof("a/proofs/M", "w", 6), proof("c/proofs/N", "z", 7)]
        text = note.proofs_section(old, new)
        for line in ("| a | 0 | 1 | 0 | 0 | 1,005 | 6 |", "| b | 0 | 0 | 0 | 1 | 0 | 1,001 |",
                     "| **all** | 0 | 1 | 0 | 2 | 1,012 | 1,014 |", "- changed: `a/M` (5 → 6)"):
            self.assertIn(line, text.splitlines())
        self.assertNotIn("| c |", text)

    def test_too_many_proof_files_are_not_listed(self):
        new = [proof(f"a/proofs/L{i}", str(i)) for i in range(note.MOST_LISTED + 1)]
        self.assertIn("- added: ", note.proofs_section([], new[1:]))
        self.assertNotIn("- added: ", note.proofs_section([], new))

    def test_lines(self):
        self.assertIn("| **all** | 3 | 1,004 | 1,003 | 2 |", note.lines_section([["code", 1, 1001, 1000, 0], ["proof", 2, 3, 3, 2]]))


class Git(unittest.TestCase):
    def test_files_that_moved(self):
        self.assertEqual(note.renames("M\0Rs\0R097\0a/x\0b/x\0A\0b/y\0R100\0a/z\0b/z\0"), {"a/x": "b/x", "a/z": "b/z"})

    def test_lines_that_moved(self):
        text = ("3\t1\tcrates/a/src/lib.rt\0" "2\t5\t\0crates/a/specs/L.antt\0crates/b/proofs/L.antt\0"
                "10\t0\tcrates/b/proofs/f/Proof.antt\0" "7\t7\tcrates/b/must-fail/x.edit\0-\t-\tcrates/a/stdin\0")
        self.assertEqual(note.lines_moved(text), {"src": [3, 1], "proofs": [12, 5]})


BENCH = """proving
what                        procedure           ours    libxml2  ratio target  verdict
Judge a file                P1                 1,000      5,000  0.200    1/3  met
Judge, growth               left 64             12.5          -
Follow                      P2                     -          -                FAILED: no

1 targets met, 0 missed, 0 figures failed
"""


class Measured(unittest.TestCase):
    def test_the_table_of_times(self):
        lines = note.times_section({"a": (9, 10.0), "old": (2, 2.0)}, {"new": (3, 3.5), "a": (8, 12.5)}).splitlines()
        self.assertEqual(lines[-4:], [
            "| new | – | 3 s | – | 3.5 s | new |", "| a | 9 s | 8 s | 10.0 s | 12.5 s | +25.0 % |",
            "| old | 2 s | – | 2.0 s | – | gone |", "| **sum** | 11 s | 11 s | 12.0 s | 16.0 s | +33.3 % |"])

    def test_rows_of_the_bench(self):
        self.assertEqual(note.bench_rows(BENCH), {"Judge a file, P1": 1000.0, "Judge, growth, left 64": 12.5})

    def test_a_bench_that_failed_has_no_rows(self):
        for text in ("bench: no rt\n", BENCH.replace("0 figures", "1 figures"), BENCH[:BENCH.index("1 targets")]):
            self.assertEqual(note.bench_rows(text), {})

    def test_two_percent(self):
        self.assertFalse(note.has_moved(1000, 1020))
        self.assertTrue(note.has_moved(1000, 1020.1))
        self.assertFalse(note.has_moved(1000, 980))
        self.assertTrue(note.has_moved(1000, 979.9))
        self.assertTrue(note.has_moved(0, 1))

    def test_the_table_of_counts(self):
        text = note.bench_section({"a": 1000.0, "b": 10.0, "c": 5.0}, {"a": 1100.0, "b": 10.1, "d": 2.5})
        self.assertEqual(text.splitlines()[2:], [
            "Of 2 counts of `make bench` 1 moved by more than 2 %.", "", "| count | before | after | change |",
            "| --- | --: | --: | --: |", "| a | 1,000 | 1,100 | +10.0 % |", "| d | – | 2.5 | new |", "| c | 5 | – | gone |"])
        self.assertTrue(note.bench_section({"a": 1.0}, {"a": 1.0}).endswith("none moved by more than 2 %."))
