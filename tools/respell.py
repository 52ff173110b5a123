#!/usr/bin/env python3
"""Brings the names that this repository declares in specs/ and proofs/ to the spelling of today's Rattle.

usage: python3 tools/respell.py        at the top, once, after port.py; `--table` prints the renamings and writes nothing

port.py turns the names of Rattle's library, and few of ours. The rule for ours: types and modules are in upper camel
case, all else is in snake case. A dash stays only between two names of functions, as in `codes-append`; a plain word
is added with an underscore. Folders of modules get a capital: proofs/deciding becomes proofs/Deciding. Files that
prove a Rattle function, and names that Rattle makes, stay. What is turned: whole words of .antt files, of clauses and
`ghost use` lines in .rt files, of must-fail edits, and of code spans in comments and in the pages of docs/ and README.md.
A name stays that would fall together with another one of a file; the script says so.
"""
import re
import sys
from pathlib import Path

TOP = Path(__file__).resolve().parent.parent
CRATES = TOP / "crates"
NAME = r"[^\s(){}.;,@\"«»`|]+"
DECLARED = re.compile(r"(?m)^( *)(?:\| )?((?:abbrev |pub |unfoldable |data |record )*)(" + NAME + r")(?: \{[^{}\n]*\}| \([^()\n]*\))* :")
WALKED = {"Proof.antt", "Answers.antt", "Invariants.antt", "Given.antt"}
LIBRARY = {"append", "take", "drop", "length", "map", "filter", "member", "flat"}
MODULES = {"meaning": ("specs", "proofs")}
# A lemma that would have the name of its function.
LEMMAS = {"part-at": "part_at_lem", "at_most_one": "at_most_one_lem", "spot-node": "spot_node_lem"}


def proofs_of_functions(path):
    return path.name in WALKED


def texts(pattern):
    return sorted(p for p in CRATES.rglob(pattern) if "out" not in p.parts)


def declared():
    """Each name that a file of laws or definitions declares, and whether it is a definition of specs/."""
    found = {}
    for path in texts("*.antt"):
        if not proofs_of_functions(path):
            for m in DECLARED.finditer(path.read_text()):
                found[m[3]] = found.get(m[3], False) or "specs" in path.parts and not m[1]
    return found


def functions(names):
    """The words, spelled anew, that name a function: no dash, and no capital first."""
    plain = {snake(n) for n in names if "-" not in n and n[0].islower()}
    return plain | LIBRARY


def snake(name):
    return re.sub(r"(?<=[a-z0-9])([A-Z])", lambda m: "_" + m[1].lower(), name)


def respelled(name, words):
    parts = [snake(p) for p in name.split("-")]
    if len(parts) == 2 and parts[0] in words and parts[1] in words and all(len(p) > 3 for p in parts):
        return "-".join(parts)
    return "_".join(parts)


def table():
    names = declared()
    words = functions([n for n in names if names[n]])
    rows = {}
    for name in names:
        if name in LEMMAS:
            rows[name] = LEMMAS[name]
        elif re.fullmatch(r"[a-z0-9][A-Za-z0-9'-]*", name):
            new = respelled(name, words)
            if new != name:
                rows[name] = new
    return rows


TOKEN = re.compile(r"(?<![^\s(){}.;,@\"«»`|])" + NAME)
CLAUSES = re.compile(r"ghost use\b[^;]*;|(?:requires|ensures)\*?\s*(?:\w+\s*)?\{|ghost\s+\w+\s*[:=]\s*\{")


def turn(text, rows, walked):
    """Each whole word of the table, but for one that Rattle makes: behind `tie.`, or in a proof of a function behind a dot."""
    def one(m):
        word = m[0]
        if word not in rows:
            return word
        before = text[max(0, m.start() - 80):m.start()]
        if before.endswith("."):
            line = text[text.rfind("\n", 0, m.start()) + 1:m.start()]
            if walked and not line.startswith(("use ", "pub use ")):
                return word
        return rows[word]
    return TOKEN.sub(one, text)


SPAN = re.compile(r"`[^`\n]+`")


def turn_spans(text, rows):
    return SPAN.sub(lambda m: turn(m[0], rows, False), text)


def turn_antt(text, rows, walked):
    out = []
    for line in text.split("\n"):
        code, dashes, comment = line.partition("--") if line.lstrip().startswith("--") else (line, "", "")
        out.append(turn(code, rows, walked) + dashes + turn_spans(comment, rows))
    return "\n".join(out)


def block(text, at):
    depth = 1
    while depth:
        depth += {"{": 1, "}": -1}.get(text[at], 0)
        at += 1
    return at


def turn_rt(text, rows):
    out, at = [], 0
    for m in CLAUSES.finditer(text):
        if m.start() < at:
            continue
        end = m.end() if m[0].endswith(";") else block(text, m.end())
        out += [turn_comments(text[at:m.start()], rows), turn(text[m.start():end], rows, False)]
        at = end
    return "".join(out) + turn_comments(text[at:], rows)


def turn_comments(text, rows):
    return re.sub(r"//[^\n]*", lambda m: turn_spans(m[0], rows), text)


def turn_edit(text, rows):
    """In an edit of a definition all words; in an edit of code only what Rust cannot spell."""
    if "file: src/" in text:
        return text
    return "\n".join(turn(l, rows, False) if l.startswith(("old:", "new:")) else turn_spans(l, rows) for l in text.split("\n"))


PARAMETER = re.compile(r"(\w+):(?!:)|\blet (?:mut )?(\w+)")


def plain_words(path):
    """What a new name could meet: in Rust parameters and locals, which a clause can name, and elsewhere each word behind no dot."""
    text = path.read_text()
    if path.suffix == ".rt":
        return {a or b for a, b in PARAMETER.findall(text)}
    return {m[0] for m in TOKEN.finditer(text) if text[m.start() - 1:m.start()] != "."}


def meetings(rows):
    """The rows whose new name a file has already beside the old one."""
    bad = {}
    for path in texts("*.antt") + texts("*.rt"):
        words = plain_words(path)
        has = set(TOKEN.findall(path.read_text()))
        for old, new in rows.items():
            if old in has and new in words and new not in rows:
                bad.setdefault(old, []).append(str(path.relative_to(TOP)))
    return bad


def module_names():
    """The folders of modules, by crate and tree, that begin with a small letter and hold no proof of a function."""
    found = []
    for crate, trees in MODULES.items():
        for tree in trees:
            for folder in sorted((CRATES / crate / tree).iterdir()):
                if folder.is_dir() and folder.name[0].islower():
                    found.append((crate, tree, folder.name))
    return found


def turn_modules(text, path, modules):
    for crate, tree, name in modules:
        text = re.sub(rf"(Rattle\.{crate}\.{tree}\.){name}(?=[.\s]|$)", lambda m: m[1] + name.capitalize(), text, flags=re.M)
        if path == CRATES / crate / tree / "Lib.antt":
            text = re.sub(rf"(?m)^(pub mod ){name}$", lambda m: m[1] + name.capitalize(), text)
        text = re.sub(rf"(crates/{crate}/{tree}/|file: {tree}/){name}(?=[/.])", lambda m: m[1] + name.capitalize(), text)
    return text


def main(words):
    rows = table()
    bad = meetings(rows)
    for old in bad:
        print(f"stays: {old}, since {rows[old]} is there too: {', '.join(bad[old][:3])}")
        del rows[old]
    new = {}
    for old, name in rows.items():
        new.setdefault(name, []).append(old)
    names = set(declared())
    for name, olds in new.items():
        if len(olds) > 1 or name in names:
            print(f"look: {name} is now {', '.join(olds)}" + (" and what had the name" if name in names else ""))
    if words == ["--table"]:
        print("\n".join(f"{a}\t{b}" for a, b in rows.items()))
        return 0
    modules = module_names()
    for path in texts("*.antt"):
        text = turn_antt(path.read_text(), rows, proofs_of_functions(path))
        path.write_text(turn_modules(text, path, modules))
    for path in texts("*.rt"):
        path.write_text(turn_modules(turn_rt(path.read_text(), rows), path, modules))
    for path in texts("*.edit"):
        path.write_text(turn_modules(turn_edit(path.read_text(), rows), path, modules))
    for path in [TOP / "README.md"] + sorted((TOP / "docs").glob("*.md")):
        if path.name not in ("PORT.md", "CHANGES.md"):
            path.write_text(turn_modules(turn_spans(path.read_text(), rows), path, modules))
    for crate, tree, name in modules:
        folder = CRATES / crate / tree / name
        folder.rename(folder.with_name(name.capitalize()))
        page = folder.with_suffix(".antt")
        if page.exists():
            page.rename(page.with_name(name.capitalize() + ".antt"))
    print(f"respelled: {len(rows)} names, {len(modules)} folders")
    return 0


if __name__ == "__main__":
    sys.exit(main(sys.argv[1:]))
