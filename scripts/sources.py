"""What the files under crates/ declare, each as a text that can be compared: without comments, on one line."""
import re
from typing import NamedTuple

MARKS = r"(?:(?:pub|abbrev|unfoldable)\s+)*"
# A declaration of antt at the margin: its names, then a colon.
SIGNATURE = re.compile(rf"^{MARKS}(?!(?:data|record|use|mod|module)\s)([^\s(){{}}:]+(?:\s+[^\s(){{}}:]+)*)\s+:(?:\s|$)")
TYPE = re.compile(rf"^{MARKS}(?:data|record)\s+([^\s(){{}}:]+)")
# A line at the margin that belongs to no declaration.
APART = re.compile(rf"^{MARKS}(?:use|mod|module)\s")
USE = re.compile(rf"^{MARKS}use\s.*(?:\n[ \t]+\S.*)*", re.M)
COMMENT = re.compile(r"\{-(?:.|\n)*?-\}|(?:^|(?<=[ \t]))--.*$", re.M)

FUNCTION = re.compile(r"^[ \t]*(?:pub(?:\([a-z]+\))?[ \t]+)?((?:(?:const|unsafe|extern \"C\")[ \t]+)*fn[ \t]+(\w+))", re.M)
# What stands before a brace that opens no body.
CLAUSE = re.compile(r"\b(?:ghost|requires|ensures)\s*$")


class Item(NamedTuple):
    """Something that is compared: two with the same name and text are the same, wherever they stand."""
    name: str
    place: str
    text: str
    lines: int = 0
    # Where git says that it stands later.
    later: str = ""


def on_one_line(text):
    """Without the differences that the layout makes."""
    return re.sub(r",? (?=\))|(?<=\() ", "", " ".join(text.split()))


def names_at(line):
    """The names that a line at the margin declares."""
    kind = TYPE.match(line)
    found = kind or SIGNATURE.match(line)
    names = [name for name in found[1].split() if name not in ("pub", "abbrev", "unfoldable")] if found else []
    # A clause may have a colon too, behind its equals sign.
    return [] if "=" in names else names


def definitions(text):
    """The declarations at the margin of a file of antt, by name, each with its clauses, constructors or fields."""
    held, at = {}, []
    for line in COMMENT.sub("", text).splitlines():
        if not line.strip():
            continue
        if not line[0].isspace():
            names, first = names_at(line), line.split()[0]
            if names:
                held.update((name, []) for name in names)
            at = names or ([] if APART.match(line) else [first] if first in held else at)
        for name in at:
            held[name].append(line)
    # Who may name it is no part of what it says.
    return {name: re.sub(r"(?:^|(?<= ))pub ", "", on_one_line("\n".join(lines))) for name, lines in held.items()}


def end_of_contract(text, start):
    """Where the body begins of a function whose name ends at start."""
    depth = 0
    for at in range(start, len(text)):
        letter = text[at]
        if depth == 0 and (letter == ";" or letter == "{" and not CLAUSE.search(text, start, at)):
            return at
        depth += (letter in "([{") - (letter in ")]}")
    return len(text)


def contracts(text):
    """The name of each function of a file of Rattle, and its signature with what it requires and ensures."""
    text = re.sub(r"//.*", "", text)
    for found in FUNCTION.finditer(text):
        yield found[2], on_one_line(text[found.start(1):end_of_contract(text, found.end())])


def proof_text(text):
    return on_one_line(USE.sub("", COMMENT.sub("", text)))


# Whole trees.


def files(top, kind, suffix):
    """Each file of a kind, as its crate, its parts within the kind's folder, its path and its text."""
    for path in sorted(top.glob(f"crates/*/{kind}/**/*{suffix}")):
        parts = path.relative_to(top).with_suffix("").parts
        yield parts[1], parts[3:], str(path.relative_to(top)), path.read_text(encoding="utf-8")


def definitions_of(top, kind="specs"):
    return [Item(name, f"{crate}/{'.'.join(parts)}", text)
            for crate, parts, _, whole in files(top, kind, ".antt") for name, text in definitions(whole).items()]


def contracts_of(top):
    return [Item(name, "::".join((crate, *(part for part in parts if part not in ("lib", "main")))), text)
            for crate, parts, _, whole in files(top, "src", ".rt") for name, text in contracts(whole)]


def proofs_of(top, later=None):
    return [Item("", path, proof_text(whole), len(whole.splitlines()), (later or {}).get(path, path))
            for _, _, path, whole in files(top, "proofs", ".antt")]


def lines_of(top, kind, suffix):
    return sum(len(whole.splitlines()) for _, _, _, whole in files(top, kind, suffix))
