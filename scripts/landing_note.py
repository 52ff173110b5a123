"""What moved between two commits, paired and written as Markdown."""
import re
import textwrap
from collections import defaultdict
from typing import NamedTuple

# Of more files than these a note has the numbers and no list.
MOST_LISTED = 40
WIDTH = 118
# A count has moved if it moved by more than this part of itself.
MOVED = 0.02

# A procedure and what is measured of it; no figure is a hyphen.
FIGURE = re.compile(r"(\S.*?) +([\d,.]+)$")
MEASURED = re.compile(r"^\d+ targets met, \d+ missed, (\d+) figures failed$", re.M)


class Moves(NamedTuple):
    added: list
    changed: list
    dropped: list
    stayed: list


def pair(old, new, *keys):
    """Pairs what agrees in the first key, then of what is left what agrees in the second, and so on."""
    pairs = []
    for key_of_old, key_of_new in keys:
        waiting, left = defaultdict(list), []
        for item in old:
            waiting[key_of_old(item)].append(item)
        for item in new:
            same = waiting[key_of_new(item)]
            if same:
                pairs.append((same.pop(0), item))
            else:
                left.append(item)
        old, new = [item for items in waiting.values() for item in items], left
    changed = [(before, after) for before, after in pairs if before.text != after.text]
    stayed = [(before, after) for before, after in pairs if before.text == after.text]
    return Moves(new, changed, old, stayed)


def pair_same(old, new):
    """Of several with one name and text the same place counts first."""
    keys = (lambda i: (i.name, i.place, i.text), lambda i: (i.name, i.text))
    return pair(old, new, *((key, key) for key in keys))


def pair_named(old, new):
    """The same text counts before the same name, and there again the same place."""
    same = pair_same(old, new)
    keys = (lambda i: (i.name, i.place), lambda i: i.name)
    return pair(same.dropped, same.added, *((key, key) for key in keys))._replace(stayed=same.stayed)


def pair_files(old, new):
    """As above, without names; a file that changed may have moved where git says so."""
    keys = (lambda i: (i.place, i.text), lambda i: i.text, lambda i: i.place)
    return pair(old, new, *((key, key) for key in keys), (lambda i: i.later, lambda i: i.place))


# Markdown.


def table(heads, rows):
    """A table whose first column is text and whose others are numbers."""
    lines = [heads, ["---"] + ["--:"] * (len(heads) - 1), *rows]
    cells = [[f"{cell:,}" if isinstance(cell, int) else cell for cell in line] for line in lines]
    return "\n".join(f"| {' | '.join(line)} |" for line in cells)


def quoted(text):
    return f"`{text}`"


def change(before, after, show):
    """Two that are one where nothing moved."""
    return show(after) if show(before) == show(after) else f"{show(before)} → {show(after)}"


def tally(moves, further=""):
    elsewhere = sum(1 for old, new in moves.stayed if old.place != new.place)
    return (f"{len(moves.added)} added, {len(moves.changed)} changed, {len(moves.dropped)} dropped{further}; "
            f"{len(moves.stayed)} stayed" + (f", {elsewhere} of them in another file" if elsewhere else "") + ".")


def bullets(*parts):
    """A list for each word that has something; the parts are words and lists of names."""
    return "\n".join(
        textwrap.fill(f"- {word}: {', '.join(sorted(names))}", WIDTH, subsequent_indent="  ", break_long_words=False,
                      break_on_hyphens=False) for word, names in parts if names)


def named(moves, show):
    """The parts of such lists."""
    return (("added", [show(item) for item in moves.added]),
            ("changed", [change(old, new, show) for old, new in moves.changed]),
            ("dropped", [show(item) for item in moves.dropped]))


def section(title, *parts):
    return "\n\n".join([f"## {title}", *(part for part in parts if part)])


def definition_name(item):
    return quoted(f"{item.place}.{item.name}")


def function_name(item):
    return quoted(f"{item.place}::{item.name}")


def proof_name(item):
    crate, _, *rest = item.place.removeprefix("crates/").removesuffix(".antt").split("/")
    return quoted("/".join([crate, *rest]))


def apart(items, others):
    """Those that stand among others with the same name and text, and the rest."""
    known = {(item.name, item.text) for item in others}
    there = [item for item in items if (item.name, item.text) in known]
    return there, [item for item in items if (item.name, item.text) not in known]


def definitions_section(old, new, old_proofs, new_proofs):
    """The definitions; what came from the proofs as it was is not added, and what went there not dropped."""
    same = pair_same(old, new)
    came, added = apart(same.added, old_proofs)
    went, dropped = apart(same.dropped, new_proofs)
    moves = pair_named(dropped, added)._replace(stayed=same.stayed)
    further = "".join(f", {len(items)} moved {way} proofs" for items, way in ((came, "from"), (went, "to")) if items)
    return section("Definitions", tally(moves, further), bullets(
        *named(moves, definition_name), ("moved from proofs", [definition_name(item) for item in came]),
        ("moved to proofs", [definition_name(item) for item in went])))


def is_public(contract):
    return contract.text.startswith('extern "C" ')


def is_promise(definition):
    return definition.place.split("/")[1].split(".")[-1] == "Promises"


def public_section(old, new):
    """The contracts of the public calls and the definitions in Promises; old and new are all of both at a commit."""
    calls = pair_named(*([item for item in contracts if is_public(item)] for contracts, _ in (old, new)))
    said = pair_named(*([item for item in definitions if is_promise(item)] for _, definitions in (old, new)))
    title = "Promises of the public calls"
    if not any(moves.added or moves.changed or moves.dropped for moves in (calls, said)):
        return section(title, f"No public promise moved: the contracts of {len(calls.stayed)} calls and "
                       f"{len(said.stayed)} definitions in `Promises` stayed.")
    return section(title, f"Contracts of the calls: {tally(calls)}", bullets(*named(calls, function_name)),
                   f"Definitions in `Promises`: {tally(said)}", bullets(*named(said, definition_name)))


def contracts_section(old, new):
    moves = pair_named(*([item for item in items if not is_public(item)] for items in (old, new)))
    return section("Contracts of the other functions", tally(moves), bullets(*named(moves, function_name)))


def proofs_section(old, new):
    moves = pair_files(old, new)
    counts = defaultdict(lambda: [0] * 6)
    changed, stayed = ([new for _, new in pairs] for pairs in (moves.changed, moves.stayed))
    for column, items in enumerate((moves.added, changed, moves.dropped, stayed)):
        for item in items:
            counts[crate_of(item)][column] += 1
    for column, items in ((4, old), (5, new)):
        for item in items:
            counts[crate_of(item)][column] += item.lines
    rows = [[crate, *row] for crate, row in sorted(counts.items()) if any(row[:3]) or row[4] != row[5]]
    rows.append(["**all**", *(sum(row[i] for row in counts.values()) for i in range(6))])
    heads = ["crate", "added", "changed", "dropped", "stayed", "lines before", "lines after"]
    return section("Proof files", tally(moves), table(heads, rows), proofs_listed(moves))


def crate_of(item):
    return item.place.split("/")[1]


def proofs_listed(moves):
    """The files that moved, each with its lines."""
    if len(moves.added) + len(moves.changed) + len(moves.dropped) > MOST_LISTED:
        return f"They are not listed, being more than {MOST_LISTED}."
    added, dropped = ([f"{proof_name(item)} ({item.lines:,})" for item in items] for items in (moves.added, moves.dropped))
    changed = [f"{change(old, new, proof_name)} ({old.lines:,} → {new.lines:,})" for old, new in moves.changed]
    return bullets(("added", added), ("changed", changed), ("dropped", dropped))


def lines_section(rows):
    """Rows: what, lines before, after, added, dropped."""
    total = ["**all**", *(sum(row[i] for row in rows) for i in range(1, 5))]
    return section("Lines", table(["", "before", "after", "added", "dropped"], [*rows, total]))


# What git says, with -z: of a file that moved there are two paths.


def renames(name_status):
    """The new path of each file that moved, by its old one."""
    words, found = iter(name_status.split("\0")), {}
    for status in words:
        if status.startswith("R"):
            old = next(words)
            found[old] = next(words)
        elif status:
            next(words)
    return found


def lines_moved(numstat):
    """The lines added and dropped of the sources in src, specs and proofs."""
    words, moved = iter(numstat.split("\0")), defaultdict(lambda: [0, 0])
    for word in filter(None, words):
        added, dropped, path = word.split("\t")
        path = path or (next(words), next(words))[1]
        if path.endswith((".rt", ".antt")):
            kind = moved[path.split("/")[2]]
            kind[0] += int(added)
            kind[1] += int(dropped)
    return moved


# What was measured.


def seconds(value, digits=0):
    return "–" if value is None else f"{value:,.{digits}f} s"


def times_section(old, new):
    """Old and new are the seconds of each crate, by the clock and of the processors."""
    crates = [*new, *(crate for crate in old if crate not in new)]
    rows = [times_row(crate, old.get(crate), new.get(crate)) for crate in crates]
    rows.append(times_row("**sum**", *([sum(column) for column in zip(*times.values())] for times in (old, new))))
    heads = ["crate", "before", "after", "processors before", "processors after", "change"]
    return section("The check's time", "By the clock, and of the processors, which a busy machine sways less; the change is theirs.",
                   table(heads, rows))


def times_row(what, before, after):
    alone = None, None
    (clock, work), (clock_after, work_after) = before or alone, after or alone
    return [what, seconds(clock), seconds(clock_after), seconds(work, 1), seconds(work_after, 1), percent(work, work_after)]


def bench_rows(text):
    """Our figures of make bench by row, or nothing where it did not come to its end or a figure failed."""
    lines = text.splitlines()
    head = next((i for i, line in enumerate(lines) if re.match(r"what +procedure +ours ", line)), None)
    ended = MEASURED.search(text)
    if head is None or not ended or ended[1] != "0":
        return {}
    left, right = lines[head].index("procedure"), lines[head].index("ours") + len("ours")
    rows = {}
    for line in lines[head + 1:]:
        if not line.strip():
            break
        found = FIGURE.match(line[left:right])
        if found:
            rows[f"{line[:left].strip()}, {found[1]}"] = float(found[2].replace(",", ""))
    return rows


def has_moved(before, after):
    return abs(after - before) > MOVED * abs(before)


def figure(value):
    return "–" if value is None else f"{value:,.0f}" if value >= 1000 else f"{value:,.1f}".removesuffix(".0")


def bench_section(old, new):
    both = [row for row in new if row in old]
    moved = [row for row in both if has_moved(old[row], new[row])]
    alone = [row for row in new if row not in old] + [row for row in old if row not in new]
    said = f"Of {len(both)} counts of `make bench` {len(moved) or 'none'} moved by more than {100 * MOVED:g} %."
    rows = [[row, figure(old.get(row)), figure(new.get(row)), percent(old.get(row), new.get(row))] for row in moved + alone]
    return section("Instructions", said, table(["count", "before", "after", "change"], rows) if rows else "")


def percent(before, after):
    if before is None or after is None:
        return "new" if before is None else "gone"
    return f"{(after - before) / before:+.1%}".replace("%", " %") if before else "from 0"
