"""The procedures that the benchmark measures: their files, their runs and the records of these runs.

A procedure is a tree: ("event", code), ("choice", left, right), ("sequence", left, right) or
("repeat", body, lower, upper); upper is None for no bound. All are strongly deterministic, so that the
record of a run is found without going back.
"""
import itertools
import struct
import sys
from functools import reduce

# A chain of 512 nodes is as deep as it has events.
sys.setrecursionlimit(10000)

BULK = 65536
CODES = 64
ALL_CODES = 128
# So many codes stand in each word of a prompt.
WORD_CODES = 64
NO_BOUND = 65535
KINDS = {"event": 1, "choice": 2, "sequence": 3, "repeat": 4}
OPENING, CLOSING = 1 << 12, 2 << 12


def event(code):
    return ("event", code)


def choice(*parts):
    return reduce(lambda left, right: ("choice", left, right), parts)


def sequence(*parts):
    return reduce(lambda left, right: ("sequence", left, right), parts)


def repeat(body, lower, upper=None):
    return ("repeat", body, lower, upper)


def events(count, codes=CODES):
    return [event(i % codes) for i in range(count)]


def nested(depth):
    """Repeats inside each other, each with an event of its own behind the one inside it."""
    inner = repeat(event(0), 1, 2)
    for i in range(1, depth - 1):
        inner = repeat(sequence(inner, event(i)), 1, 2)
    return repeat(sequence(inner, event(depth - 1)), 0)


def to_the_right(parts):
    return reduce(lambda right, left: ("sequence", left, right), reversed(parts))


def balanced(parts):
    half = len(parts) // 2
    return parts[0] if half == 0 else ("sequence", balanced(parts[:half]), balanced(parts[half:]))


def again(pattern, length):
    return bytes(itertools.islice(itertools.cycle(pattern), length))


def station():
    """e10, then e12 three times, each behind some e11, then e13."""
    return [10] + [11] * 6 + [12] + [11] * 10 + [12] + [11] * 8 + [12, 13]


# The tree and the run of each procedure.
NAMED = {
    "P1": (repeat(event(0), 2, 4), again([0], 4)),
    "P3": (repeat(repeat(event(0), 2, 2), 0), again([0], BULK)),
    "P4": (repeat(event(0), 3, 4096), again([0], 4096)),
    "P6": (repeat(sequence(event(10), repeat(sequence(repeat(event(11), 6, 10), event(12)), 1, 5), event(13)), 0),
           again(station(), BULK - BULK % len(station()))),
    "P7": (nested(32), again(range(32), BULK)),
    "P8": (repeat(choice(*events(60)), 0), again([7 * i % 60 for i in range(60)], BULK)),
    "P9": (repeat(sequence(repeat(event(0), 2, 4096), event(1)), 0), again([0] * 4095 + [1], BULK)),
    "P10": (repeat(sequence(*events(256)), 0), again(range(CODES), BULK)),
    "P10 mod 128": (repeat(sequence(*events(256, ALL_CODES)), 0), again(range(ALL_CODES), BULK)),
}

SIZES = [128, 256, 512]
SHAPES = {
    "left": lambda parts: sequence(*parts),
    "right": to_the_right,
    "balanced": balanced,
}


def shaped(shape, nodes):
    """A repeat over nodes / 2 events in sequence, grouped in one of the shapes, and one block of it."""
    parts = events(nodes // 2)
    return repeat(SHAPES[shape](parts), 0), bytes(code for _, code in parts)


GROWING = {f"{shape}{nodes}": shaped(shape, nodes) for shape in SHAPES for nodes in SIZES}

# The most repeats and, with these, the most events that 512 nodes allow: a sequence takes two nodes for a step down
# the chain, a repeat one.
MOST_REPEATS = 32
DEEP_EVENTS = (SIZES[-1] - MOST_REPEATS + 1) // 2


def deepest(shape):
    """All repeats around a chain, one block each: no part of a procedure lies deeper. The run is its one word."""
    parts = events(DEEP_EVENTS)
    return reduce(lambda body, _: repeat(body, 1, 1), range(MOST_REPEATS), SHAPES[shape](parts)), bytes(
        code for _, code in parts)


DEEPEST = {f"deepest {shape}": deepest(shape) for shape in ("left", "right")}

ALL = {**NAMED, **GROWING, **DEEPEST}


class NoWord(Exception):
    """A run is no word of the procedure."""


class Laid:
    """A tree laid out in postfix order: the node records, and for each part its root, empty word and first."""

    def __init__(self, tree):
        self.records = []
        self.root = self.lay(tree)

    def lay(self, tree):
        kind, *rest = tree
        if kind == "event":
            return self.part(kind, rest[0], (), (0, 0, 0), False, {rest[0]})
        if kind == "repeat":
            body, (lower, upper) = self.lay(rest[0]), rest[1:]
            fields = (body["node"], lower, NO_BOUND if upper is None else upper)
            return self.part(kind, 0, (body,), fields, body["empty"] or lower == 0, body["first"])
        left, right = self.lay(rest[0]), self.lay(rest[1])
        if kind == "choice":
            empty, first = left["empty"] or right["empty"], left["first"] | right["first"]
        else:
            empty = left["empty"] and right["empty"]
            first = left["first"] | right["first"] if left["empty"] else left["first"]
        return self.part(kind, 0, (left, right), (left["node"], right["node"], 0), empty, first)

    def part(self, kind, code, children, fields, empty, first):
        node = len(self.records)
        self.records.append(struct.pack("<BBHHH", KINDS[kind], code, *fields))
        return {"kind": kind, "node": node, "children": children, "lower": fields[1], "upper": fields[2],
                "empty": empty, "first": first}

    def file(self):
        count = len(self.records)
        return b"".join(self.records) + struct.pack("<4sHHI", b"SEQP", count, 1, 12 + 8 * count)

    def record(self, run):
        """The record of a run that is a word."""
        items = []
        if read(self.root, run, 0, items) != len(run):
            raise NoWord
        return struct.pack(f"<{len(items)}H", *items)

    def is_word(self, run):
        try:
            self.record(run)
        except NoWord:
            return False
        return True

    def first(self):
        """The codes that begin a word, as the low and the high word of a prompt."""
        codes = sum(1 << code for code in self.root["first"])
        return codes % (1 << WORD_CODES), codes >> WORD_CODES


def read(part, run, at, items):
    """Appends the items of a part that is read from a place of the run on, and gives the place behind it."""
    if not begins(part, run, at):
        if not part["empty"]:
            raise NoWord
        return at
    kind, children = part["kind"], part["children"]
    if kind == "event":
        items.append(part["node"])
        return at + 1
    if kind == "choice":
        return read(children[0] if begins(children[0], run, at) else children[1], run, at, items)
    if kind == "sequence":
        return read(children[1], run, read(children[0], run, at, items), items)
    return read_blocks(part, run, at, items)


def read_blocks(part, run, at, items):
    blocks, body = 0, part["children"][0]
    while blocks < part["upper"] and begins(body, run, at):
        items.append(part["node"] | OPENING)
        at = read(body, run, at, items)
        items.append(part["node"] | CLOSING)
        # With no bound the count stops at the lower one: a long run must not reach the sign for no bound.
        blocks += part["upper"] != NO_BOUND or blocks < part["lower"]
    if blocks < part["lower"] and not body["empty"]:
        raise NoWord
    return at


def begins(part, run, at):
    return at < len(run) and run[at] in part["first"]


def write_all(folder):
    """Writes NAME.seqp, NAME.run and NAME.record of each procedure into the folder."""
    folder.mkdir(parents=True, exist_ok=True)
    for name, (tree, run) in ALL.items():
        laid = Laid(tree)
        (folder / f"{name}.seqp").write_bytes(laid.file())
        (folder / f"{name}.run").write_bytes(run)
        (folder / f"{name}.record").write_bytes(laid.record(run))
