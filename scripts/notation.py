"""The notation of procedures: reads a source and gives the bytes of its procedure file.

A source is the free text, if any, a line "procedure:" and the procedure. What is wrong with it is a Fault at a place.
"""
import re
import struct
from typing import NamedTuple

EMPTY, EVENT, CHOICE, SEQUENCE, REPEAT = range(5)
MOST_CODE, MOST_BOUND, NO_BOUND = 127, 4096, 65535
MOST_NODES, MOST_TEXT = 512, 4096
EDITION = 1

# Blanks behind it cannot be seen, and so they do not count.
HEADING = re.compile(r"^procedure:[ \t]*$", re.M)
# A line that was perhaps meant as the heading.
LIKE_HEADING = re.compile(r"^[ \t]*procedure\b", re.I | re.M)
NOT_ASCII = re.compile(r"[^\x00-\x7f]")
BLANKS = re.compile(r"\s*")
SIGN = re.compile(r"e[0-9]+|[0-9]+|[()|,{}]")
NO_SIGN = re.compile(r"\w+|.", re.A | re.S)
JOINING = {",": SEQUENCE, "|": CHOICE}
# How strongly a sign binds; "" is the end. What waits on the left of an item is joined with it if it binds at
# least as strongly as the sign behind the item, and an opening bracket waits for the one that closes it.
STRENGTH = {"(": 0, ")": 1, "": 1, "|": 2, ",": 3}
SHOWN = 20  # of each end of a long piece


class Fault(Exception):
    """Why a source makes no file, or a file was not judged; and the place in the source, if there is one."""

    def __init__(self, what, at=None):
        super().__init__(what)
        self.at = at


class Sign(NamedTuple):
    """An event, a number or another sign, or the end, which has no word; and its place in the source."""
    word: str
    at: int

    @property
    def end(self):
        return self.at + len(self.word)

    def __str__(self):
        return repr(shown(self.word)) if self.word else "the end"


class Part(NamedTuple):
    """A part of a procedure: its root, and where it begins and ends in the source, brackets included."""
    root: int
    begin: int
    end: int


class Node(NamedTuple):
    """A node record, the place of the sign that makes it, and its children or its body."""
    record: bytes
    at: int
    parts: tuple[Part, ...] = ()


class Waiting(NamedTuple):
    """A comma or a bar and what stands left of it, or an opening bracket."""
    sign: Sign
    left: Part | None


def shown(text):
    """A piece of a source on one line, without the middle if it is long."""
    text = " ".join(text.split())
    return text if len(text) <= 2 * SHOWN else f"{text[:SHOWN]} .. {text[-SHOWN:]}"


def located(name, source, at, what):
    """What is said of a place in a source, behind the name and the line and the column, from 1."""
    line, column = source.count("\n", 0, at) + 1, at - source.rfind("\n", 0, at)
    return f"{name}:{line}:{column}: {what}"


class Signs:
    """The signs of a source from a place on, read one by one."""

    def __init__(self, source, at):
        self.source, self.end = source, len(source.rstrip())
        self.next = self.found(at)

    def found(self, at):
        at = BLANKS.match(self.source, at).end()
        if at >= self.end:
            return Sign("", self.end)
        match = SIGN.match(self.source, at)
        if not match:
            raise Fault(f"{shown(NO_SIGN.match(self.source, at)[0])!r} has no meaning in a procedure", at)
        return Sign(match[0], at)

    def take(self):
        sign = self.next
        if sign.word:
            self.next = self.found(sign.end)
        return sign


def record(kind, code=0, first=0, second=0, third=0):
    return struct.pack("<BBHHH", kind, code, first, second, third)


class Nodes:
    """Reads a procedure and lists its nodes in postfix order."""

    def __init__(self, source, at):
        # What is not yet joined waits in a list and not in calls, so that brackets may be as deep as wished.
        self.signs, self.waiting, self.listed = Signs(source, at), [], []
        part = self.item()
        while self.signs.next.word:
            part = self.longer(part, self.signs.take())
        self.joined(part, self.signs.next)
        if self.waiting:
            raise Fault("'(' is never closed", self.waiting[-1].sign.at)

    def add(self, node, begin, end):
        if len(self.listed) == MOST_NODES:
            raise Fault(f"there are more than {MOST_NODES} nodes", node.at)
        self.listed.append(node)
        return Part(len(self.listed) - 1, begin, end)

    def item(self):
        """An event or an empty, behind any number of opening brackets."""
        sign = self.signs.take()
        while sign.word == "(" and self.signs.next.word != ")":
            self.waiting.append(Waiting(sign, None))
            sign = self.signs.take()
        if sign.word == "(":
            return self.add(Node(record(EMPTY), sign.at), sign.at, self.signs.take().end)
        if not sign.word.startswith("e"):
            raise Fault(f"an event, () or a bracket is expected, not {sign}", sign.at)
        code = number(sign.word[1:], MOST_CODE, f"{sign} is no event: they are e0 to e{MOST_CODE}", sign.at)
        return self.add(Node(record(EVENT, code), sign.at), sign.at, sign.end)

    def longer(self, part, sign):
        """What a part becomes by the sign behind it; behind a comma or a bar, the item that follows."""
        if sign.word == "{":
            return self.repeat(part, sign)
        if not STRENGTH.get(sign.word):
            raise Fault(f"a comma, a bar or {{k,l}} is expected before {sign}", sign.at)
        part = self.joined(part, sign)
        if sign.word in JOINING:
            self.waiting.append(Waiting(sign, part))
            return self.item()
        if not self.waiting:
            raise Fault("')' closes no bracket", sign.at)
        return Part(part.root, self.waiting.pop().sign.at, sign.end)

    def joined(self, part, sign):
        """The part with all that waits on its left and binds at least as strongly as the sign behind it."""
        while self.waiting and STRENGTH[self.waiting[-1].sign.word] >= STRENGTH[sign.word]:
            join, left = self.waiting.pop()
            pair = record(JOINING[join.word], 0, left.root, part.root)
            part = self.add(Node(pair, join.at, (left, part)), left.begin, part.end)
        return part

    def repeat(self, body, brace):
        lower = self.bound()
        if self.signs.next.word == "}" and lower > 0:
            raise Fault(f"{{{lower}}} has one bound: is {{{lower},{lower}}} meant?", brace.at)
        self.expected(",")
        upper = NO_BOUND if self.signs.next.word == "}" else self.bound()
        end = self.expected("}").end
        if upper == 0 or lower > upper:
            raise Fault(f"{{{lower},{upper}}} are no bounds: "
                        + ("the lower is above the upper" if upper else "the upper is at least 1"), brace.at)
        return self.add(Node(record(REPEAT, 0, body.root, lower, upper), brace.at, (body,)), body.begin, end)

    def bound(self):
        sign = self.signs.take()
        return number(sign.word, MOST_BOUND, f"a bound from 0 to {MOST_BOUND} is expected, not {sign}", sign.at)

    def expected(self, word):
        sign = self.signs.take()
        if sign.word != word:
            raise Fault(f"{word!r} is expected, not {sign}", sign.at)
        return sign


def number(digits, most, otherwise, at):
    """A number up to the most, or the fault."""
    # Six digits show that it is too large; Python refuses to read thousands.
    value = int(digits.lstrip("0")[:6] or "0") if digits.isdigit() else most + 1
    if value > most:
        raise Fault(otherwise, at)
    return value


def heading(source):
    """Where the heading line begins and ends."""
    found = HEADING.search(source)
    if not found:
        like = LIKE_HEADING.search(source)
        raise Fault("there is no line 'procedure:' with nothing else on it",
                    like.start() if like else len(source.rstrip()))
    return found.span()


def free_text(text):
    """The bytes of the free text, which ends with its line; blank lines alone are no text."""
    text = text.rstrip()
    text += "\n" if text else ""
    if len(text) > MOST_TEXT:
        raise Fault(f"the text is longer than {MOST_TEXT} bytes", MOST_TEXT)
    return text.encode("ascii")


class Procedure(NamedTuple):
    """A source, and the free text and the nodes that it makes."""
    source: str
    text: bytes
    nodes: list[Node]

    def file(self):
        """The bytes of the procedure file."""
        count = len(self.nodes)
        trailer = struct.pack("<4sHHI", b"SEQP", count, EDITION, 12 + 8 * count)
        return self.text + b"".join(node.record for node in self.nodes) + trailer


def read(source):
    """The procedure of a source."""
    found = NOT_ASCII.search(source)
    if found:
        raise Fault(f"the byte 0x{ord(found[0]):02x} is not ASCII", found.start())
    begin, end = heading(source)
    return Procedure(source, free_text(source[:begin]), Nodes(source, end).listed)


def made(source):
    """The bytes of the procedure file of a source."""
    return read(source).file()
