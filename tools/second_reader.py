"""A second reader of journals, to compare the program's `read_journal` with.

It was written from the format alone, which docs/journals.md restates, and shares no code with the program. It says whether a text
is the text of a journal, and if not, the first line up to which no journal's text agrees with it. Each line that may come can be
gone on with to a whole journal, so that is the first line that may not come. Nothing of it is proved.
"""

import re
from collections.abc import Iterator
from functools import cache

SIZES = "16 32 64 96 128 192 256 512 1024 2048 4096".split()
TOTALS = (
    "steps given empty busy last still acquired exchanged pushed already taken none raised worked fetched returned "
    "plain tracing handlers"
).split()

BYTE, SHORT, NUMBER, LONG = 2**8, 2**16, 2**32, 2**64
# the numbers that a part of a form may be: units, processors, homes and fields are small, all others have 32 bits
LIMITS = {"U": SHORT, "H": BYTE, "F": BYTE, "P": BYTE}
# how many numbers a list may have; lists of units have no limit
LISTS = {"U*": (SHORT, None), "V*": (NUMBER, 8), "W*": (NUMBER, 16)}

# what an entry says behind its level; words in small letters stand for themselves
ENTRIES = """
fill C U*|script NAME|done NAME|handler NAME|back NAME|in D W|out D W|yield|ended|close
new NAME V*|given U L|given U L after S N|empty|busy A|drop U L|still K|last|free U H|delay U H
acquire U L K|get U L F V|xchg NAME put X was X by B|lock NAME|unlock NAME
push_front NAME U L at POS|push_back NAME U L at POS|add NAME U L at POS
push_front NAME U L already NAME at POS|push_back NAME U L already NAME at POS|add NAME U L already NAME at POS
pop_front NAME X at POS|pop_back NAME X at POS|first NAME X at POS|remove NAME U L at POS
work C|begin D N|finish D N first W* later W*
enter C A|pop C U|pop C none|count C K|leave C A|raise C|push C U|delayed C U
look C K|put C U|lost C|lookd C K|putd C U|lostd C|receive C U*|read C K|ready C U|second C U
fetch C WANT U*|takex C U*|send C P U*|taked C U*|batch C U*|stamp C D S|pass C D N|begin2 C U*|return C U*|sweep C U*
"""

# what a line of a history says behind its position and its call; OWNER is one of the maps
CALLS = """
push_front U L|push_front U L already OWNER|push_back U L|push_back U L already OWNER
add U L KEY|add U L KEY already OWNER|pop_front U L|pop_front none|pop_back U L|pop_back none
first U L|first none|remove U L
"""


def forms(table: str) -> dict[str, list[list[str]]]:
    """The forms of a table by their first words, each with the parts behind that word."""
    told: dict[str, list[list[str]]] = {}
    for form in re.split(r"[|\n]", table.strip()):
        first, *parts = form.split()
        told.setdefault(first, []).append(parts)
    return told


ENTRY_FORMS, CALL_FORMS = forms(ENTRIES), forms(CALLS)


def is_number(word: str, limit: int) -> bool:
    """Whether these are the digits of a number below the limit, without a leading zero."""
    return re.fullmatch("0|[1-9][0-9]{0,19}", word) is not None and int(word) < limit


def is_name(word: str) -> bool:
    return re.fullmatch("[A-Za-z_][A-Za-z0-9_]{0,30}", word) is not None


def are_names(words: list[str]) -> bool:
    return all(is_name(word) for word in words)


def is_object(words: list[str]) -> bool:
    return len(words) == 2 and is_number(words[0], SHORT) and is_number(words[1], NUMBER)


def is_tag(words: list[str]) -> bool:
    return len(words) == 2 and is_number(words[0], BYTE) and is_number(words[1], NUMBER)


def lengths(part: str, words: list[str], owners: frozenset[str]) -> Iterator[int]:
    """How many of these words, from the first on, the part of a form may be."""
    if part in LISTS:
        limit, most = LISTS[part]
        yield 0
        for count, word in enumerate(words, 1):
            if not is_number(word, limit) or (most is not None and count > most):
                return
            yield count
    elif part == "X" or part == "B":
        if words[:1] == ["none" if part == "X" else "start"]:
            yield 1
        if (is_object if part == "X" else is_tag)(words[:2]):
            yield 2
    elif words and stands(part, words[0], owners):
        yield 1


def stands(part: str, word: str, owners: frozenset[str]) -> bool:
    """Whether one word is what the part of a form asks for."""
    if part.islower():
        return word == part
    if part == "NAME":
        return is_name(word)
    if part == "OWNER":
        return word in owners
    if part == "C":
        return word in SIZES
    if part == "D":
        return word in ("plain", "tracing")
    return is_number(word, LIMITS.get(part, NUMBER))


def fits(parts: list[str], words: list[str], owners: frozenset[str]) -> bool:
    if not parts:
        return not words
    return any(fits(parts[1:], words[count:], owners) for count in lengths(parts[0], words, owners))


@cache
def is_entry(line: str) -> bool:
    level, *words = line.split(" ")
    return level in ("0", "1", "2", "3") and any(fits(parts, words[1:], frozenset()) for parts in ENTRY_FORMS.get("".join(words[:1]), []))


def is_call(line: str, position: int, owners: frozenset[str]) -> bool:
    """Whether a line is a call of a history at this position."""
    at, *words = line.split(" ")
    if at != "at" or words[:2] != [str(position), "by"] or not is_tag(words[2:4]):
        return False
    return any(fits(parts, words[5:], owners) for parts in CALL_FORMS.get("".join(words[4:5]), []))


class Wrong(Exception):
    """The next line may not come."""


class Lines:
    """The lines of a text that end by a line feed, and what stands behind the last of them."""

    def __init__(self, text: bytes):
        *self.whole, self.rest = text.decode("latin-1").split("\n")
        self.read = 0

    def next(self) -> str | None:
        return self.whole[self.read] if self.read < len(self.whole) else None

    def take(self, may_come: bool) -> None:
        if not may_come:
            raise Wrong
        self.read += 1

    def words_behind(self, first: str) -> list[str]:
        """The words of the next line, which begins with this one."""
        words = (self.next() or "").split(" ")
        if self.next() is None or words[0] != first:
            raise Wrong
        return words[1:]


def read_heading(lines: Lines) -> list[str]:
    """The names of the maps."""
    size = lines.words_behind("processors")
    lines.take(len(size) == 3 and is_number(size[0], BYTE) and size[1] == "pages" and is_number(size[2], SHORT))
    lines.take(are_names(lines.words_behind("types")))
    maps = lines.words_behind("maps")
    lines.take(are_names(maps) and len(set(maps)) == len(maps))
    lines.take(are_names(lines.words_behind("scripts")))
    return maps


def begins(lines: Lines, first: str) -> bool:
    following = lines.next()
    return following is not None and following.split(" ")[0] == first


def read_all(lines: Lines) -> None:
    # a journal has an owner's place among the maps in a byte
    owners = frozenset(read_heading(lines)[:BYTE])
    while begins(lines, "class"):
        words = lines.words_behind("class")
        lines.take(len(words) == 5 and words[0] in SIZES and words[1] == "marks" and all(is_number(word, NUMBER) for word in words[2:]))
    processor = 0
    while begins(lines, "processor"):
        lines.take(lines.words_behind("processor") == [str(processor)])
        processor += 1
        while (line := lines.next()) is not None and line[:1].isdigit():
            lines.take(is_entry(line))
    while begins(lines, "graph"):
        words = lines.words_behind("graph")
        lines.take(len(words) == 1 and is_name(words[0]))
        position = 0
        while begins(lines, "at"):
            lines.take(is_call(lines.next() or "", position, owners))
            position += 1
    for total in TOTALS:
        words = lines.words_behind("total")
        lines.take(len(words) == 2 and words[0] == total and is_number(words[1], LONG))
    lines.take(lines.next() is None and lines.rest == "")


def first_wrong(text: bytes) -> int:
    """The first line up to which no journal's text agrees with this one, or 0 where it is a journal's text."""
    lines = Lines(text)
    try:
        read_all(lines)
    except Wrong:
        return lines.read + 1
    return 0
