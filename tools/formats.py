"""What the tables of docs/FORMATS.md have, above all of the records of a payload.

A row that no rule here fits isn't understood, and the scripts that try each row say so.
"""

import itertools
import os
import re
from typing import NamedTuple

from framing import integer, string
from sockets import ROOT

# What follows a type byte, in the table's words, where no rule below reads it.
ARRAY_PARTS = (
    "an element's record, records of attributes and declarations, 01, a type byte, an integer "
    "count, the values"
)
LIST_PARTS = (
    "text records with even type bytes, none of them a list, then its end, A6 or A7 "
    "([why](#the-end-of-a-list))"
)
VALUED = "a text record"
# What a row says that a record is, by the first words.
MEANINGS = {
    "the end of an element": "end",
    "a comment": "comment",
    "an array": "array",
    "an attribute": "attribute",
    "the declaration of": "declaration",
    "the start of": "element",
    "a text; ": "text",
}
STRINGS = ("name", "prefix", "URI", "string")
LIST_END, LIST_AND_ELEMENT_END, END = b"\xa6", b"\xa7", b"\x01"
# Texts of one, two, three and four bytes a character, with the least and greatest of each.
CHARACTERS = "\x00\t\n\"\\~\x7f\x80\u07ff\u0800\ud7ff\ue000\uffff\U00010000\U0010ffff"
ASCII = bytes(range(128))
TEXTS = (b"", b"n", b"aName", CHARACTERS.encode())


class NotUnderstood(Exception):
    """A row of a table that nothing here tries."""


def formats():
    with open(os.path.join(ROOT, "docs", "FORMATS.md"), encoding="utf-8") as file:
        return file.read()


def section(title):
    """The text below a heading, up to the next one."""
    below = r"^#+ %s\n(.*?)(?=^#+ |\Z)" % re.escape(title)
    found = re.search(below, formats(), re.M | re.S)
    if not found:
        raise NotUnderstood("FORMATS has no section %r" % title)
    return found[1]


def cells(line):
    return [it.strip() for it in line.strip().strip("|").split("|")]


def tables(title):
    """The tables of a section, each its rows without the head, each of these its cells."""
    blocks = re.findall(r"(?:^\|.*\n)+", section(title), re.M)
    return [[cells(line) for line in block.splitlines()[2:]] for block in blocks]


def known(what, names, expected):
    """Fails where a table has another row than those that a script knows, or lacks one."""
    for name in sorted(set(names) ^ set(expected)):
        raise NotUnderstood("%s: either FORMATS or what tries it lacks %r" % (what, name))


def types_of(cell):
    """The type bytes of a row."""
    if re.fullmatch("[0-9A-F]{2} to [0-9A-F]{2}", cell):
        first, last = (int(it, 16) for it in cell.split(" to "))
        return list(range(first, last + 1))
    if not re.fullmatch("[0-9A-F]{2}(, [0-9A-F]{2})*", cell):
        raise NotUnderstood("the type bytes %r" % cell)
    return [int(it, 16) for it in cell.split(", ")]


def for_each(types, choices, row):
    """What a row says of each of its type bytes, in as many choices, or in one for all."""
    if len(choices) not in (1, len(types)):
        raise NotUnderstood("for each of the type bytes: %s" % row)
    return zip(types, choices * len(types) if len(choices) == 1 else choices)


class Record(NamedTuple):
    """A record that isn't a text: what it is, its type byte, the strings and identifiers that
    follow, and whether a text record comes behind them."""

    what: str
    row: str
    type: int
    parts: tuple
    has_value: bool

    def spelled(self, parts, least=1):
        """The bytes of the record, but for a text record behind them, with these strings and
        identifiers, whose integers have at least so many bytes."""
        spelling = (integer if part == "identifier" else string for part in self.parts)
        return bytes([self.type]) + b"".join(put(it, least) for put, it in zip(spelling, parts))


class Text(NamedTuple):
    """A text record: the even type byte, what follows it, the size in it, and the contents that are
    tried."""

    type: int
    layout: str
    size: int
    contents: tuple

    def records(self):
        return [bytes([self.type]) + it for it in self.contents]

    def is_measured(self):
        """Whether its content has any length."""
        return self.layout in FILLING

    def of_length(self, length):
        """The record with so many bytes of content."""
        filling = FILLING[self.layout]
        content = filling * (length // len(filling))
        return bytes([self.type]) + measured(self.size, content)


def meaning(says, before):
    """What a record is. A row that says 'the same' is as the one before."""
    for words, what in MEANINGS.items():
        if says.startswith(words):
            return what
    if says != "the same":
        raise NotUnderstood("a record that says %r" % says)
    return before


def parts_of(choice):
    """The parts of a record, such as 'a prefix and a name'."""
    parts = tuple(re.sub("^an? ", "", it) for it in choice.split(" and "))
    for part in parts:
        if part not in STRINGS and part != "identifier" and parts != ("nothing",):
            raise NotUnderstood("a record with %r" % choice)
    return () if parts == ("nothing",) else parts


def records_of(row, what):
    """The records of a row."""
    head, _, tail = row[1].partition("; ")
    if tail not in ("", VALUED) or (what == "array") != (row[1] == ARRAY_PARTS):
        raise NotUnderstood("what follows in %s" % row)
    choices = [""] if what == "array" else head.split(", ")
    for number, choice in for_each(types_of(row[0]), choices, row):
        parts = () if what == "array" else parts_of(choice)
        yield Record(what, row[0], number, parts, bool(tail))


def records():
    """All records of a payload but the texts."""
    what = None
    for row in tables("Records of a payload")[0]:
        what = meaning(row[2], what)
        if what != "text":
            yield from records_of(row, what)


def fixed(size):
    """Contents of so many bytes: zeros, the least number and the greatest, others."""
    zeros, ones = bytes(size), b"\xff" * size
    counted = bytes(range(1, size + 1))
    return zeros, ones, zeros[1:] + b"\x80", ones[1:] + b"\x7f", counted, counted[::-1]


def decimals(_):
    ignored, scales, signs = (b"\0\0", b"\xff\xff"), (b"\x00", b"\x1c"), (b"\x00", b"\x80")
    numbers = (bytes(12), b"\xff" * 12, bytes(range(12)))
    return map(b"".join, itertools.product(ignored, scales, signs, numbers))


def lengths(width):
    """Lengths that are written in so many bytes, but for those of large texts."""
    return (0, 1, 127, 128, 255) if width == 1 else (0, 1, 255, 256, 300)


def measured(width, text):
    return len(text).to_bytes(width, "little") + text


def utf8(width):
    return [measured(width, b"t" * it) for it in lengths(width)] + [
        measured(width, it) for it in (CHARACTERS.encode(), ASCII)
    ]


def binary(width):
    return [measured(width, b"\xff" * it) for it in lengths(width)]


def utf16(width):
    texts = ["t" * (it // 2) for it in lengths(width)] + [CHARACTERS]
    return [measured(width, it.encode("utf-16-le")) for it in texts]


# What follows an even type byte, by the words for it. The numbers in them are sizes.
LAYOUTS = {
    "nothing": lambda _: [b""],
    "# bytes, two's complement": fixed,
    "# bytes": fixed,
    "two ignored bytes, scale, sign 00 or 80, the upper 32 bits, the lower 64": decimals,
    "a length of # bytes, as many bytes of UTF-8": utf8,
    "a length of # bytes, as many bytes": binary,
    "a length in bytes of # bytes, as many bytes of UTF-16": utf16,
    "00 or 01, and no other byte (own)": lambda _: [b"\0", b"\1"],
    LIST_PARTS: lambda _: [LIST_END],
}
NAMING_LAYOUTS = {
    "an identifier": lambda names: names,
    "a letter 00 to 19, an identifier": lambda names: [
        bytes([letter]) + names[letter % len(names)] for letter in range(26)
    ],
}
# What fills contents of any length.
FILLING = {
    "a length of # bytes, as many bytes of UTF-8": b"t",
    "a length of # bytes, as many bytes": b"\xff",
    "a length in bytes of # bytes, as many bytes of UTF-16": b"t\0",
}
SIZES = re.compile(r"\d(?:\d|, \d)*(?= bytes)")


def contents_of(layout, size, names):
    if layout in NAMING_LAYOUTS:
        return tuple(NAMING_LAYOUTS[layout](names))
    if layout not in LAYOUTS:
        raise NotUnderstood("a text record with %r" % layout)
    return tuple(LAYOUTS[layout](size))


def texts_of(row, names):
    """The text records of a row."""
    types, sizes = types_of(row[0]), [None]
    layout = row[1]
    if layout not in LAYOUTS and (found := SIZES.search(layout)):
        sizes = [int(it) for it in found[0].split(", ")]
        layout = layout.replace(found[0], "#", 1)
    for number, size in for_each(types, sizes, row):
        yield Text(number, layout, size, contents_of(layout, size, names))


def texts(identifiers):
    """All text records, of which some name strings by these identifiers."""
    names = [integer(it) for it in identifiers]
    return [it for row in tables("Records of a payload")[1] for it in texts_of(row, names)]


def array_types():
    """The type byte of each kind of array."""
    listed = re.search(r"Their type byte is one of (.*?)\. ", section("Values of an array"), re.S)
    if not listed:
        raise NotUnderstood("the type bytes of arrays")
    kinds = (it.split() for it in listed[1].replace("\n", " ").split(", "))
    return {name: int(number, 16) for number, name in kinds}


def array_kinds(all_texts):
    """Of each kind of array its type byte, and values of it, which stand as in a text record."""
    of_type = {it.type: it for it in all_texts}
    for name, number in array_types().items():
        if number % 2 == 0 or number - 1 not in of_type:
            raise NotUnderstood("an array of %s" % name)
        yield number, of_type[number - 1].contents
