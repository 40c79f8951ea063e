"""Documents that are made up of what the tables of docs/FORMATS.md have, as bytes and as lines:
each record, value and item in each place where it may stand, with words for each document."""

import itertools
import re

from formats import END, LIST_AND_ELEMENT_END, LIST_END, LIST_PARTS, TEXTS
from formats import NotUnderstood, array_kinds, known, records, section, tables, texts
from framing import integer

ARRAY = b"\x03"
# An element, the Number 0 in it, and the same behind which it ends.
ELEMENT, ZERO, LAST_ZERO = b"\x40\x01e", b"\x80", b"\x81"
# A request, up to its Body's content and from there on. Its names are static strings.
ENVELOPE = b"\x56\x02\x0b\x01s\x04\x0b\x01a\x06"
REQUEST = ENVELOPE + b"\x56\x08\x44\x0a\x1e\x00\x82\x99\x08urn:echo\x01\x56\x0e"
REQUEST_END = b"\x01\x01"
# The prefixes of the records that are made, but for those that each request declares.
PREFIXES = sorted({bytes([it]) for it in b"bcdefghijklmnopqrtuvwxyz"} | {it for it in TEXTS if it})


def examples(record, identifiers):
    """A record with each choice of its parts."""
    choices = (identifiers if part == "identifier" else TEXTS for part in record.parts)
    return [record.spelled(it) for it in itertools.product(*choices)]


class Records:
    """The records of FORMATS, with examples that name strings by these identifiers."""

    def __init__(self, identifiers):
        self.texts = texts(identifiers)
        self.lists = bytes(it.type for it in self.texts if it.layout == LIST_PARTS)
        self.forms = {}
        for record in records():
            forms = self.forms.setdefault(record.what, {})
            of_form = forms.setdefault((record.row, record.parts), [])
            of_form += examples(record, identifiers)
        self.kinds = list(array_kinds(self.texts))
        # Of each form the examples in turn, and the kinds of arrays.
        self.turns = {
            form: itertools.cycle(it) for forms in self.forms.values() for form, it in forms.items()
        }
        self.kind_turns = itertools.cycle(self.kinds)

    def all_of(self, what):
        return list(itertools.chain.from_iterable(self.forms[what].values()))

    def one_of_each_form(self, what):
        return [next(self.turns[form]) for form in self.forms[what]]

    def array_of(self, element, inner):
        """An array of the next kind, with an element and its attributes and declarations."""
        kind, values = next(self.kind_turns)
        return array(element, inner, kind, values)


def array(element, inner, kind, values):
    return ARRAY + element + inner + END + bytes([kind]) + integer(len(values)) + b"".join(values)


def ending(record):
    """The record whose type byte ends its element too."""
    return bytes([record[0] + 1]) + record[1:]


def in_element(*content):
    return ELEMENT + b"".join(content) + END


def requested(document, declared=b""):
    """A request with this document in its Body, whose Envelope has more declarations."""
    return ENVELOPE + declared + REQUEST[len(ENVELOPE) :] + document + REQUEST_END


def elements(made):
    """Each start of an element: empty, with a text, and within another one."""
    for start in made.all_of("element"):
        yield "an element", start + END
        yield "an element with a text", start + LAST_ZERO
        yield "an element in an element", in_element(start + start + END + END)


def attributes(made):
    for start in made.all_of("attribute"):
        yield "an attribute", in_element(start, ZERO)
        yield "an attribute of an array", in_element(made.array_of(ELEMENT, start + ZERO))
    for one, two in itertools.product(made.one_of_each_form("attribute"), repeat=2):
        yield "two attributes", in_element(one, ZERO, two, ZERO)


def declarations(made):
    for declaration in made.all_of("declaration"):
        yield "a declaration", in_element(declaration)
        yield "a declaration of an array", in_element(made.array_of(ELEMENT, declaration))
    for attribute in made.one_of_each_form("attribute"):
        for declaration in made.one_of_each_form("declaration"):
            yield "a declaration before an attribute", in_element(declaration, attribute, ZERO)
            yield "a declaration behind an attribute", in_element(attribute, ZERO, declaration)


def comments(made):
    for comment in made.all_of("comment"):
        yield "a comment", in_element(comment)
        yield "comments and texts", in_element(comment, ZERO, comment, ZERO, ELEMENT, END, comment)
        for start in made.one_of_each_form("attribute"):
            yield "a comment behind an attribute", in_element(start, ZERO, comment)


def arrays(made):
    """Each kind with each form of element, without more, with attributes and with declarations."""
    for start in made.all_of("element"):
        yield "an array", in_element(made.array_of(start, b""))
    for kind, values in made.kinds:
        for start in made.one_of_each_form("element"):
            yield "an array of a kind", in_element(array(start, b"", kind, values))
            for attribute in made.one_of_each_form("attribute"):
                inner = attribute + ZERO
                yield "an array with an attribute", in_element(array(start, inner, kind, values))
            for inner in made.one_of_each_form("declaration"):
                yield "an array with a declaration", in_element(array(start, inner, kind, values))
        for value in values:
            yield "arrays of a value", in_element(array(ELEMENT, b"", kind, [value]) * 2)


def in_content(made, text):
    """A text as an element's content, and in a list there."""
    yield "a text", in_element(text)
    yield "a text between others", in_element(ZERO, text, ELEMENT, END, text, ZERO)
    if text[0] in made.lists:
        yield "a list that ends its element", ELEMENT + text[:-1] + LIST_AND_ELEMENT_END
        return
    yield "a text that ends its element", ELEMENT + ending(text)
    for start in made.lists:
        listed = bytes([start]) + text + ZERO + text
        yield "a list", in_element(listed, LIST_END)
        yield "a list that ends its element", ELEMENT + listed + LIST_AND_ELEMENT_END


def in_attribute(made, text):
    """A text as the value of each form of attribute, of an element and of an array, and in a list
    there."""
    values = [("", text)]
    if text[0] not in made.lists:
        values += [("a list in ", bytes([it]) + text + text + LIST_END) for it in made.lists]
    for start in made.one_of_each_form("attribute"):
        for words, value in values:
            yield words + "an attribute", in_element(start, value)
            yield words + "an array's attribute", in_element(made.array_of(ELEMENT, start + value))


def texts_in_places(made):
    for text in itertools.chain.from_iterable(it.records() for it in made.texts):
        yield from in_content(made, text)
        yield from in_attribute(made, text)


def documents_of_bytes(identifiers):
    """Documents of each record, with words for each."""
    made = Records(identifiers)
    known("what a record is", made.forms, MADE)
    for what in (*MADE.values(), texts_in_places):
        for words, document in what(made):
            yield "%s: %s" % (words, document.hex(" ")[:150]), document


# What makes documents of the records that FORMATS has of each sort.
MADE = {
    "element": elements,
    "attribute": attributes,
    "declaration": declarations,
    "comment": comments,
    "array": arrays,
    # It stands in all of these.
    "end": lambda made: [],
}


# Numbers at the ends of those that have so many bits and a sign.
def signed(bits):
    return [0, 1, -1] + [it for n in range(7, bits, 8) for it in (2**n - 1, -(2**n))]


WIDTHS = (8, 16, 32, 64)
NUMBERS = sorted({it for n in WIDTHS for it in (*signed(n), 2**n - 1, 2 ** (n - 1))})
# The numbers of a value, by what the table says of those that are valid.
VALID_NUMBERS = {
    "-2^63 to 2^64 - 1": [NUMBERS],
    "64 bits with a sign, in units of 100 ns": [signed(64)],
    "scale at most 28, magnitude below 2^96": [(0, 9, 28), (0, 1, 2**64 - 1, 2**64, 2**96 - 1)],
}
IDENTIFIER = "00112233-4455-6677-8899-aabbccddeeff"


def quoted(text):
    """A text as `dump` prints it."""
    plain = (chr(it) if 32 <= it < 127 and it not in b'"\\' else "\\%02x" % it for it in text)
    return '"%s"' % "".join(plain)


QUOTED = [quoted(it) for it in (*TEXTS, b"t" * 15, b"t" * 16, b"t" * 17, b"t" * 127, b"t" * 300)]
WORDS = {
    "Q": QUOTED,
    "U": [IDENTIFIER, "0" * 8 + "-0000-0000-0000-" + "0" * 12],
    "L": "abcdefghijklmnopqrstuvwxyz",
    '"H"': ['""', '"00"', '"%s"' % ("0f" * 16), '"%s"' % ("ff" * 300)],
}


def digits(count):
    return ["0" * count, "f" * count, "0123456789abcdef"[:count], "8" + "0" * (count - 1)]


def choices(words, numbers, width):
    """What each word of a value's form may be."""
    numbers = iter(numbers)
    for word in words:
        if word == "N":
            yield [str(it) for it in next(numbers)]
        elif word == "H":
            yield digits(width)
        else:
            yield WORDS.get(word, [word])


def spans(cell):
    return re.findall("`([^`]*)`", cell)


def forms_of(row, valid):
    """Of each form of a value in a row its words, the numbers in it, and how many digits."""
    names = [re.sub("^an? ", "", it) for it in re.split(", | and ", row[0])]
    forms = spans(row[1].partition(": ")[0])
    widths = [int(it) for it in re.findall(r"\d+", row[1].partition("with ")[2])]
    if names == ["list"]:
        return
    for name, form, width in itertools.zip_longest(names, forms, widths):
        name = name or names[0]
        has_number = "N" in (form or "").split()
        if name not in valid or not form or has_number and valid[name] not in VALID_NUMBERS:
            raise NotUnderstood("the value %s" % row)
        yield form.split(), VALID_NUMBERS.get(valid[name], []), width


def values_by_word():
    """Values in lines, by their first word."""
    valid = {
        name: row[1]
        for row in tables("Values, items, documents")[0]
        for name in row[0].split(", ")
    }
    made = {}
    for row in tables("Lines of documents")[1]:
        for words, numbers, width in forms_of(row, valid):
            values = itertools.product(*choices(words, numbers, width))
            made.setdefault(words[0], []).extend(" ".join(it) for it in values)
    return made


def values_of_kind(kind, values):
    """Values of a kind of array."""
    if bits := re.fullmatch(r"int(\d+)", kind):
        return ["number %d" % it for it in signed(int(bits[1]))]
    word = "truth" if kind == "bool" else kind
    if word not in values:
        raise NotUnderstood("an array of %s" % kind)
    return values[word]


def kinds_in_lines(values):
    """The kinds of arrays, with values of each."""
    listed = re.search(r"^K is one of (.*?)\.$", section("Lines of documents"), re.M | re.S)
    return {kind: values_of_kind(kind, values) for kind in spans(listed[1])}


ITEMS = ("start", "ns", "attr", "text", "comment", "array", "values", "close")


def lines(*items):
    return "".join(it + "\n" for it in ('start "" "e"', *items, "close"))


def in_lines(value, kind, kind_values):
    """A value in each place. A QName's name may have to stand in a list's name before."""
    one, listed = value, "list 2 %s %s" % (value, value)
    array_of = "array %s" % kind, "values " + " ".join(kind_values)
    yield "a text", lines("text " + one, "text " + one)
    yield "a list", lines("text " + listed)
    for words, it in (("", one), ("a list in ", listed)):
        attribute = 'attr "p" "a" ' + it
        yield words + "an attribute", lines(attribute)
        begin = array_of[0] + ' "" "i"'
        yield words + "an array's attribute", lines(begin, attribute, array_of[1])


def names_in_lines(kinds):
    """Each pair of names in each item that has two, and each text in a comment."""
    for prefix, name in itertools.product(QUOTED, repeat=2):
        pair = "%s %s" % (prefix, name)
        yield "a start", lines("start " + pair, "close")
        yield "a declaration", lines("ns " + pair)
        yield "an attribute's name", lines("attr %s truth true" % pair)
        for kind, values in kinds.items():
            array_of = "array %s %s" % (kind, pair), "values " + values[0]
            yield "an array's name", lines(*array_of)
            yield "an array's declaration", lines(array_of[0], "ns " + pair, array_of[1])
    for text in QUOTED:
        yield "a comment", lines("comment " + text, "comment " + text)


def documents_of_lines():
    """Documents of each line and value, with words for each."""
    known("a line", {spans(it[0])[0].split()[0] for it in tables("Lines of documents")[0]}, ITEMS)
    values = values_by_word()
    kinds = kinds_in_lines(values)
    turns = itertools.cycle(kinds.items())
    yield "empty lists", lines('attr "" "a" list 0', "text list 0")
    for value in itertools.chain.from_iterable(values.values()):
        for words, document in in_lines(value, *next(turns)):
            yield "%s: %s" % (words, value[:100]), document
    for kind, of_kind in kinds.items():
        for value in (*of_kind, " ".join(of_kind)):
            yield "an array of %s" % kind, lines('array %s "" "i"' % kind, "values " + value)
    yield from names_in_lines(kinds)
