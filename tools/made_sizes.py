"""Documents of each size: lengths of texts, names and other strings, and counts of what may come
many times. Made of the records in FORMATS' tables, each with words for it."""

from formats import END, LIST_END, records
from framing import integer, string
from made_documents import ELEMENT, LAST_ZERO, ZERO, array, ending, in_attribute, in_element
from sockets import IS_PROVED

# The most bytes of a payload, and what a document of one long text or name has besides. A program
# without proofs is slow.
MOST = 1 << (20 if IS_PROVED else 12)
ROOM = 64
# Texts and names up to here stand in several places.
MOST_IN_PLACES = min(MOST, 66_000)
MOST_COUNT = 100_000 if IS_PROVED else 1_001
MOST_DEPTH = 1_024 if IS_PROVED else 128
# The greatest payload that a quota admits.
GREATEST = 1 << (24 if IS_PROVED else 13)
# Where integers get a byte more, and lengths of texts.
WIDTHS = (2**14, 2**16)
FEW_SIZES = {0, 1, 2, 127, 128, 255, 256, 999, 1_000}
PREFIX, NAME = b"p", b"n"


def sizes(most, least=0):
    """Numbers about each power of two and of ten, of large ones fewer, and the greatest one."""
    powers = [base**n for base in (2, 10) for n in range(21)]
    near = {it + more for it in powers if it <= 4_096 or it in WIDTHS for more in (-1, 0, 1)}
    chosen = near | set(powers) if IS_PROVED else FEW_SIZES
    return sorted(it for it in chosen | {most} if least <= it <= most)


def sized_texts(made):
    """Each text record that has a length, of each length."""
    for text in (it for it in made.texts if it.is_measured()):
        for length in sizes(min(256**text.size - 1, MOST - ROOM)):
            record = text.of_length(length)
            yield "a text record %02x of %d bytes" % (text.type, length), ELEMENT + ending(record)


def sized_values(made):
    """The same as values of attributes, of elements and of arrays, and in lists."""
    for text in (it for it in made.texts if it.is_measured()):
        for number, length in enumerate(sizes(min(256**text.size - 1, MOST_IN_PLACES // 2))):
            places = list(in_attribute(made, text.of_length(length)))
            for words, document in places[number % 4 :: 4]:
                yield "%02x of %d bytes in %s" % (text.type, length, words), document


def with_record(what, record, made):
    """A document with a record."""
    if what == "element":
        return record + LAST_ZERO
    if what == "attribute":
        return in_element(record, ZERO)
    return in_element(record)


def in_array(what, record, made):
    """A document in which it is of an array."""
    inner = {"element": b"", "attribute": record + ZERO, "declaration": record}[what]
    return in_element(made.array_of(record if what == "element" else ELEMENT, inner))


def strings_of(record, length):
    """Parts of a record of which one string has this length, for each of its strings."""
    usual = [{"identifier": 0, "prefix": PREFIX}.get(part, NAME) for part in record.parts]
    for at, part in enumerate(record.parts):
        if part != "identifier":
            yield usual[:at] + [b"n" * length] + usual[at + 1 :]


def one_of_each_row(what):
    """A record of each form."""
    return {(it.row, it.parts): it for it in records() if it.what == what}.values()


def sized_strings(made):
    """Each string of each record but the texts, of each length, and with longer spellings of it."""
    for what in ("element", "attribute", "declaration", "comment"):
        for record in one_of_each_row(what):
            for length in sizes(MOST_IN_PLACES // 4) + [MOST - ROOM]:
                for parts in strings_of(record, length):
                    words = "a string of %d bytes in %02x" % (length, record.type)
                    yield words, with_record(what, record.spelled(parts), made)
                    if what != "comment" and length <= MOST_IN_PLACES:
                        yield words + ", of an array", in_array(what, record.spelled(parts), made)
            for least in range(2, 6):
                usual = [{"identifier": 0, "prefix": PREFIX}.get(it, NAME) for it in record.parts]
                spelled = record.spelled(usual, least)
                yield "integers of %d bytes" % least, with_record(what, spelled, made)


def counted(made):
    """Many of what may come many times: children, values, attributes and declarations."""
    attributes, declarations = (made.one_of_each_form(it) for it in ("attribute", "declaration"))
    listed = made.lists[:1]
    for count in sizes(MOST_COUNT, 1):
        yield "%d texts" % count, in_element(ZERO * count)
        yield "a list of %d" % count, in_element(listed, ZERO * count, LIST_END)
        yield "%d elements" % (count // 4), in_element((ELEMENT + END) * (count // 4))
        many = [attributes[it % len(attributes)] + ZERO for it in range(count // 32)]
        yield "%d attributes" % len(many), in_element(*many)
        array_of = made.array_of(ELEMENT, b"".join(many))
        yield "%d attributes of an array" % len(many), in_element(array_of)
        many = [declarations[it % len(declarations)] for it in range(count // 32)]
        yield "%d declarations" % len(many), in_element(*many)
        listed_in = attributes[0] + listed + ZERO * count + LIST_END
        yield "an attribute's list of %d" % count, in_element(listed_in)


def counted_values(made):
    """Arrays of each kind with so many values."""
    for kind, values in made.kinds:
        most = (MOST - ROOM) // len(values[0])
        # As much as a payload may have, of the shortest values and of the longest ones.
        greatest = [most] if len(values[0]) in (1, 16) else []
        for count in sizes(min(most, MOST_COUNT // 10), 1) + greatest:
            many = [values[it % len(values)] for it in range(count)]
            yield "%d values of %02x" % (count, kind), in_element(array(ELEMENT, b"", kind, many))


def deep(made, around=0):
    """Elements in one another, with an array in the last one, of which the element is one more; where
    so many stand around them."""
    most = MOST_DEPTH - around
    for depth in (*range(1, min(most, 128)), *sizes(most - 1, 128)):
        inner = made.array_of(ELEMENT, b"")
        yield "an array in %d elements" % depth, ELEMENT * depth + inner + END * depth
    yield "%d elements" % most, ELEMENT * most + END * most


def greatest(made, around=0):
    """A long text of each form, and an array of the longest values, each in the greatest payload, of
    which so many bytes are something else."""
    room = GREATEST - ROOM - around
    for text in (it for it in made.texts if it.is_measured() and it.size == 4):
        yield "a text record %02x of %d bytes" % (text.type, room), ELEMENT + ending(text.of_length(room))
    kind, values = max(made.kinds, key=lambda it: len(it[1][0]))
    count = room // len(values[0])
    many = [values[it % len(values)] for it in range(count)]
    yield "%d values of %02x" % (count, kind), in_element(array(ELEMENT, b"", kind, many))


CASES = (sized_texts, sized_values, sized_strings, counted, counted_values, deep)


def tables_of_strings():
    """Tables of session strings, of which a document names the last one: each of one long string,
    each of many short ones, and with longer spellings of their sizes."""
    for length in sizes(MOST - ROOM):
        yield "a session string of %d bytes" % length, string(string(b"s" * length)), 1
    for count in sizes(MOST_COUNT, 1):
        table = b"".join(string(b"%c" % (97 + it % 26)) for it in range(count))
        yield "%d session strings" % count, string(table), 2 * count - 1
    for least in range(2, 6):
        one = string(b"a name of more than sixteen bytes", least)
        yield "strings with sizes of %d bytes" % least, string(one * 2, least), 3
        yield "no strings, with a size of %d bytes" % least, integer(0, least), 0


def naming(identifier):
    """A document that names a string as an element and as a text."""
    name = integer(identifier)
    return b"\x42" + name + b"\xaa" + name + END
