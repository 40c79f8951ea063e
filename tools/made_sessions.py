"""Random sessions, made of the records in FORMATS' tables, of envelopes and of the samples, and
then cut, spliced, with bits turned and with lengths that lie."""

import glob
import os
from typing import NamedTuple

import framing
from formats import END, LIST_AND_ELEMENT_END, LIST_END
from framing import MODES, PLAIN, SESSION, SINGLETON
from made_documents import ELEMENT, Records, array, ending, requested
from readings import GREATEST
from sockets import SAMPLES

ACK = bytes([framing.PREAMBLE_ACK])
STRINGS = (b"x", b"aNameOfMoreThanSixteen", b"", "\u00e9".encode())
# Static strings, and with encoding 8 those of the session too.
STATIC_IDS = (0, 2, 14, 128, 972)
IDENTIFIERS = {PLAIN: STATIC_IDS, SESSION: (*STATIC_IDS, 1, 3, 5, 7)}
MOST_DEPTH = 5
# Bytes that are types of records and of framing records, or ends of numbers.
TELLING = (0, 1, 2, 3, 6, 7, 8, 0x7F, 0x80, 0xA4, 0xA6, 0xA7, 0xAA, 0xBC, 0xFF)
QUOTAS = (
    ("--payload", "4096"),
    ("--depth", "4"),
    ("--dictionary", "0"),
    ("--dictionary", "20"),
    ("--payload", "4096", "--content", "4096"),
    ("--session", "100"),
    tuple(GREATEST),
)


class Made(NamedTuple):
    """A session, of an initiator or, by the words for its reader, of a receiver; and the quotas."""

    stream: bytes
    replies: tuple
    quotas: tuple


class Documents:
    """Makes documents of records, and of these of envelopes too."""

    def __init__(self, records, envelopes):
        self.records, self.envelopes = records, envelopes
        self.examples = {what: records.all_of(what) for what in records.forms}
        self.texts = [it.records() for it in records.texts]

    def document(self, chosen):
        """An envelope, another document, or one whose records aren't all as they should be."""
        if chosen.random() < 0.4:
            return chosen.choice(self.envelopes)
        parts = self.element(chosen, MOST_DEPTH)
        if chosen.random() < 0.15:
            parts = self.with_lie(chosen, parts)
        document = b"".join(parts)
        return requested(document) if chosen.random() < 0.5 else document

    def with_lie(self, chosen, parts):
        """The records of a document, of which one is left out, comes again or elsewhere, or has a
        length that lies."""
        at = chosen.randrange(len(parts))
        part = parts[at]
        others = chosen.choice((parts, self.element(chosen, 1)))
        lie = part[:1] + bytes([chosen.choice((0, 1, 127, 128, 255))]) + part[2:]
        changed = chosen.choice(([], [part, part], [chosen.choice(others)], [lie], [lie], [lie]))
        return parts[:at] + changed + parts[at + 1 :]

    def element(self, chosen, depth):
        """The records of an element, in which others are."""
        parts = [chosen.choice(self.examples["element"]), *self.attributes(chosen)]
        while chosen.random() < 0.6:
            parts += self.child(chosen, depth)
        if chosen.random() < 0.4:
            return parts + [self.last_text(chosen)]
        return parts + [END]

    def attributes(self, chosen):
        parts = []
        while chosen.random() < 0.4:
            if chosen.random() < 0.3:
                parts.append(chosen.choice(self.examples["declaration"]))
            else:
                parts.append(chosen.choice(self.examples["attribute"]) + self.value(chosen))
        return parts

    def child(self, chosen, depth):
        kind = chosen.choice(("text", "text", "comment", "array", "element", "element"))
        if kind == "comment":
            return [chosen.choice(self.examples["comment"])]
        if kind == "array":
            kind, values = chosen.choice(self.records.kinds)
            inner = b"".join(self.attributes(chosen))
            few = chosen.choices(values, k=chosen.choice((1, 1, 2, 10)))
            return [array(ELEMENT, inner, kind, few)]
        if kind == "element" and depth:
            return self.element(chosen, depth - 1)
        return [self.value(chosen)]

    def text(self, chosen):
        return chosen.choice(chosen.choice(self.texts))

    def value(self, chosen):
        """A text record, or a list of some."""
        if chosen.random() < 0.8:
            return self.text(chosen)
        listed = (self.text(chosen) for _ in range(chosen.choice((1, 2, 5))))
        return self.records.lists[:1] + b"".join(self.outside_lists(listed)) + LIST_END

    def outside_lists(self, texts):
        return [it for it in texts if it[0] not in self.records.lists]

    def last_text(self, chosen):
        """A text that ends its element."""
        text = self.text(chosen)
        return text[:-1] + LIST_AND_ELEMENT_END if text[0] in self.records.lists else ending(text)


class Maker:
    """Makes sessions of these documents of envelopes too."""

    def __init__(self, envelopes):
        made = {encoding: Records(it) for encoding, it in IDENTIFIERS.items()}
        self.documents = {encoding: Documents(it, envelopes) for encoding, it in made.items()}
        self.samples = [sample(it) for it in sorted(glob.glob(os.path.join(SAMPLES, "*.bin")))]

    def made(self, chosen):
        """A session by a source of random choices."""
        if chosen.random() < 0.15:
            stream, replies = chosen.choice(self.samples)
        else:
            stream, replies = self.session(chosen)
        changed = self.changed(chosen, stream) if chosen.random() < 0.5 else stream
        quotas = chosen.choice(QUOTAS) if chosen.random() < 0.4 else ()
        return Made(changed, replies, quotas)

    def session(self, chosen):
        """A session, with the words for its reader where it is a receiver's."""
        mode, encoding = chosen.choice(list(MODES)), chosen.choice((PLAIN, SESSION))
        if chosen.random() < 0.75:
            via = b"net.tcp://h/" + b"v" * chosen.choice((0, 1, 100, 116, 300, 2_036))
            spelled_out = chosen.random() < 0.3
            opening = framing.preamble(MODES[mode], encoding, via, spelled_out)
            last = bytes([framing.END])
            return opening + self.messages(chosen, MODES[mode], encoding) + last, ()
        messages = b"" if mode == "simplex" else self.messages(chosen, MODES[mode], encoding)
        last = chosen.choice((bytes([framing.END]), bytes([framing.FAULT]) + framing.string(b"a")))
        return ACK + messages + last, ("--replies", mode, "--encoding", str(encoding))

    def messages(self, chosen, mode, encoding):
        """The envelopes of a session."""
        count = 1 if mode == SINGLETON else chosen.choice((0, 1, 1, 2, 3, 5))
        documents = [self.documents[encoding].document(chosen) for _ in range(count)]
        payloads = with_strings(chosen, documents) if encoding == SESSION else documents
        return b"".join(envelope(chosen, mode, it) for it in payloads)

    def changed(self, chosen, stream):
        for _ in range(chosen.choice((1, 1, 1, 2, 3))):
            change = chosen.choice((cut, turned, turned, with_other_size, self.spliced, with_byte))
            stream = change(chosen, stream) if stream else stream
        return stream

    def spliced(self, chosen, stream):
        """The stream with a part of another one, in place of some of its bytes or of none."""
        other = chosen.choice(self.samples)[0]
        if chosen.random() < 0.7:
            other = self.session(chosen)[0]
        begin, end = sorted(chosen.randrange(len(other) + 1) for _ in range(2))
        at = chosen.randrange(len(stream) + 1)
        return stream[:at] + other[begin:end] + stream[at + chosen.choice((0, 0, 1, end - begin)) :]


def with_strings(chosen, documents):
    """Payloads of encoding 8, of which the first brings the strings that all may name."""
    for number, document in enumerate(documents):
        strings = STRINGS if number == 0 else chosen.sample(STRINGS, chosen.choice((0, 0, 1, 2)))
        yield framing.string(b"".join(map(framing.string, strings))) + document


def sample(path):
    """A sample, with the words for its reader where a receiver sent it."""
    with open(path, "rb") as file:
        stream = file.read()
    name = os.path.basename(path)
    mode, encoding = ("singleton", PLAIN) if name.startswith("streamed") else ("duplex", SESSION)
    is_reply = name.endswith(".s2c.bin")
    return stream, ("--replies", mode, "--encoding", str(encoding)) if is_reply else ()


def envelope(chosen, mode, payload):
    if mode != SINGLETON:
        return framing.sized(payload)
    size = chosen.choice((1, 2, 7, 127, 128, 4_096))
    return framing.chunked(payload, size, chosen.choice((1, 1, 2, 5)))


def cut(chosen, stream):
    """The first bytes of a stream, or the last ones."""
    at = chosen.randrange(len(stream))
    return stream[:at] if chosen.random() < 0.9 else stream[at:]


def turned(chosen, stream):
    """A stream with one bit turned."""
    changed = bytearray(stream)
    changed[chosen.randrange(len(stream))] ^= 1 << chosen.randrange(8)
    return bytes(changed)


def with_byte(chosen, stream):
    """A stream with another byte, of those that say most."""
    at = chosen.randrange(len(stream))
    byte = bytes([chosen.choice(TELLING)])
    other = chosen.choice((b"", byte, byte, byte + stream[at : at + 1]))
    return stream[:at] + other + stream[at + 1 :]


def sizes_in(stream):
    """The places of the sizes of records that have one, and behind them, as far as records go."""
    begin = 0
    try:
        for kind, end in framing.records(stream):
            if kind not in framing.LENGTHS:
                yield begin + 1, framing.integer_at(stream, begin + 1)[1]
            begin = end
    except IndexError:
        return


def with_other_size(chosen, stream):
    """A stream in which the size of a record lies, or is longer than it need be."""
    places = list(sizes_in(stream))
    if not places:
        return turned(chosen, stream)
    begin, end = chosen.choice(places)
    size = framing.integer_at(stream, begin)[0]
    other = max(0, size + chosen.choice((-100, -2, -1, 0, 0, 1, 2, 100, 65_536, 2**30)))
    return stream[:begin] + framing.integer(other, chosen.choice((1, 2, 3, 5))) + stream[end:]
