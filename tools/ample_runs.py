"""The runs of `tools/ample_memory`. Each has to end as it should, as a whole and in pieces."""

import functools
import itertools
import os

import framing
import made_sizes
from framing import DUPLEX, PLAIN, SESSION, SINGLETON
from made_documents import documents_of_bytes, in_element, requested
from pieces import Otherwise, run, split
from readings import GREATEST
from sockets import IS_PROVED

NO_DICTIONARY = [*GREATEST[:2], "--dictionary", "0", *GREATEST[4:]]
ACK, END = bytes([framing.PREAMBLE_ACK]), bytes([framing.END])
# Static strings that WCF has, and some of longer identifiers. The first payload brings strings too.
STATIC_IDS = (0, 126, 128, 972, 16_384, 2_097_152, 268_435_456, 2**31 - 2)
SESSION_IDS, SESSION_STRINGS = (1, 127, 129), [b"session string %d" % it for it in range(70)]
# Up to so many bytes come one by one, and more in random pieces of up to so many.
MOST_ALONE, LONGEST_PIECE = 1 << 20 if IS_PROVED else 20_000, 40_000
# Of the documents of records and of values a program without proofs gets one of so many.
STEP = 1 if IS_PROVED else 11


def envelopes_in(stream):
    """How many envelopes begin in what was written."""
    kinds = []
    try:
        kinds.extend(kind for kind, _ in framing.records(stream))
    except IndexError:
        pass
    return sum(it in framing.MESSAGES for it in kinds)


class Runs:
    """The runs of a case, under these static strings."""

    def __init__(self, statics, pieces):
        self.statics, self.pieces, self.count = ["--static", statics], pieces, 0
        # What is tried, where the messages have no names of their own.
        self.about = ""

    def of(self, command, stream=b"", words=(), status=0, names=(), once=False):
        """What a run writes that has to end with this status, as a whole and in pieces alike. The
        names are those of messages."""
        statics = command != "rehearse" and "--static" not in words
        words = [command, *(self.statics if statics else []), *words]
        whole = self.judged(run(words, stream), words, status, names)
        if stream and not once:
            most, seed = (1, 0) if len(stream) <= MOST_ALONE else (LONGEST_PIECE, len(stream))
            ended = run(words, stream, self.pieces.environment(most, seed))
            if self.judged(ended, words, status, names) != whole:
                raise Otherwise("%s writes otherwise where the input comes in pieces" % words[0])
        return whole

    def judged(self, ended, words, status, names):
        """The output of a run, if it ended with this status."""
        self.count += 1
        if ended.status == status:
            return ended.output
        reads = words[0] in ("check", "dump", "call")
        done = ended.output.count(b"\nmessage ") if reads else envelopes_in(ended.output)
        where = names[done] if done < len(names) else self.about
        note = ended.note.decode(errors="replace").strip()
        told = " ".join(words)[:200], ended.status, note, done, where
        raise Otherwise("%s: status %s %s behind %d messages: %s" % told)


def session(payloads, mode=DUPLEX, encoding=SESSION, via=framing.USUAL_VIA):
    """An initiator's session of these payloads, of which singleton mode has one, in two chunks."""
    envelope = framing.sized
    if mode == SINGLETON:
        envelope = lambda it: framing.chunked(it, len(it) // 2 + 1)
    return framing.preamble(mode, encoding, via) + b"".join(map(envelope, payloads)) + END


def replies(payloads):
    return ACK + b"".join(map(framing.sized, payloads)) + END


def payloads_of(documents, encoding, strings=SESSION_STRINGS):
    """Payloads of documents; the first brings these strings."""
    if encoding == PLAIN:
        return documents
    table = framing.string(b"".join(map(framing.string, strings)))
    return [(b"\0" if number else table) + it for number, it in enumerate(documents)]


def read(runs, stream, names, words=(), status=0, once=False):
    """The documents that `dump` prints, of which `check` has to print the rest."""
    dumped = runs.of("dump", stream, words, status, names, once)
    report, documents = split(dumped)
    if runs.of("check", stream, words, status, names, once) != report:
        raise Otherwise("check prints another report than dump")
    if len(documents) != len(names):
        raise Otherwise("%d messages, not %d" % (len(documents), len(names)))
    return documents


def build_words(mode="duplex", encoding=SESSION, via="net.tcp://h/e"):
    return ["--via", via, "--mode", mode, "--encoding", str(encoding)]


def same_documents(found, due, names):
    for words, one, other in itertools.zip_longest(names, found, due):
        if one != other:
            raise Otherwise("%s: the document reads otherwise: %r, not %r" % (words, one, other))


def build(runs, documents, names, words, quotas=(), once=False):
    """What is built of documents, which has to mean the same."""
    stream = runs.of("build", b"".join(documents), [*words, *quotas], 0, names, once)
    found = split(runs.of("dump", stream, quotas, 0, names, once=True))[1]
    same_documents(found, documents, names)
    return stream


def bodies(documents):
    return [it.partition(b'start "s" "Body"\n')[2] for it in documents]


def replay(runs, stream, names, words=(), mode="duplex", encoding=SESSION, status=0, once=False):
    """The documents of the answers to a session, one to each request."""
    answers = runs.of("replay", stream, words, status, names, once)
    reading = ["--replies", mode, "--encoding", str(encoding), *GREATEST]
    documents = split(runs.of("dump", answers, reading, once=True))[1]
    if len(documents) != len(names):
        raise Otherwise("%d answers, not %d" % (len(documents), len(names)))
    return documents


def requests(documents):
    return list(map(requested, documents))


@functools.lru_cache(None)
def all_documents(encoding):
    """The names of the documents of each record, and these, or of a few."""
    identifiers = STATIC_IDS if encoding == PLAIN else STATIC_IDS + SESSION_IDS
    return tuple(zip(*itertools.islice(documents_of_bytes(identifiers), 0, None, STEP)))


def one_document(encoding):
    """A document of as many others as a payload may have, and what it is."""
    parts, size = [], 0
    for document in all_documents(encoding)[1]:
        if size + len(document) < made_sizes.MOST - 4_096:
            parts.append(document)
            size += len(document)
    return in_element(*parts)


def texts_of(length):
    """Texts of so many bytes: letters, bytes that are escaped, and letters of several bytes."""
    yield b"t" * length
    yield b"\n" * length
    yield "\u00e9".encode() * (length // 2) + b"t" * (length % 2)
    yield "\U0001f600".encode() * (length // 4) + b"t" * (length % 4)


def all_texts(most):
    return (it for length in made_sizes.sizes(most) for it in texts_of(length))


def file_in(folder, name, content):
    path = os.path.join(folder, name)
    with open(path, "wb") as file:
        file.write(content)
    return path
