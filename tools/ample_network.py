"""What `tools/ample_memory` tries over this machine's sockets: `serve`, `pool` and `call`."""

import contextlib
import itertools
import os
import re
import socket
import subprocess
import threading
from typing import NamedTuple

import framing
import made_documents
import made_envelopes
import made_sizes
from ample_runs import ACK, END, STATIC_IDS
from ample_runs import all_documents, all_texts, build_words, envelopes_in, file_in, one_document
from ample_runs import payloads_of, replies, requests, session
from framing import DUPLEX, PLAIN, SESSION, SIMPLEX, SINGLETON
from made_documents import in_element, requested
from pieces import LONGEST, Ended, Otherwise, split
from readings import GREATEST
from sockets import HOST, PROGRAM, connected, free_port, place, read_all


# As many sessions as a connection may carry.
MOST_SESSIONS = 1_024


def small(stream):
    """The size of small pieces of a stream."""
    return 1 if len(stream) <= 20_000 else 100


def send(connection, stream, size):
    """Sends a stream in pieces of this size, as far as the peer takes it, and then no more."""
    with contextlib.suppress(OSError):
        for at in range(0, len(stream), size):
            connection.sendall(stream[at : at + size])
        connection.shutdown(socket.SHUT_WR)


def exchanged(connection, stream, number):
    """What a peer sends to whom sends this stream, whole where the connection's number is even, and
    else in small pieces."""
    size = small(stream) if number % 2 else len(stream) + 1
    sending = threading.Thread(target=send, args=(connection, stream, size))
    sending.start()
    got = read_all(connection)
    sending.join()
    return got


@contextlib.contextmanager
def server_of(runs, words, lines):
    """A server that is started with these words, and whose lines are there when it has ended."""
    server = subprocess.Popen([PROGRAM, *words], stdout=subprocess.PIPE, stderr=subprocess.PIPE)
    timer = threading.Timer(LONGEST, server.kill)
    timer.start()
    yield server
    output, note = server.communicate()
    timer.cancel()
    runs.judged(Ended(server.returncode, b"", note), words, 0, ())
    lines += output.decode().splitlines()


def served(runs, streams, words=()):
    """What `serve` sends to each of these streams, which come whole and byte by byte in turn, and
    the lines that it prints."""
    port, sent, lines = free_port(), [], []
    listening = ["--listen", place(port), "--connections", str(len(streams))]
    with server_of(runs, ["serve", *runs.statics, *listening, *words], lines) as server:
        for number, stream in enumerate(streams):
            connection = connected(server, port)
            if connection is None:
                break
            with connection:
                sent.append(exchanged(connection, stream, number))
    return sent, lines


def pooled(runs, streams, words=()):
    """What `pool` sends to each of these streams, which come whole and at once, and the lines that it
    prints."""
    port, sent, lines, opened = free_port(), [], [], []
    listening = ["--listen", place(port), "--connections", str(len(streams))]
    with server_of(runs, ["pool", *runs.statics, *listening, *words], lines) as server:
        while len(opened) < len(streams) and (connection := connected(server, port)):
            stream = streams[len(opened)]
            sending = threading.Thread(target=send, args=(connection, stream, len(stream) + 1))
            sending.start()
            opened.append((connection, sending))
        # None is ended before the last one is accepted.
        for connection, sending in opened:
            sent.append(read_all(connection))
            sending.join()
            connection.close()
    return sent, lines


class Served(NamedTuple):
    """A stream that is served: how many messages it has, the status of `replay`, and how its input
    ends."""

    stream: bytes
    messages: int
    status: int = 0
    ending: str = "ended"


def assert_served(runs, connections, words=GREATEST):
    """What `serve` sends is what `replay` writes, on each of these connections, and each has its
    line."""
    sent, lines = served(runs, [it.stream for it in connections], words)
    for number, one in enumerate(connections):
        due = runs.of("replay", one.stream, words, one.status, once=True)
        if sent[number : number + 1] != [due]:
            raise Otherwise("connection %d gets something else than replay writes" % number)
        line = "connection %d messages %d answers %d in %s out done"
        line %= number, one.messages, envelopes_in(due), one.ending
        if lines[number : number + 1] != [line]:
            raise Otherwise("not %s, but %s" % (line, lines[number : number + 1]))


def streams_to_serve():
    """Sessions in each mode and encoding."""
    for encoding in (PLAIN, SESSION):
        names, documents = all_documents(encoding)
        for made in (documents, requests(documents)):
            for mode in (DUPLEX, SIMPLEX):
                payloads = payloads_of(made, encoding)
                yield Served(session(payloads, mode, encoding), len(names))
        payloads = payloads_of(requests([one_document(encoding)]), encoding)
        yield Served(session(payloads, SINGLETON, encoding), 1)
        envelope = framing.sized(payloads_of([requested(in_element())], encoding)[0])
        for mode in (DUPLEX, SIMPLEX):
            opening = framing.preamble(mode, encoding, by_content_type=True)
            yield Served(opening + envelope + END, 1)
    for via in itertools.islice(all_texts(2_048), 0, None, 3):
        yield Served(session([b"\0" + in_element()], via=via), 1)
    for mode in (DUPLEX, SIMPLEX):
        yield Served(session([], mode), 0)


def refused_streams():
    """Streams that are refused in each part of a session, by their reason."""
    begin = framing.preamble(DUPLEX, PLAIN)
    asked = begin + framing.sized(requested(in_element()))
    for number, messages, stream in (
        (24, 0, b""),
        (2, 0, b"\xff"),
        (4, 0, b"\0\2\0"),
        (5, 0, begin[:4] + b"\4"),
        (6, 0, begin[:6] + b"\x81\x10"),
        (9, 0, begin[:-2] + b"\3"),
        (26, 0, begin[:-3] + b"\4\x81\2"),
        (10, 0, begin[:-1] + b"\x09"),
        (3, 1, asked + begin),
        (11, 1, asked + b"\6\x81\x80\x80\x08"),
        (15, 1, asked + framing.sized(b"\x40\1e\xff")),
        (22, 1, asked + framing.sized(b"\x40\1e")),
        (24, 1, asked),
    ):
        yield Served(stream, messages, 1, "offence-%d" % number)


def serve(runs):
    """Each of many connections, which comes twice."""
    streams = [*streams_to_serve(), *refused_streams()]
    assert_served(runs, [it for it in streams for _ in range(2)])


def assert_pooled(runs, connections, words=GREATEST):
    """What `pool` sends on a connection is what `replay` writes of each of its sessions, of which the
    last one may be refused, and each connection has its line."""
    streams = [b"".join(it.stream for it in sessions) for sessions in connections]
    sent, lines = pooled(runs, streams, words)
    for number, sessions in enumerate(connections):
        due = [runs.of("replay", it.stream, words, it.status, once=True) for it in sessions]
        if sent[number : number + 1] != [b"".join(due)]:
            raise Otherwise("connection %d gets something else than replay writes" % number)
        counts = len(sessions), sum(it.messages for it in sessions), sum(map(envelopes_in, due))
        ending = sessions[-1].ending.replace("ended", "done")
        line = "connection %d sessions %d messages %d answers %d end %s" % (number, *counts, ending)
        if lines[number : number + 1] != [line]:
            raise Otherwise("not %s, but %s" % (line, lines[number : number + 1]))


def pool(runs):
    """Connections with many sessions, one behind the other, in two orders, and such that are refused
    in their second session."""
    streams = [*streams_to_serve()][:MOST_SESSIONS]
    refused = [[streams[0], it] for it in refused_streams() if it.stream]
    assert_pooled(runs, [streams, streams[::-1], *refused])


def serve_answers(runs, folder, count):
    """Each answer and each fault, an endpoint, a file of actions, and sessions of many requests."""
    large = [(b"urn:echo", b"text"), (b"urn:large", b"t" * 300_000)]
    rows = b"".join(b"%s,%s\n" % row for row in large)
    file = ["--actions", file_in(folder, "to_serve.csv", b"action,text\n" + rows)]
    for is_of_file, words in ((False, []), (True, file)):
        made = [it[1] for it in made_envelopes.all_requests() if it[3] == is_of_file]
        stream = runs.of("build", "".join(made).encode(), build_words(), once=True)
        assert_served(runs, [Served(stream, len(made))], words)
    payloads = payloads_of([requested(in_element())] * count, SESSION)
    for words in ([], ["--endpoint", "net.tcp://h/e"], [*file, "--endpoint", "net.tcp://h/e"]):
        assert_served(runs, [Served(session(payloads), count)], words)


def is_whole(stream):
    """Whether these bytes of an initiator end with its End record."""
    ends = [(None, 0)]
    with contextlib.suppress(IndexError):
        ends.extend(framing.records(stream))
    return ends[-1] == (framing.END, len(stream))


def session_from(connection):
    """All that an initiator sends, up to its End record."""
    got = bytearray()
    while piece := connection.recv(1 << 20):
        got += piece
        if piece[-1] == framing.END and is_whole(got):
            break
    return bytes(got)


def peer(listening, answers, size, got):
    """A service that accepts a session, takes all of it, and then answers."""
    with contextlib.suppress(OSError):
        connection, _ = listening.accept()
        with connection:
            connection.settimeout(LONGEST)
            begin = connection.recv(1)
            connection.sendall(answers[:1])
            got.append(begin + session_from(connection))
            send(connection, answers[1:], size)
            read_all(connection)


def called(runs, lines, answers, words, size, status=0):
    """What `call` prints that sends these lines to a service, and what the service got."""
    got = []
    with socket.create_server((HOST, 0)) as listening:
        listening.settimeout(LONGEST)
        serving = threading.Thread(target=peer, args=(listening, answers, size, got))
        serving.start()
        to_peer = ["--connect", place(listening.getsockname()[1])]
        printed = runs.of("call", lines, [*to_peer, *words], status, once=True)
        serving.join()
    return printed, b"".join(got)


def merged(first, second, tags):
    """Two lists in the order of the letters `a` and `b` that name them."""
    lists = {"a": iter(first), "b": iter(second)}
    return [next(lists[it]) for it in tags]


class Call(NamedTuple):
    """A call: its documents, those of a second file if there is one, the replies, the mode and the
    encoding, the Via, the quotas, and its status."""

    first: list
    second: list
    answers: bytes
    mode: str = "duplex"
    encoding: int = SESSION
    via: str = "net.tcp://h/e"
    quotas: tuple = ()
    status: int = 0


def assert_called(runs, folder, call, size=1 << 20):
    """`call` sends what `build` writes of the documents of both lists, each in its order, and
    prints what `dump` does of the replies."""
    words = [*build_words(call.mode, call.encoding, call.via), *call.quotas]
    more = []
    if call.second is not None:
        more = ["--second", file_in(folder, "second.%d" % os.getpid(), b"".join(call.second))]
    lines = b"".join(call.first)
    printed, got = called(runs, lines, call.answers, [*words, *more], size, call.status)
    second = call.second or []
    report, _, sent = printed.rpartition(b"sent ")
    count, tags = re.fullmatch(r"(\d+) tags ([ab]+|-)\n", sent.decode()).groups()
    tags = tags.strip("-")
    numbers = int(count), tags.count("a"), tags.count("b")
    if numbers != (len(call.first) + len(second), len(call.first), len(second)):
        raise Otherwise("call says that it sent %r" % sent[:100])
    due = runs.of("build", b"".join(merged(call.first, second, tags)), words, once=True)
    if got != due:
        raise Otherwise("call sends something else than build writes")
    reading = ["--replies", call.mode, "--encoding", str(call.encoding), *call.quotas]
    if report != runs.of("dump", call.answers, reading, call.status, once=True):
        raise Otherwise("call prints something else than dump does")


def call(runs, folder, encoding):
    """Each record, in the documents of both files and in the replies."""
    documents = all_documents(encoding)[1]
    payloads = payloads_of(documents, encoding)
    lines = split(runs.of("dump", session(payloads, DUPLEX, encoding), once=True))[1]
    answers, half = replies(payloads), len(lines) // 2
    made = Call(lines[:half], lines[half:], answers, encoding=encoding)
    for size in (len(answers), small(answers)):
        assert_called(runs, folder, made, size)


DOCUMENT = b'start "" "e"\nclose\n'


def call_greatest(runs, folder, lines, payloads):
    """A call of the greatest documents, which come back."""
    made = Call(lines, None, replies(payloads), encoding=PLAIN, quotas=GREATEST)
    assert_called(runs, folder, made)


def call_options(runs, folder):
    """Calls in each mode, to Vias of each length, and with lists that are empty."""
    spelled_out = (PLAIN, "msbin1"), (SESSION, "msbinsession1")
    for encoding, word in ((PLAIN, PLAIN), (SESSION, SESSION), *spelled_out):
        chunked = ACK + framing.chunked(payloads_of([in_element()], encoding)[0], 3) + END
        for mode, answers in (("duplex", replies([])), ("simplex", ACK), ("singleton", chunked)):
            assert_called(runs, folder, Call([DOCUMENT], None, answers, mode, word))
            assert_called(runs, folder, Call([], [DOCUMENT], answers, mode, word))
            assert_called(runs, folder, Call([DOCUMENT], [], answers, mode, word))
    for via in itertools.islice(all_texts(2_048), 0, None, 3):
        if via and b"\n" not in via:
            made = Call([DOCUMENT], None, replies([]), via=os.fsdecode(via))
            assert_called(runs, folder, made)


def call_endings(runs, folder):
    """Calls whose service ends the session with a Fault, of a text of each length, and such whose
    replies are refused."""
    texts = itertools.islice(all_texts(2_048), 0, None, 3)
    for mode, text in zip(itertools.cycle(("duplex", "simplex", "singleton")), texts):
        fault = bytes([framing.FAULT]) + framing.string(text)
        assert_called(runs, folder, Call([DOCUMENT], None, ACK + fault, mode, status=9))
    reply, unknown = (framing.sized(it) for it in (b"\0" + in_element(), b"\0\x40\1e\xff"))
    for refused in (b"", b"\xff", ACK, reply[:-1], unknown, b"\6\x81\x80\x80\x08"):
        for before in (ACK, ACK + reply):
            made = Call([DOCUMENT], [DOCUMENT], before + refused, status=1)
            assert_called(runs, folder, made)


def call_sizes(runs, folder, count):
    """Calls of many documents, and of documents of each size."""
    answers = replies([b"\0" + in_element()] * count)
    assert_called(runs, folder, Call([DOCUMENT] * count, [DOCUMENT] * count, answers))
    for what in (made_sizes.sized_texts, made_sizes.counted):
        documents = [it[1] for it in what(made_documents.Records(STATIC_IDS))]
        payloads = payloads_of(documents, PLAIN)
        stream = session(payloads, DUPLEX, PLAIN)
        lines = split(runs.of("dump", stream, GREATEST, once=True))[1]
        made = Call(lines[::2], lines[1::2], replies(payloads), encoding=PLAIN, quotas=GREATEST)
        assert_called(runs, folder, made)
