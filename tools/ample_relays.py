"""What `tools/ample_memory` tries of `relay`, over this machine's sockets."""

import contextlib
import itertools
import os
import socket
import subprocess
import threading
from typing import NamedTuple

import framing
import made_documents
import made_sizes
from ample_network import exchanged
from ample_runs import ACK, END, STATIC_IDS
from ample_runs import all_documents, all_texts, build_words, file_in, one_document
from ample_runs import payloads_of, replies, requests, session
from framing import DUPLEX, MODES, PLAIN, SESSION, USUAL_VIA
from made_documents import in_element, requested
from pieces import LONGEST, Ended, Otherwise, split
from readings import GREATEST
from relayed import BACK_VIA, envelopes
from sockets import HOST, PROGRAM, connected, free_port, place


class Joined(NamedTuple):
    """What a client and a service say in a session of this mode and encoding."""

    stream: bytes
    answers: bytes
    mode: str = "duplex"
    encoding: int = SESSION


def reply(listening, all_answers, got):
    """A service that takes a connection for each of these."""
    with contextlib.suppress(OSError):
        for number, answers in enumerate(all_answers):
            connection, _ = listening.accept()
            with connection:
                connection.settimeout(LONGEST)
                got.append(exchanged(connection, answers, number))


def relayed(runs, joined, words):
    """What the client and the service of each of these get, and the lines that `relay` prints."""
    port, sent, got = free_port(), [], []
    with socket.create_server((HOST, 0)) as listening:
        listening.settimeout(LONGEST)
        service = (listening, [it.answers for it in joined], got)
        replying = threading.Thread(target=reply, args=service, daemon=True)
        replying.start()
        places = ["--listen", place(port), "--connect", place(listening.getsockname()[1])]
        ours = [*places, "--via", BACK_VIA, "--connections", str(len(joined))]
        words = ["relay", *runs.statics, *ours, *words]
        how = {"stdout": subprocess.PIPE, "stderr": subprocess.PIPE}
        started = subprocess.Popen([PROGRAM, *words], **how)
        timer = threading.Timer(LONGEST, started.kill)
        timer.start()
        for number, one in enumerate(joined):
            connection = connected(started, port)
            if connection is None:
                break
            with connection:
                sent.append(exchanged(connection, one.stream, number))
        lines, note = started.communicate()
        timer.cancel()
        runs.judged(Ended(started.returncode, b"", note), words, 0, ())
        # A relay that ended well has called the service for each.
        replying.join()
    return sent, got, lines.decode().splitlines()


def built(runs, one, stream, reading, statics):
    """What `build` writes of the documents that `dump` reads of a stream."""
    documents = split(runs.of("dump", stream, [*reading, *GREATEST], once=True))[1]
    words = [*build_words(one.mode, one.encoding, BACK_VIA), *GREATEST, *statics]
    return runs.of("build", b"".join(documents), words, once=True)


def assert_relayed(runs, joined, words=(), statics=()):
    """Each end gets what `build` writes of the other one's documents, those of the service's with
    these static strings, and each connection has its line."""
    sent, got, lines = relayed(runs, joined, [*GREATEST, *words])
    for number, one in enumerate(joined):
        to_back = built(runs, one, one.stream, (), statics)
        reading = ["--replies", one.mode, "--encoding", str(one.encoding), *statics]
        to_front = built(runs, one, one.answers, reading, ())
        opening = framing.preamble(MODES[one.mode], one.encoding, os.fsencode(BACK_VIA))
        to_front = ACK + to_front.removeprefix(opening)
        if (sent[number : number + 1], got[number : number + 1]) != ([to_front], [to_back]):
            raise Otherwise("relay of connection %d writes something else than build" % number)
        line = "relay %d forward %d ended backward %d ended"
        line %= number, envelopes(to_back), envelopes(to_front)
        if lines[number : number + 1] != [line]:
            raise Otherwise("not %s, but %s" % (line, lines[number : number + 1]))


def in_mode(payloads, mode, encoding):
    """A session of these payloads, which are answered by the same, but in simplex mode."""
    stream = session(payloads, MODES[mode], encoding)
    if mode == "simplex":
        return Joined(stream, ACK + END, mode, encoding)
    begin = len(framing.preamble(MODES[mode], encoding))
    return Joined(stream, ACK + stream[begin:], mode, encoding)


def relay(runs, encoding):
    """Each record, in each mode and either way; each session comes whole and in pieces."""
    documents = all_documents(encoding)[1]
    joined = []
    for made in (documents, requests(documents)):
        for mode in ("duplex", "simplex"):
            joined += [in_mode(payloads_of(made, encoding), mode, encoding)] * 2
    payloads = payloads_of(requests([one_document(encoding)]), encoding)
    joined += [in_mode(payloads, "singleton", encoding)] * 2
    assert_relayed(runs, joined)


def relay_options(runs, folder):
    """Vias of each length, the only one that is served, and other static strings behind."""
    payloads = [b"\0" + in_element()]
    vias = itertools.islice(all_texts(2_048), 0, None, 3)
    assert_relayed(runs, [Joined(session(payloads, via=it), replies(payloads)) for it in vias])
    joined = [in_mode(payloads, mode, SESSION) for mode in MODES]
    assert_relayed(runs, joined, ["--endpoint", os.fsdecode(USUAL_VIA)])
    # The strings that are static in the client's session are the service's session's own.
    other = ["--static", file_in(folder, "behind.csv", b"id,string\n0,another\n")]
    payloads = payloads_of([requested(in_element())], SESSION)
    stream = session(payloads)
    assert_relayed(runs, [Joined(stream, ACK + END)] * 2, ["--back-" + other[0][2:], other[1]], other)


def relay_endings(runs):
    """Services that end their session with a Fault, of a text of each length, behind no document and
    behind one. The client gets that and the end, and its own documents are passed on."""
    stream = session([b"\0" + in_element()])
    to_back = built(runs, Joined(stream, ACK), stream, (), ())
    to_front = to_back.removeprefix(framing.preamble(DUPLEX, SESSION, os.fsencode(BACK_VIA)))
    fronts = ACK, ACK + to_front.removesuffix(END)
    texts = itertools.islice(all_texts(2_048), 0, None, 3)
    faults = [bytes([framing.FAULT]) + framing.string(it) for it in texts]
    joined = [Joined(stream, fronts[at % 2] + fault) for at, fault in enumerate(faults)]
    sent, got, lines = relayed(runs, joined, GREATEST)
    if got != [to_back] * len(joined):
        raise Otherwise("a service that sends a Fault gets something else than build writes")
    for number in range(len(joined)):
        line = "relay %d forward 1 ended backward %d fault" % (number, number % 2)
        if (sent[number : number + 1], lines[number : number + 1]) != ([fronts[number % 2]], [line]):
            raise Otherwise("relay %d before a Fault writes otherwise, or not %s" % (number, line))


def relay_sizes(runs, count):
    """Sessions of many documents, and documents of each size."""
    payloads = payloads_of([requested(in_element())] * count, SESSION)
    assert_relayed(runs, [in_mode(payloads, "duplex", SESSION)])
    for what in (made_sizes.sized_texts, made_sizes.counted):
        documents = [it[1] for it in what(made_documents.Records(STATIC_IDS))]
        assert_relayed(runs, [in_mode(payloads_of(documents, PLAIN), "duplex", PLAIN)])
