"""`relay` over this machine's sockets, with each allocation failing in turn, each send, and the start
of each thread."""

import functools
import re
import socket
import threading

from allocations import AMPLE, OUT_OF_MEMORY
from relayed import BACK_VIA
from socket_allocations import asked, exchanged, file_of, fronts_of, replied, started_with
from socket_allocations import tried, tried_sending, two_of, wait_to_end, waiting
from sockets import HOST, VIA, free_port, place, run

LINE = rb"relay \d+ forward \d+ (ended|not-opened|%s) backward \d+ (ended|not-opened|%s)\n"
WANTING, BROKEN = (re.compile(LINE % (word, word)) for word in (b"memory", b"write-fault"))


def relay(shim, words, streams, replies, number, more={}, exchanges=(exchanged, exchanged)):
    """How `relay` of a connection for each stream ends, and of each of them in turn what answers it,
    and what a service gets that replies so."""
    front, back = exchanges
    with socket.create_server((HOST, 0)) as server:
        port = free_port()
        places = ["--listen=" + place(port), "--connect=" + place(server.getsockname()[1])]
        words = ["relay", *words, *places, "--via=" + BACK_VIA, "--connections=%d" % len(streams)]
        started, received = started_with(shim.told(number, more), words), []
        for stream in streams:
            got = []
            replying = lambda: got.append(replied(server, started, replies, back))
            service = threading.Thread(target=replying)
            service.start()
            received.append(asked(started, port, stream, front))
            service.join()
            received += got
        return *wait_to_end(started), received


def parts(ended):
    """Of each connection its line and what both ends got, and of those without a line what both ends
    got."""
    lines, received = ended[1].splitlines(True), ended[3]
    got = [tuple(received[at : at + 2]) for at in range(0, len(received), 2)]
    return list(zip(lines, got)), got[len(lines) :]


def is_front(whole, got):
    """Whether these are first bytes of what both ends get."""
    return all(full.startswith(it) for full, it in zip(whole, got))


def fails_alone(pattern, word, whole, ended):
    """Whether one connection at most says so in its line, and both its ends got first bytes, and all
    others are joined in full."""
    due, told = parts(whole)[0], parts(ended)[0]
    others = [pair for pair in zip(due, told) if pair[0] != pair[1]]
    return (
        (ended[0], ended[2], len(told)) == (0, b"", len(due))
        and len(others) <= 1
        and all(pattern.fullmatch(line) and word in line for _, (line, _) in others)
        and all(is_front(full, got) for (_, full), (_, got) in others)
    )


def may_relay(whole, ended):
    """Whether a relay that wanted memory once may end so, where it else ends as the first does: one
    connection says so, or the relay stopped, after the lines of connections that were joined in full."""
    if (ended[0], ended[2]) != OUT_OF_MEMORY:
        return fails_alone(WANTING, b" memory", whole, ended)
    due, (told, others) = parts(whole)[0], parts(ended)
    return due[: len(told)] == told and all(
        is_front(full, got) for (_, full), got in zip(due[len(told) :], others)
    )


def may_relay_brokenly(whole, ended):
    """The same where one send failed."""
    return ended != whole and fails_alone(BROKEN, b" write-fault", whole, ended)


def sessions(statics, mode, two):
    """A session of these documents, what answers it, and the one that is opened for it."""
    fronts = fronts_of(statics, ["--via=" + VIA, "--mode=" + mode], two)
    carried = fronts_of(statics, ["--via=" + BACK_VIA, "--mode=" + mode], two)
    return fronts[-1], run(["replay"] + statics, fronts[-1])[1], carried[-1]


def plans(shim, folder, statics, stream):
    """The name of each kind of run, a run in which the allocation with a number fails, and whether it
    may end so, beside one with ample memory. The stream is a session of a call."""
    two = two_of(statics, stream)
    other = ["--back-static=" + file_of(folder, "none.csv", b"id,string\n")]
    for name, words, mode, given in (
        ("relay", [], "duplex", two),
        ("relay of one-way messages", [], "simplex", two),
        ("relay of a streamed call", [], "singleton", two[:1]),
        ("relay to other static strings", other, "simplex", two),
    ):
        session, replies, _ = sessions(statics, mode, given)
        # One allocation fails, so that one of two connections is joined in full.
        yield name, functools.partial(relay, shim, statics + words, [session] * 2, replies), may_relay


def waiting_plans(shim, statics, two):
    """The same of a service that has sent its Ack, and waits for all but End, and of a client that has
    sent all but End, and waits for the answers, with what goes over the runs: over allocations, or over
    sends. Without memory for a thread the directions go one after the other, so that a client would
    wait in vain."""
    session, replies, carried = sessions(statics, "duplex", two)
    client, service = waiting(len(session) - 1, len(replies) - 1), waiting(1, len(carried) - 1)

    def relay_wanting(number):
        return relay(shim, statics, [session] * 2, replies, number, {}, (exchanged, service))

    def relay_failing(number):
        more = {"FAIL_SEND": str(number)}
        return relay(shim, statics, [session] * 2, replies, AMPLE, more, (client, service))

    yield "relay whose service waits", relay_wanting, may_relay, tried
    name = "relay with a failed send whose ends wait"
    yield name, relay_failing, may_relay_brokenly, tried_sending


def sending_plan(shim, statics, stream):
    """The same of a relay in which the send with a number fails."""
    session, replies, _ = sessions(statics, "duplex", two_of(statics, stream))

    def relay_failing(number):
        return relay(shim, statics, [session] * 2, replies, AMPLE, {"FAIL_SEND": str(number)})

    return "relay with a failed send", relay_failing, may_relay_brokenly
