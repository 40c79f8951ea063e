"""`relay` over this machine's sockets, between clients and services of which one leaves at each stage
of a session, by a reset or by the end of its direction."""

import os
import socket
import subprocess
import tempfile
import threading
from typing import NamedTuple

import framing
from sockets import HOST, PROGRAM, SECONDS, STATICS
from sockets import break_off, connected, free_port, place, run, wait_for

# The Via of the sessions that a relay opens.
BACK_VIA = "net.tcp://h/b"
ACK, END = bytes([framing.PREAMBLE_ACK]), bytes([framing.END])
# How a relay names the encodings that may be spelled out.
KNOWN = {"msbin1": "7", "msbinsession1": "8"}
CUT_FAULT = b"\x08\x04oop"
# A document whose only value is a QName, which a session without strings can't name.
UNFIT = framing.sized(b"\x00\x40\x01x\xbd\x00\x0a")


class Relay:
    """`relay` of so many connections, at a free port of this machine, to a service at another."""

    def __init__(self, connect, connections, words=()):
        self.port = free_port()
        places = ["--listen", place(self.port), "--connect", place(connect), "--via", BACK_VIA]
        words = ["relay", *STATICS, *places, "--connections", str(connections), *words]
        how = {"stdin": subprocess.DEVNULL, "stdout": subprocess.PIPE, "stderr": subprocess.PIPE}
        self.started = subprocess.Popen([PROGRAM, *words], **how)

    def ended(self):
        """Its status, its lines and its note, or None where it didn't end."""
        try:
            output, note = self.started.communicate(timeout=SECONDS)
        except subprocess.TimeoutExpired:
            self.started.kill()
            self.started.communicate()
            return None
        return self.started.returncode, output.decode().splitlines(), note


class Side:
    """One end of two sessions that are joined: what it got, and whether it was told the end or left by
    a reset. It meets the other one where both have come to the same step."""

    def __init__(self, connection, meeting):
        self.connection, self.meeting = connection, meeting
        self.got, self.is_over = b"", False
        connection.settimeout(SECONDS)

    def play(self, steps):
        with self.connection:
            for step in steps:
                try:
                    step(self)
                except (OSError, threading.BrokenBarrierError):
                    pass


def put(stream):
    return lambda side: side.connection.sendall(stream)


def take(count):
    """Reads until there are so many bytes."""
    def step(side):
        while len(side.got) < count and (piece := side.connection.recv(65536)):
            side.got += piece
    return step


def meet(side):
    side.meeting.wait(SECONDS)


def end(side):
    side.connection.shutdown(socket.SHUT_WR)


def reset(side):
    break_off(side.connection)
    side.is_over = True


def rest(side):
    """Reads to the end."""
    while piece := side.connection.recv(65536):
        side.got += piece
    side.is_over = True


class Stage(NamedTuple):
    """What both ends do, what each gets, and how the line of the connection tells both directions."""

    name: str
    front: list
    back: list
    to_front: bytes
    to_back: bytes
    forward: str
    backward: str


class Sessions:
    """The session of a client, what answers it, and the bytes of the session that is opened for it."""

    def __init__(self, tried):
        self.sent, self.opening, self.answers = tried.bytes, tried.opening, tried.replies
        words = [KNOWN.get(word, word) for word in tried.words]
        words = ["build", *STATICS, "--via", BACK_VIA, *words]
        self.carried = run(words, tried.lines)[1]
        self.called = run(words)[1].removesuffix(END)
        self.most_carried = without_last(self.carried)
        self.most_answers = without_last(self.answers)
        self.cut_answers = self.answers[:-10]
        if tried.is_one_way:
            self.most_answers, self.cut_answers = ACK, ACK + CUT_FAULT
        self.count = tried.count
        self.answer_count = 0 if tried.is_one_way else tried.count


def without_last(stream):
    """A session without its last envelope and its End."""
    ends = [0, *(at for _, at in framing.records(stream))]
    return stream[: ends[-3]]


def leaving_fronts(it, leave):
    """A front that leaves so."""
    is_reset = leave is reset
    left = "read-fault" if is_reset else "offence-24"
    told = "write-fault" if is_reset else "ended"
    yield Stage(
        "a front that leaves before its preamble",
        [meet, leave, rest],
        [meet, rest],
        b"",
        b"",
        "0 " + left,
        "0 not-opened",
    )
    yield Stage(
        "a front that leaves before its Ack",
        [put(it.opening), meet, leave, meet, rest],
        [take(len(it.called)), meet, meet, put(ACK), rest, put(END), end],
        b"" if is_reset else ACK + END,
        it.called,
        "0 not-opened" if is_reset else "0 " + left,
        "0 " + told,
    )
    yield Stage(
        "a front that leaves within an envelope",
        [put(it.sent[:-10]), take(1), meet, leave, rest],
        [take(len(it.called)), put(ACK), take(len(it.most_carried)), meet, rest, put(END), end],
        ACK if is_reset else ACK + END,
        it.most_carried,
        "%d %s" % (it.count - 1, left),
        "0 " + told,
    )
    yield Stage(
        "a front that leaves behind its End",
        [put(it.sent), take(1), meet, leave, meet, rest],
        [take(len(it.called)), put(ACK), take(len(it.carried)), meet, meet, put(it.answers[1:]), end, rest],
        ACK if is_reset else it.answers,
        it.carried,
        "%d ended" % it.count,
        "%d %s" % (0 if is_reset else it.answer_count, told),
    )


def leaving_backs(it, leave):
    """A back that leaves so."""
    is_reset = leave is reset
    left = "read-fault" if is_reset else "offence-24"
    told = "%d %s" % (it.count, "write-fault" if is_reset else "ended")
    carried = it.carried[:-1] if is_reset else it.carried
    yield Stage(
        "a back that leaves before the preamble",
        [meet, put(it.opening), rest, end],
        [leave, meet, rest],
        b"",
        b"" if is_reset else it.called,
        "0 write-fault" if is_reset else "0 not-opened",
        "0 not-opened" if is_reset else "0 " + left,
    )
    yield Stage(
        "a back that leaves before its Ack",
        [put(it.opening), rest, end],
        [take(len(it.called)), leave, rest],
        b"",
        it.called,
        "0 not-opened",
        "0 " + left,
    )
    for name, answers, most, ended in (
        ("within an envelope", it.cut_answers, it.most_answers, "%d " + left),
        ("behind its End", it.answers, it.answers, "%d ended"),
    ):
        yield Stage(
            "a back that leaves " + name,
            [put(it.sent[:-1]), take(len(most)), meet, meet, rest, put(END), end],
            [take(len(it.called)), put(answers), take(len(it.carried) - 1), meet, leave, meet, rest],
            most,
            carried,
            told,
            ended % envelopes(most),
        )


def envelopes(stream):
    return sum(kind in framing.MESSAGES for kind, _ in framing.records(stream))


def stages(it):
    """Each end leaves at each stage, and at last none does."""
    for leave in (reset, end):
        for of_side in (leaving_fronts, leaving_backs):
            for stage in of_side(it, leave):
                yield stage._replace(name="%s by %s" % (stage.name, leave.__name__))
    yield Stage(
        "a front and a back that stay",
        [put(it.sent), end, rest],
        [take(len(it.called)), put(it.answers), rest, end],
        it.answers,
        it.carried,
        "%d ended" % it.count,
        "%d ended" % it.answer_count,
    )


def accepted(server, meeting, steps, sides):
    """Takes the next connection, and plays these steps on it."""
    connection, _ = server.accept()
    sides.append(Side(connection, meeting))
    sides[0].play(steps)


def joined(relay, server, stage):
    """What a front and a back got, and whether each was told the end."""
    meeting, sides = threading.Barrier(2), []
    back = threading.Thread(target=accepted, args=(server, meeting, stage.back, sides), daemon=True)
    back.start()
    front = Side(connected(relay.started, relay.port), meeting)
    front.play(stage.front)
    back.join(SECONDS)
    return [(side.got, side.is_over) for side in (front, *sides)]


def play(runs, name, all_stages, words=()):
    """Plays all of these stages on one relay, one after the other."""
    with socket.create_server((HOST, 0)) as server:
        server.settimeout(SECONDS)
        relay = Relay(server.getsockname()[1], len(all_stages), words)
        for stage in all_stages:
            due = [(stage.to_front, True), (stage.to_back, True)]
            runs.expect("%s, %s" % (name, stage.name), joined(relay, server, stage), due)
        lines = [
            "relay %d forward %s backward %s" % (at, stage.forward, stage.backward)
            for at, stage in enumerate(all_stages)
        ]
        runs.expect(name + ", the relay's lines", relay.ended(), (0, lines, b""))


def leaves(runs, tried):
    """Clients and services that leave, in a session of this mode and encoding."""
    play(runs, tried.name, list(stages(Sessions(tried))))


def between(runs, tried, server):
    """`relay` between `call` and `serve`, which see of each other what they see alone."""
    wait_for(server.started, server.port)
    relay = Relay(server.port, 1)
    wait_for(relay.started, relay.port)
    called = tried.called(relay.port)
    name = tried.name + ", with a relay between"
    line = "connection 0 %s\n" % tried.line(tried.count, "ended")
    runs.expect(name + ", served", server.ended(), (0, line, ""))
    shown = run(tried.dump, tried.replies)[1]
    runs.expect(name + ", called", called, (0, shown + tried.sent, b""))
    answers = 0 if tried.is_one_way else tried.count
    line = "relay 0 forward %d ended backward %d ended" % (tried.count, answers)
    runs.expect(name + ", its line", relay.ended(), (0, [line], b""))


def unfit(runs, tried):
    """A document that doesn't fit ends its direction: a back that waits for more is told, and the
    front is read on, whose answers come all the same."""
    it = Sessions(tried)
    with tempfile.TemporaryDirectory() as folder:
        path = os.path.join(folder, "none.csv")
        with open(path, "w") as file:
            file.write("id,string\n")
        stage = Stage(
            "a document that doesn't fit",
            [put(it.opening + UNFIT), take(len(ACK + END)), put(END), end, rest],
            [take(len(it.called)), put(ACK), rest, put(END), end],
            ACK + END,
            it.called,
            "0 unfit",
            "0 ended",
        )
        play(runs, tried.name, [stage], ["--dictionary", "0", "--back-static", path])


def places(runs):
    """Places where nobody listens, and where somebody does."""
    relay = Relay(free_port(), 2)
    front = Side(connected(relay.started, relay.port), None)
    front.play([rest])
    runs.expect("a relay to nobody, its front", (front.got, front.is_over), (b"", True))
    runs.expect("a relay to nobody", relay.ended(), (8, [], b"wire fault\n"))
    with socket.create_server((HOST, 0)) as taken:
        at = place(taken.getsockname()[1])
        words = ["relay", *STATICS, "--listen", at, "--connect", at, "--via", BACK_VIA]
        runs.expect("a relay at a place that is taken", run(words), (8, b"", b"wire fault\n"))
