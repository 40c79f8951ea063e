"""`serve`, `pool` and `call` over this machine's sockets, with each allocation failing in turn, and
each send."""

import functools
import os
import re
import select
import socket
import subprocess
import tempfile
import threading

from allocations import AMPLE, OUT_OF_MEMORY, Failing
from sockets import HOST, PROGRAM, SECONDS, VIA
from sockets import connected, documents, free_port, place, read_all, run

INTO_FULL_DEVICE = (4, b"", b"write fault\n")
OUTPUT_AND_MEMORY = (5, b"", b"out of memory\n")
BROKEN = re.compile(rb"connection \d+ messages \d+ answers \d+ in ended out write-fault\n")
LINE = re.compile(rb"connection \d+ messages \d+ answers \d+ in (ended|memory) out (done|memory)\n")
# The same of a pool.
POOLED = re.compile(rb"connection \d+ sessions \d+ messages \d+ answers \d+ end (done|memory)\n")
POOLED_BROKEN = re.compile(
    rb"connection \d+ sessions \d+ messages \d+ answers \d+ end write-fault\n"
)
SENT = re.compile(rb"sent (\d+) tags ([ab]*|-)\n\Z")
# What a peer got that waited too long. Nothing that is due begins so.
LATE = b"nothing in time"


def wait_to_end(started):
    """The status, the output and the note of a program, which is killed where it doesn't end."""
    try:
        output, note = started.communicate(timeout=SECONDS)
    except subprocess.TimeoutExpired:
        started.kill()
        output, note = started.communicate()
        return "hangs", output, note
    return started.returncode, output or b"", note


def started_with(environment, words, stdin=subprocess.DEVNULL, output=subprocess.PIPE):
    ends = {"stdin": stdin, "stdout": output, "stderr": subprocess.PIPE}
    return subprocess.Popen([PROGRAM] + words, env=environment, **ends)


def asked(started, port, stream, exchange):
    """What the server answers to a client that sends this."""
    connection = connected(started, port)
    if connection is None:
        return b""
    with connection:
        return exchange(connection, stream)


def exchanged(connection, stream):
    """What a peer sends to whom sends this and no more."""
    try:
        connection.sendall(stream)
        connection.shutdown(socket.SHUT_WR)
    except OSError:
        pass
    return read_all(connection)


def waiting(first, awaited):
    """How a peer exchanges that waits: it sends so many bytes, then the others once it has so many
    as it waits for, or is told the end. Where neither comes in time, it got `LATE`."""
    def exchange(connection, stream):
        got = b""
        try:
            connection.sendall(stream[:first])
            while len(got) < awaited and (piece := connection.recv(65536)):
                got += piece
        except TimeoutError:
            return LATE
        except OSError:
            pass
        return got + exchanged(connection, stream[first:])
    return exchange


def serve(shim, words, streams, number, more={}, exchange=exchanged):
    """How `serve` of a connection for each stream ends, and what answers each of them."""
    port = free_port()
    words = ["serve", *words, "--listen", place(port), "--connections", str(len(streams))]
    started = started_with(shim.told(number, more), words)
    answers = [asked(started, port, stream, exchange) for stream in streams]
    return *wait_to_end(started), answers


def pool(shim, words, streams, number, more={}, exchange=exchanged):
    """How `pool` of a connection for each stream ends, and what answers each of them. All are open at
    once: a pool closes none before it has accepted the last one."""
    port, answers = free_port(), [b""] * len(streams)
    words = ["pool", *words, "--listen", place(port), "--connections", str(len(streams))]
    started = started_with(shim.told(number, more), words)

    def ask(at, connection):
        with connection:
            answers[at] = exchange(connection, streams[at])

    clients = []
    while len(clients) < len(streams) and (connection := connected(started, port)):
        clients.append(threading.Thread(target=ask, args=(len(clients), connection)))
        clients[-1].start()
    for client in clients:
        client.join()
    return *wait_to_end(started), answers


def call(shim, words, lines, replies, number, output=subprocess.PIPE, more={}, exchange=exchanged):
    """How `call` with these lines ends, and what it sends to a service that replies so."""
    with socket.create_server((HOST, 0)) as server, tempfile.TemporaryFile() as stdin:
        stdin.write(lines)
        stdin.seek(0)
        words = ["call", *words, "--connect", place(server.getsockname()[1])]
        started = started_with(shim.told(number, more), words, stdin, output)
        received = replied(server, started, replies, exchange)
        return *wait_to_end(started), received


def replied(server, started, replies, exchange):
    """What one client sends, which gets these replies. Without a connection it is nothing."""
    try:
        end = os.pidfd_open(started.pid)
    except ProcessLookupError:
        return b""
    try:
        select.select([server, end], [], [], SECONDS)
    finally:
        os.close(end)
    if not select.select([server], [], [], 0)[0]:
        return b""
    connection, _ = server.accept()
    with connection:
        connection.settimeout(SECONDS)
        return exchange(connection, replies)


def wants_once(whole, ended, line):
    """Whether all connections have a line, of which one at most, like this one, says that there was no
    memory, and all others are answered in full."""
    status, output, note, answers = ended
    _, all_lines, _, right = whole
    lines, due = output.splitlines(True), all_lines.splitlines(True)
    other = [at for at, full in enumerate(due) if lines[at:at + 1] != [full]]
    well = [at for at in range(len(due)) if at not in other]
    return (
        (status, note, len(lines)) == (0, b"", len(due))
        and len(other) <= 1
        and all(line.fullmatch(lines[at]) and b" memory" in lines[at] for at in other)
        and all(answers[at] == right[at] for at in well)
    )


def are_fronts(whole, ended):
    """Whether each client got first bytes of its answer."""
    return all(full.startswith(answer) for full, answer in zip(whole[3], ended[3]))


def may_serve(whole, ended):
    """Whether a server that wanted memory once may end so, where it else ends as the first does.

    Either the line of one connection at most says that there was no memory, and its client got
    first bytes of the answer; or the server stopped, after the lines of connections that were
    answered in full.
    """
    status, output, note, answers = ended
    _, all_lines, _, right = whole
    if (status, note) == OUT_OF_MEMORY:
        lines = output.splitlines(True)
        is_well = answers[:len(lines)] == right[:len(lines)]
        is_front = all_lines.splitlines(True)[:len(lines)] == lines
        return are_fronts(whole, ended) and is_front and is_well
    return are_fronts(whole, ended) and wants_once(whole, ended, LINE)


def may_pool(whole, ended):
    """The same of a pool: where it stopped, it accepted none, or all are answered in full and lines
    are missing."""
    status, output, note, answers = ended
    if (status, note) == OUT_OF_MEMORY:
        is_front = whole[1].startswith(output)
        return is_front and (answers == whole[3] or not output and not any(answers))
    return are_fronts(whole, ended) and wants_once(whole, ended, POOLED)


def call_into_full_device(shim, words, lines, replies, number, more={}):
    """The same where the standard output is full."""
    with open("/dev/full", "wb") as full:
        return call(shim, words, lines, replies, number, full, more)


def may_call(fronts):
    """The same of a call, whose session has these fronts: the opening, each envelope, and End.

    It has status 5 and the first bytes of the report. Where it says how many documents were sent,
    the service received just these.
    """
    def may_end(whole, ended):
        status, output, note, received = ended
        sent, all_sent = SENT.search(output), SENT.search(whole[1])
        report = output[:sent.start()] if sent else output
        if (status, note) != OUT_OF_MEMORY or not whole[1][:all_sent.start()].startswith(report):
            return False
        if not sent:
            return fronts[-1].startswith(received)
        count = int(sent[1])
        due = [fronts[count]] + [b""] * (count == 0) + fronts[-1:] * (sent[1] == all_sent[1])
        return len(sent[2].strip(b"-")) == count and received in due
    return may_end


def fronts_of(statics, words, lines):
    """The fronts of a session of these documents: the opening, each envelope, and End."""
    words = ["build"] + statics + words
    built = [run(words, b"".join(lines[:count]))[1] for count in range(len(lines) + 1)]
    # In singleton mode no session is without a document, and what is built of it has no End.
    return [session.removesuffix(b"\x07") for session in built] + built[-1:]


def file_of(folder, name, content):
    path = os.path.join(folder, name)
    with open(path, "wb") as file:
        file.write(content)
    return path


def document_of(statics, stream):
    """The lines of the one document of a session."""
    return documents(run(["dump"] + statics, stream)[1])


def two_of(statics, stream):
    """The lines of that document, and of another one that brings a longer name."""
    one = document_of(statics, stream)
    return [one, one.replace(b'start "" "x"', b'start "" "aNameOfMoreThanSixteen"')]


def server_plans(shim, folder, statics, two):
    texts = file_of(folder, "texts.csv", b"action,text\nurn:echo,aTextOfMoreThanSixteenBytes\n")
    for name, words, mode, given in (
        ("the echo", [], "duplex", two),
        ("texts", ["--actions=" + texts], "duplex", two),
        ("one-way messages", [], "simplex", two),
        ("a streamed call", [], "singleton", two[:1]),
    ):
        # One allocation fails, so that one of two connections is answered in full.
        streams = fronts_of(statics, ["--via=" + VIA, "--mode=" + mode], given)[-1:] * 2
        yield "serve with " + name, functools.partial(serve, shim, statics + words, streams)


def in_one_order(run_failing, fronts, others):
    """A run of a call of two lists of one document, which are sent in either order: what is sent in
    the second order, whose session has the other fronts, is told as what stands there in the first.
    """
    def told(number, **how):
        status, output, note, received = run_failing(number, **how)
        line = SENT.search(output)
        letters = line[2] if line else b""
        if letters.startswith(b"b"):
            output = output[:line.start(2)] + b"ab"[:len(letters)] + output[line.end(2):]
        if not fronts[-1].startswith(received) and others[-1].startswith(received):
            at = others.index(received) if received in others else None
            received = fronts[-1][:len(received)] if at is None else fronts[at]
        return status, output, note, received
    return told


def call_plans(shim, folder, statics, two):
    for mode, encoding, given, more in (
        ("duplex", 8, two, []),
        ("simplex", 8, two, []),
        ("singleton", 7, two[:1], []),
        ("duplex", 8, two[:1], two[1:]),
    ):
        words = ["--via=" + VIA, "--mode=" + mode, "--encoding=%d" % encoding]
        fronts = fronts_of(statics, words, given + more)
        replies = run(["replay"] + statics, fronts[-1])[1]
        words += ["--second=" + file_of(folder, "second", it) for it in more]
        call_so = (shim, statics + words, b"".join(given), replies)
        name = "call in %s mode, %d documents and %d" % (mode, len(given), len(more))
        others = fronts_of(statics, words[:3], more + given)
        calling = in_one_order(functools.partial(call, *call_so), fronts, others)
        yield name, calling, may_call(fronts)
    # Want of memory goes before a failed write.
    yield (
        "call into a full device",
        in_one_order(functools.partial(call_into_full_device, *call_so), fronts, others),
        lambda _, ended: ended[:3] == OUTPUT_AND_MEMORY and fronts[-1].startswith(ended[3]),
    )


def may_break(line):
    """The same where one send failed: the line of one connection is like this one and says so, and its
    client got first bytes of the answer. The others are answered in full."""
    def may_end(whole, ended):
        status, output, note, answers = ended
        lines, due = output.splitlines(True), whole[1].splitlines(True)
        broken = [at for at, it in enumerate(lines) if line.fullmatch(it)]
        return (
            (status, note, len(lines), len(broken)) == (0, b"", len(due), 1)
            and all(
                full.startswith(answer) and answer != full
                if at in broken
                else (lines[at], answer) == (due[at], full)
                for at, (full, answer) in enumerate(zip(whole[3], answers))
            )
        )
    return may_end


def may_call_brokenly(fronts):
    """The same of a call, whose session has these fronts. It has status 8, first bytes of the
    report and the line of what was sent, and the service received that and not all of it."""
    def may_end(whole, ended):
        status, output, note, received = ended
        sent, all_sent = SENT.search(output), SENT.search(whole[1])
        if (status, note) != (8, b"wire fault\n") or not sent:
            return False
        count = int(sent[1])
        return (
            whole[1][:all_sent.start()].startswith(output[:sent.start()])
            and len(sent[2].strip(b"-")) == count
            and received.startswith(fronts[count] if count else b"")
            and whole[3].startswith(received)
            and whole[3] != received
        )
    return may_end


def plans(shim, folder, statics, stream):
    """The name of each kind of run, a run in which the allocation with a number fails, and whether
    it may end so, beside one with ample memory. The stream is a session of a call."""
    two = two_of(statics, stream)
    for name, serving in server_plans(shim, folder, statics, two):
        yield name, serving, may_serve
    yield from call_plans(shim, folder, statics, two)


def pool_plans(shim, statics, stream):
    """The same of pools whose connections carry several sessions: clients that send all at once, and
    that wait for the answers of the first session before they end it."""
    given = two_of(statics, stream)
    session = fronts_of(statics, ["--via=" + VIA], given)[-1]
    replies = run(["replay"] + statics, session)[1]
    streams = [session * 2, session, session * 3]
    client = waiting(len(session) - 1, len(replies) - 1)
    pooling = functools.partial(pool, shim, statics, streams)
    yield "pool", pooling, may_pool
    yield "pool whose clients wait", functools.partial(pooling, exchange=client), may_pool


def sending_plans(shim, statics, stream):
    """The name of each kind of run, a run in which the send with a number fails, and whether it may
    end so, beside one in which none does."""
    two = two_of(statics, stream)
    words = statics + ["--via=" + VIA]
    fronts = fronts_of(statics, ["--via=" + VIA], two)
    session = fronts[-1]
    replies = run(["replay"] + statics, session)[1]

    def serve_failing(number):
        return serve(shim, statics, [session] * 2, AMPLE, {"FAIL_SEND": str(number)})

    def pool_failing(number):
        return pool(shim, statics, [session * 2, session], AMPLE, {"FAIL_SEND": str(number)})

    def call_failing(number):
        more = {"FAIL_SEND": str(number)}
        return call(shim, words, b"".join(two), replies, AMPLE, more=more)

    yield "serve with a failed send", serve_failing, may_break(BROKEN)
    yield "pool with a failed send", pool_failing, may_break(POOLED_BROKEN)
    yield "call with a failed send", call_failing, may_call_brokenly(fronts)


def waiting_plans(shim, statics, two):
    """The same of peers that wait for more, by the lines of two documents, with what goes over the
    runs: over allocations, or over sends. A client has sent all but End, and waits for the answers; a
    service has sent its Ack, and waits for the session."""
    words = statics + ["--via=" + VIA]
    fronts = fronts_of(statics, ["--via=" + VIA], two)
    session = fronts[-1]
    replies = run(["replay"] + statics, session)[1]
    client = waiting(len(session) - 1, len(replies) - 1)
    service = waiting(1, len(session))

    def serve_so(number, more={}):
        return serve(shim, statics, [session] * 2, number, more, client)

    def call_so(number, more={}):
        lines = b"".join(two)
        return call(shim, words, lines, replies, number, more=more, exchange=service)

    def sends(run_so):
        return lambda number: run_so(AMPLE, {"FAIL_SEND": str(number)})

    yield "serve whose client waits", serve_so, may_serve, tried
    yield "serve with a failed send whose client waits", sends(serve_so), may_break(BROKEN), \
        tried_sending
    yield "call whose service waits", call_so, may_call(fronts), tried
    yield "call with a failed send whose service waits", sends(call_so), may_call_brokenly(fronts), \
        tried_sending


def many(shim, statics, stream):
    """The name of a run of many connections, and of one of many documents, how it ends, and how
    many allocations it leaves."""
    for name, run_so in ("serve", serve), ("pool", pool):
        ended = run_so(shim, statics, [stream] * 40, AMPLE)
        yield name + " of 40 connections", ended, shim.counts().live
    lines, words = document_of(statics, stream) * 60, ["--via=" + VIA]
    replies = run(["replay"] + statics, run(["build"] + statics + words, lines)[1])[1]
    ended = call(shim, statics + words, lines, replies, AMPLE)
    yield "call of 60 documents", ended, shim.counts().live


def tried(shim, name, run_failing, may_end):
    """The runs in which an allocation fails: each in turn, until a run asks for fewer. That ends as
    with ample memory, whose run may ask for some more or fewer, by the pieces in which bytes come.
    """
    return each_failing(shim, name, run_failing, may_end, "allocation", "asked")


def tried_sending(shim, name, run_failing, may_end):
    """The same of sends."""
    return each_failing(shim, name, run_failing, may_end, "send", "sends")


def tried_starting(shim, name, run_failing):
    """The runs in which a thread can't be started: each ends as with nothing failing."""
    whole = run_failing(AMPLE)
    threads, wrong = shim.counts().threads, 0
    for number in range(1, threads + 1):
        ended = run_failing(AMPLE, more={"FAIL_THREAD": str(number)})
        live = shim.counts().live
        if ended != whole or live:
            wrong += 1
            print("%s, thread %d of %d: %r, %d live" % (name, number, threads, ended, live))
    return Failing(threads, threads, wrong)


def each_failing(shim, name, run_failing, may_end, kind, counted):
    """The runs in which one of what is counted so fails."""
    whole = run_failing(AMPLE)
    with_ample = shim.counts()
    received = whole[3] if isinstance(whole[3], list) else [whole[3]]
    if LATE in received or whole[0] and whole[:3] != INTO_FULL_DEVICE:
        raise SystemExit("%s: with none failing %r" % (name, whole))
    runs = ended_otherwise = wrong = 0
    went_on, failed = set(), True
    while failed:
        runs += 1
        ended = run_failing(runs)
        counts = shim.counts()
        failed = runs <= getattr(counts, counted)
        ended_otherwise += ended != whole
        if failed and ended == whole:
            went_on.add(runs)
        if not (ended == whole or failed and may_end(whole, ended)) or counts.live:
            wrong += 1
            told = (name, kind, runs, getattr(counts, counted), ended, counts.live)
            print("%s, %s %d of %d: %r, %d live" % told)
    shared = with_ample.shared(went_on) if counted == "asked" else None
    return Failing(runs, ended_otherwise, wrong, shared)
