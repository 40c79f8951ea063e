"""What the scripts that go over this machine's sockets share."""

import os
import random
import socket
import struct
import subprocess
import sys
import time

ROOT = os.path.dirname(os.path.dirname(os.path.realpath(__file__)))
PROVED = os.path.join(ROOT, "crates", "nettcp", "out", "nettcp")
PROGRAM = os.environ.get("NETTCP_PROGRAM", PROVED)
# Whether that is what is tried, or a program without proofs, whose checks at run time make it slow.
IS_PROVED = PROGRAM == PROVED
STATICS = ["--static", os.path.join(ROOT, "samples", "mc-nbfs.csv")]
SAMPLES = os.path.join(ROOT, "samples")
VIA = "net.tcp://h/e"
HOST = "127.0.0.1"
# How long a run may take, and a peer that is waited for.
SECONDS = 20 if IS_PROVED else 60
# How often it is looked whether a server listens.
MOMENT = 0.002


def assert_built():
    """Ends the script where it is to try the proved program, and the sources are newer."""
    if IS_PROVED and subprocess.run([os.path.join(ROOT, "tools", "prove"), "--built"]).returncode:
        sys.exit("the program isn't built: tools/prove builds it")


def free_port():
    """A port that nobody has, of those that the system doesn't give to clients by itself."""
    while True:
        port = random.randrange(20_000, 32_000)
        try:
            socket.create_server((HOST, port)).close()
        except OSError:
            continue
        return port


def place(port):
    return "%s:%d" % (HOST, port)


def listens(port):
    """Whether somebody of this machine listens at this port."""
    for table in ("/proc/net/tcp", "/proc/net/tcp6"):
        if os.path.exists(table):
            with open(table) as rows:
                places = [row.split() for row in list(rows)[1:]]
            if any(row[1].endswith(":%04X" % port) and row[3] == "0A" for row in places):
                return True
    return False


def wait_for(started, port):
    """Whether the server listens, found out without a connection, which would count as one. Else it
    ended, or takes too long."""
    until = time.monotonic() + SECONDS
    while not listens(port):
        if started.poll() is not None or time.monotonic() > until:
            return False
        time.sleep(MOMENT)
    return True


def connected(started, port):
    """A connection to a server that may only be about to listen, or None where it ended before."""
    until = time.monotonic() + SECONDS
    while time.monotonic() < until:
        try:
            connection = socket.create_connection((HOST, port), timeout=SECONDS)
        except ConnectionRefusedError:
            if started.poll() is not None:
                return None
            time.sleep(MOMENT)
        else:
            connection.setsockopt(socket.IPPROTO_TCP, socket.TCP_NODELAY, 1)
            return connection
    return None


def break_off(connection):
    """Ends a connection by a reset."""
    connection.setsockopt(socket.SOL_SOCKET, socket.SO_LINGER, struct.pack("ii", 1, 0))
    connection.close()


def pieces(connection):
    """What a peer sends until it ends or breaks off."""
    try:
        while piece := connection.recv(262144):
            yield piece
    except OSError:
        pass


def read_all(connection):
    return b"".join(pieces(connection))


def read_up_to(connection, size):
    """What a peer sends, up to so many bytes: `pool` closes no connection before it has accepted the
    last one."""
    read = b""
    for piece in pieces(connection):
        read += piece
        if len(read) >= size:
            break
    return read


def serving(port, connections, words=(), command="serve", **how):
    """`serve` or `pool` of so many connections at this port, just started."""
    words = ["--listen", place(port), "--connections", str(connections), *words]
    how = {"stdin": subprocess.DEVNULL, "stdout": subprocess.PIPE, **how}
    return subprocess.Popen([PROGRAM, command, *STATICS, *words], **how)


def run(words, stream=b"", output=subprocess.PIPE):
    """The status, the output and the note of the program, or None where it doesn't end."""
    how = {"input": stream, "stdout": output, "stderr": subprocess.PIPE, "timeout": SECONDS}
    try:
        ran = subprocess.run([PROGRAM] + words, **how)
    except subprocess.TimeoutExpired:
        return None
    return ran.returncode, ran.stdout or b"", ran.stderr


def documents(dumped):
    """The lines of the documents of a session, out of what `dump` prints of it."""
    others = (b"open", b"accepted", b"message", b"ended")
    lines = dumped.splitlines(True)
    return b"".join(line for line in lines if line.split()[0] not in others)
