"""The TCP streams of a packet capture, put together of the packets that `tshark` finds."""

import bisect
import heapq
import os
import re
import subprocess
import tempfile
from array import array

FIELDS = (
    "tcp.stream frame.number ip.src ipv6.src tcp.srcport ip.dst ipv6.dst tcp.dstport "
    "tcp.seq tcp.len tcp.flags tcp.payload"
).split()
# Packets that carry a stream or end it. One that the network hands back in an error report doesn't.
CARRYING = "(tcp.len > 0 || tcp.flags.fin == 1 || tcp.flags.reset == 1) && !icmp && !icmpv6"
# `tshark` neither looks into the streams nor puts them together, and looks up no names.
PLAINLY = ["-n", "-Q", "-d", "tcp.port==1-65535,data"]
PREFERENCES = {
    "tcp.desegment_tcp_streams": "FALSE",
    "tcp.analyze_sequence_numbers": "TRUE",
    "tcp.relative_sequence_numbers": "TRUE",
}
# The flags that end a direction.
FIN, RST = 1, 4
# How a client begins: version 1.0, a mode, a Via's type.
PREAMBLE = re.compile(rb"\x00\x01\x00\x01[\x01-\x04]\x02", re.S)
PREAMBLE_LENGTH = 6
# Above so many bytes a direction's go to its file. Above so many that wait for earlier ones, these
# count as lost.
KEPT, MOST_AHEAD = 1 << 20, 1 << 26


class Failure(Exception):
    """Why a run gives no answer, in words, and its status."""

    def __init__(self, status, text):
        super().__init__(text)
        self.status = status


class Packet:
    """A packet of a stream, from a line of `tshark`."""

    def __init__(self, line):
        fields = line.rstrip("\n").split("\t")
        self.stream, self.number = int(fields[0]), int(fields[1])
        self.sender, self.receiver = place(*fields[2:5]), place(*fields[5:8])
        self.sequence, self.length = int(fields[8]), int(fields[9])
        # Old versions put colons between the bytes.
        self.flags, self.data = int(fields[10], 16), bytes.fromhex(fields[11].replace(":", ""))


def place(address, address_of_6, port):
    return "%s:%s" % (address or "[%s]" % address_of_6, port)


class Direction:
    """What one end of a connection sent, in order, in a file once all was taken."""

    def __init__(self, path):
        self.path, self.kept = path, bytearray()
        # The first bytes, and how many there are without a gap.
        self.first, self.size = b"", 0
        # What was captured behind a gap, by its place, and how many bytes that is.
        self.ahead, self.ahead_size = [], 0
        # How many bytes were sent, captured or not.
        self.sent = 0
        self.finished = self.was_reset = self.is_dropped = False
        # Where the bytes of each packet end, and the packet's number.
        self.ends, self.numbers = array("Q"), array("Q")

    def lacks_bytes(self):
        return self.sent > self.size

    def take(self, packet):
        # The packet tells 32 bits of its place, counted from 1.
        begin = self.size + (packet.sequence - 1 - self.size + 2**31) % 2**32 - 2**31
        self.finished |= bool(packet.flags & FIN)
        self.was_reset |= bool(packet.flags & RST)
        # A reset may have any place.
        if packet.length or packet.flags & FIN:
            self.sent = max(self.sent, begin + packet.length)
        if packet.data and not self.is_dropped:
            heapq.heappush(self.ahead, (begin, packet.number, packet.data))
            self.ahead_size += len(packet.data)
            self.join(packet.number)

    def join(self, number):
        """Appends what has no gap before it any more, since this packet was captured."""
        while self.ahead and self.ahead[0][0] <= self.size:
            begin, _, data = heapq.heappop(self.ahead)
            self.ahead_size -= len(data)
            self.append(number, data[self.size - begin :])
        if self.ahead_size > MOST_AHEAD:
            self.drop()

    def append(self, number, data):
        if data:
            self.first += data[: PREAMBLE_LENGTH - len(self.first)]
            self.kept += data
            self.size += len(data)
            self.ends.append(self.size)
            self.numbers.append(number)
        if len(self.kept) > KEPT:
            self.write()

    def write(self):
        with open(self.path, "ab") as file:
            file.write(self.kept)
        self.kept.clear()

    def drop(self):
        """Takes no more bytes."""
        self.ahead, self.is_dropped = [], True

    def forget(self):
        """Keeps no bytes, and takes no more."""
        self.drop()
        self.kept.clear()
        if os.path.exists(self.path):
            os.remove(self.path)

    def packet_of(self, end):
        """The number of the packet with which all bytes up to this place were captured."""
        return self.numbers[bisect.bisect_left(self.ends, end)]


class Stream:
    """A TCP stream, with a direction for each end."""

    def __init__(self, packet, folder):
        self.number, self.is_other = packet.stream, False
        self.sent_by = {}
        for name in (packet.sender, packet.receiver):
            path = os.path.join(folder, "%d.%d" % (self.number, len(self.sent_by)))
            self.sent_by[name] = Direction(path)

    def take(self, packet):
        if self.is_other:
            return
        self.sent_by[packet.sender].take(packet)
        begun = all(len(it.first) == PREAMBLE_LENGTH for it in self.sent_by.values())
        if begun and self.client() is None:
            self.is_other = True
            self.forget()

    def client(self):
        """The end that begins as a client of net.tcp does, or None."""
        begins = (it for it, sent in self.sent_by.items() if PREAMBLE.match(sent.first))
        return next(begins, None)

    def service(self):
        """The other end."""
        return next(it for it in self.sent_by if it != self.client())

    def forget(self):
        for direction in self.sent_by.values():
            direction.forget()


def words_for(capture, port):
    """The command that lists the packets of a capture, or of a port alone."""
    shown = CARRYING + (" && tcp.port == %d" % port if port else "")
    preferences = [word for it in PREFERENCES.items() for word in ("-o", "%s:%s" % it)]
    fields = [word for it in FIELDS for word in ("-e", it)]
    listing = ["-Y", shown, "-T", "fields", "-E", "separator=/t", "-E", "occurrence=l"]
    return ["tshark", "-r", capture, *PLAINLY, *preferences, *listing, *fields]


def reason(said):
    """Why `tshark` failed, by what it wrote to standard error."""
    said.seek(0)
    lines = [it.strip() for it in said if it.startswith("tshark: ")]
    return (lines or ["tshark failed"])[0]


def packets(capture, port):
    """The packets of a capture that carry streams or end them. Fails behind the last one that can
    be read."""
    with tempfile.TemporaryFile("w+", errors="replace") as said:
        ends = {"stdin": subprocess.DEVNULL, "stdout": subprocess.PIPE, "stderr": said}
        try:
            listing = subprocess.Popen(words_for(capture, port), text=True, **ends)
        except FileNotFoundError:
            raise Failure(6, "tshark isn't installed: Debian's package has the same name") from None
        with listing:
            yield from map(Packet, listing.stdout)
        if listing.returncode:
            raise Failure(3, reason(said))


def take_streams(capture, port, folder, streams):
    """Adds the streams of a capture, which keep their bytes in this folder."""
    for packet in packets(capture, port):
        if packet.stream not in streams:
            streams[packet.stream] = Stream(packet, folder)
        streams[packet.stream].take(packet)
