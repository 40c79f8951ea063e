"""Packet captures that are made up, in the pcap format: connections over IPv4 without a network."""

import struct

# The link type of packets that begin with their IP header.
RAW_IP = 101
TCP = 6
FIN, SYN, RST, PUSH, ACK = 1, 2, 4, 8, 16
# When the first packet was sent, and how many microseconds lie between two of them.
BEGAN, STEP = 1_700_000_000, 1_000
# No packet carries more bytes of a stream.
LONGEST = 1_400
WINDOW, HOPS = 65_535, 64


def checksum(data):
    """The checksum of IP and TCP."""
    data += bytes(len(data) % 2)
    total = sum(struct.unpack(">%dH" % (len(data) // 2), data))
    while total > 0xFFFF:
        total = (total & 0xFFFF) + (total >> 16)
    return total ^ 0xFFFF


def with_checksum(header, at, *others):
    """The header with its checksum at this place, which goes over others too."""
    return header[:at] + struct.pack(">H", checksum(header + b"".join(others))) + header[at + 2 :]


class Capture:
    """The packets of a capture, in their order."""

    def __init__(self):
        self.packets = []

    def connect(self, client, service):
        """A connection between two places, opened by its three packets."""
        return Connection(self, client, service)

    def written(self):
        """The capture as a file has it."""
        parts = [struct.pack("<IHHiIII", 0xA1B2C3D4, 2, 4, 0, 0, 65_535, RAW_IP)]
        for number, (packet, length) in enumerate(self.packets):
            seconds, moment = divmod(number * STEP, 1_000_000)
            parts.append(struct.pack("<IIII", BEGAN + seconds, moment, len(packet), length))
            parts.append(packet)
        return b"".join(parts)


class Connection:
    """A connection of a capture. Each packet acknowledges all that came before it."""

    def __init__(self, capture, client, service):
        self.capture, self.places = capture, (client, service)
        # What each end sends next, by its number in the stream. It wraps within the first bytes.
        self.next = [0xFFFF_FFF0, 0x1000]
        self.packet(0, SYN)
        self.packet(1, SYN | ACK)
        self.packet(0, ACK)

    def packet(self, sender, flags, data=b"", kept=None):
        """Puts a packet of this sender, of which the capture kept so many bytes of data."""
        whole = self.encoded(sender, flags, data)
        lost = 0 if kept is None else len(data) - kept
        self.capture.packets.append((whole[: len(whole) - lost], len(whole)))
        self.next[sender] = (self.next[sender] + len(data) + bool(flags & (SYN | FIN))) % 2**32

    def encoded(self, sender, flags, data):
        """The packet's bytes."""
        (from_host, from_port), (to_host, to_port) = self.places[sender], self.places[1 - sender]
        hosts = bytes(map(int, "{}.{}".format(from_host, to_host).split(".")))
        acknowledged = self.next[1 - sender] if flags & ACK else 0
        numbers = (from_port, to_port, self.next[sender], acknowledged, 5 << 4, flags, WINDOW)
        tcp = struct.pack(">HHIIBBHHH", *numbers, 0, 0)
        pseudo = hosts + struct.pack(">HH", TCP, len(tcp) + len(data))
        tcp = with_checksum(tcp, 16, pseudo, data)
        size = 20 + len(tcp) + len(data)
        ip = struct.pack(">BBHHHBBH", 0x45, 0, size, 0, 0, HOPS, TCP, 0) + hosts
        return with_checksum(ip, 10) + tcp + data

    def send(self, sender, stream):
        """Sends these bytes in packets."""
        for at in range(0, len(stream), LONGEST):
            self.packet(sender, PUSH | ACK, stream[at : at + LONGEST])

    def lose(self, sender, stream):
        """Sends bytes that the capture lacks."""
        self.next[sender] = (self.next[sender] + len(stream)) % 2**32

    def swap(self):
        """Has the last two packets arrive in the other order."""
        packets = self.capture.packets
        packets[-2:] = reversed(packets[-2:])

    def repeat(self):
        """Has the last packet sent again."""
        self.capture.packets.append(self.capture.packets[-1])

    def close(self):
        """Either end closes, the client first."""
        self.packet(0, FIN | ACK)
        self.packet(1, FIN | ACK)
        self.packet(0, ACK)

    def reset(self, sender):
        self.packet(sender, RST | ACK)
