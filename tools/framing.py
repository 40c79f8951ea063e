"""Where the framing records of a session end, of bytes that the program has taken (MC-NMF), and the
records of sessions that are made up."""

VERSION, MODE, VIA, KNOWN_ENCODING, EXTENSIBLE_ENCODING = 0, 1, 2, 3, 4
UNSIZED, SIZED, END, FAULT, PREAMBLE_ACK, PREAMBLE_END = 5, 6, 7, 8, 11, 12
# How many bytes a record has that has neither a size nor a text.
LENGTHS = {VERSION: 3, MODE: 2, KNOWN_ENCODING: 2, END: 1, PREAMBLE_ACK: 1, PREAMBLE_END: 1}
MESSAGES = (UNSIZED, SIZED)
SINGLETON, DUPLEX, SIMPLEX = 1, 2, 3
MODES = {"singleton": SINGLETON, "duplex": DUPLEX, "simplex": SIMPLEX}
PLAIN, SESSION = 7, 8
CONTENT_TYPES = {PLAIN: b"application/soap+msbin1", SESSION: b"application/soap+msbinsession1"}
USUAL_VIA = b"net.tcp://h/e"


def integer_at(stream, at):
    """The integer at this place, and the place behind it."""
    value, shift = 0, 0
    while stream[at] > 127:
        value |= (stream[at] & 127) << shift
        at, shift = at + 1, shift + 7
    return value | stream[at] << shift, at + 1


def chunks_end(stream, at):
    """The place behind the chunks that begin here."""
    size, at = integer_at(stream, at)
    while size:
        size, at = integer_at(stream, at + size)
    return at


def record_end(stream, at):
    """The place behind the record that begins here."""
    kind = stream[at]
    if kind in LENGTHS:
        return at + LENGTHS[kind]
    if kind == UNSIZED:
        return chunks_end(stream, at + 1)
    size, at = integer_at(stream, at + 1)
    return at + size


def records(stream, at=0):
    """Of each record from this place on its type, and the place behind it."""
    while at < len(stream):
        kind, at = stream[at], record_end(stream, at)
        yield kind, at


def integer(value, least=1):
    """The bytes of an integer, of which there are at least so many."""
    spelled = b""
    while value > 127 or least > len(spelled) + 1:
        spelled += bytes([value & 127 | 128])
        value >>= 7
    return spelled + bytes([value])


def string(text, least=1):
    """The bytes of a string, whose length has at least so many."""
    return integer(len(text), least) + text


def preamble(mode=DUPLEX, encoding=SESSION, via=USUAL_VIA, by_content_type=False):
    """What an initiator sends first."""
    version = bytes([VERSION, 1, 0, MODE, mode, VIA]) + string(via)
    named = bytes([KNOWN_ENCODING, encoding])
    if by_content_type:
        named = bytes([EXTENSIBLE_ENCODING]) + string(CONTENT_TYPES[encoding])
    return version + named + bytes([PREAMBLE_END])


def sized(payload):
    """The envelope of a payload in duplex and in simplex mode."""
    return bytes([SIZED]) + string(payload)


def chunked(payload, size, least=1):
    """The envelope of a payload in singleton mode, in chunks of so many bytes."""
    chunks = (payload[at : at + size] for at in range(0, len(payload), size))
    return bytes([UNSIZED]) + b"".join(string(it, least) for it in chunks) + integer(0, least)
