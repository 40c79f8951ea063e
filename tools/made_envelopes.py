"""Requests in lines that are made up for what docs/FORMATS.md says of envelopes and of answers."""

import itertools

from formats import known, tables
from made_documents import IDENTIFIER, quoted, values_by_word

SOAP = "http://www.w3.org/2003/05/soap-envelope"
SOAP_1_1 = "http://schemas.xmlsoap.org/soap/envelope/"
ADDRESSING = "http://www.w3.org/2005/08/addressing"
ANONYMOUS, NO_ADDRESS = ADDRESSING + "/anonymous", ADDRESSING + "/none"
ADDRESSING_2004 = "http://schemas.xmlsoap.org/ws/2004/08/addressing"
ANONYMOUS_2004 = ADDRESSING_2004 + "/role/anonymous"
ROLES = [SOAP + "/role/" + it for it in ("next", "ultimateReceiver")]
# Actions for which the file of actions has a text, one that is too large, and none.
ECHO, LARGE, UNKNOWN = "urn:echo", "urn:large", "urn:unknown"
ACTIONS = [ECHO, LARGE]


def lines(*items):
    """Lines, of which some may be together already."""
    return "".join(it if it.endswith("\n") else it + "\n" for it in items if it)


def text(value):
    return "text string " + quoted(value.encode())


def element(prefix, name, *content):
    start = "start %s %s" % (quoted(prefix.encode()), quoted(name.encode()))
    return lines(start, *content, "close")


def declaration(prefix, uri):
    return "ns %s %s" % (quoted(prefix.encode()), quoted(uri.encode()))


USUAL = lines(declaration("s", SOAP), declaration("a", ADDRESSING))
ECHOED = element("", "x", text("hi"))
COMMENT = 'comment "c"'


def body(*content):
    return element("s", "Body", *content)


BODY = body(ECHOED)


def header(*blocks):
    return element("s", "Header", *blocks)


def envelope(*children, more=""):
    """An envelope with these children, whose root has more declarations and attributes."""
    return element("s", "Envelope", USUAL, more, *children)


def block(name, *content):
    """A header block of WS-Addressing."""
    return element("a", name, *content)


def action(value=ECHO):
    return block("Action", text(value))


def request(*blocks, body=BODY, more=""):
    """A request for an echo, with more header blocks."""
    return envelope(header(action(), *blocks), body, more=more)


def reply_to(address):
    return block("ReplyTo", block("Address", text(address)))


def must_understand(value="number 1", role=None):
    """A header block that no service here understands."""
    attributes = ['attr "s" "mustUnderstand" ' + value]
    if role is not None:
        attributes.append('attr "s" "role" ' + role)
    return element("t", "Block", declaration("t", "urn:t"), *attributes)


def no_envelopes():
    """Documents that are no envelope, though not for their root or a repeated header."""
    yield envelope(header(action()))
    yield envelope()
    yield envelope(BODY, BODY)
    yield envelope(BODY, header(action()))
    yield envelope(header(action()), header(action()), BODY)
    yield envelope(text("a"), BODY)
    yield envelope(BODY, text("a"))
    yield envelope(BODY, element("", "Other"))
    yield envelope(element("a", "Other"), BODY)
    yield envelope("text float 00000000", BODY)
    yield envelope(header(action(), text("a")), BODY)
    yield envelope(header(action(), element("", "NoNamespace")), BODY)
    yield envelope(header(block("Action", ECHOED)), BODY)
    yield envelope(header(action(), block("MessageID", ECHOED)), BODY)
    yield envelope(header(action(), block("ReplyTo")), BODY)
    yield request(body=body(element("undeclared", "x")))
    yield request(body=body(element("", "x", 'attr "undeclared" "a" truth true')))
    yield request(more=declaration("p", "urn:p") + "\n" + declaration("p", "urn:q"))
    yield request(must_understand('string "maybe"'))


def other_roots():
    yield ECHOED
    yield element("", "Envelope", BODY.replace('"s"', '""'))
    yield envelope(BODY).replace(SOAP, SOAP_1_1)
    yield element("s", "Body", USUAL, ECHOED)


def repeated():
    for name in ("Action", "To", "MessageID"):
        yield request(*[block(name, text("urn:%d" % it)) for it in range(2)])
    yield request(reply_to(ANONYMOUS), reply_to(ANONYMOUS))
    yield request(reply_to(NO_ADDRESS), reply_to(ANONYMOUS))


def not_understood():
    roles = [None, 'string ""'] + ["string " + quoted(it.encode()) for it in ROLES]
    values = ("number 1", "truth true", 'string "1"', 'string "true"')
    for role, value in itertools.product(roles, values):
        yield request(must_understand(value, role))
    for count in (2, 3, 10, 100):
        yield request(*[must_understand()] * count)


def served():
    """Envelopes that have an answer which is no fault where the service echoes."""
    yield request()
    yield envelope(header(action()), body())
    yield envelope(COMMENT, header(action()), text(" \t\n"), BODY, COMMENT)
    yield envelope(header(COMMENT, action(), text(" "), block("To", text("urn:to"))), BODY)
    yield request(block("MessageID", "text id " + IDENTIFIER), reply_to(ANONYMOUS))
    yield request(block("MessageID", "text uuid " + IDENTIFIER, COMMENT, text("more")))
    yield request(block("RelatesTo", text("urn:one")), block("RelatesTo", text("urn:two")))
    yield request(block("RelatesTo", ECHOED))
    values = ("number 0", "truth false", 'string "0"', 'string "false"')
    yield request(*map(must_understand, values))
    yield request(must_understand(role='string "urn:another"'))
    yield request(*[element("t", "Block", declaration("t", "urn:t"), ECHOED)] * 10)
    yield request(block("To", 'attr "s" "mustUnderstand" number 1', text("urn:to")))
    yield request(block("ReplyTo", block("Address", text(ANONYMOUS)), block("Metadata"), ECHOED))
    yield from declared()
    yield from of_bodies()


def declared():
    """Declarations around Body, which the echo repeats."""
    own = declaration("", "urn:own")
    yield request(more=own)
    yield request(body=body(own, ECHOED))
    yield request(body=body(element("", "x", own, ECHOED), element("", "y", 'ns "" ""')))
    yield request(more=declaration("xml", "http://www.w3.org/XML/1998/namespace"))
    yield request(more=declaration("t", ""))
    yield request(body=body(element("xml", "x", 'attr "xml" "lang" string "en"')))
    for count in (2, 10, 125):
        more = lines(*(declaration("p%d" % it, "urn:%d" % it) for it in range(count)))
        yield request(more=more)
        yield request(body=body(more, ECHOED, ECHOED))
        yield request(body=body(element("p1", "x", more.splitlines()[1])), more=more)


def of_bodies():
    for value in ('string ""', 'string " "', 'string "text"', "float 7fc00000", "list 0"):
        yield request(body=body("text " + value))
    yield request(body=body('attr "" "a" number 1', ECHOED))
    yield request(body=body('array int16 "" "i"', "values number 1 number 2"))
    yield request(body=body('array bool "a" "i"', 'ns "i" "urn:i"', "values truth true"))
    yield request(body=body(COMMENT, ECHOED, COMMENT, text(" ")))
    for count in (2, 100, 1_000):
        yield request(body=body(*[ECHOED] * count))
    for depth in (1, 5, 28):
        yield request(body=body('start "" "x"\n' * depth + "close\n" * depth))


def without_action():
    yield envelope(BODY)
    yield envelope(header(), BODY)
    yield envelope(header(block("To", text("urn:to")), block("MessageID", text("urn:id"))), BODY)
    other = element("a", "Action", 'attr "s" "role" string "urn:another"', text(ECHO))
    yield envelope(header(other), BODY)


def to_others():
    for address in ("", "urn:other", ANONYMOUS + " ", "t" * 300):
        yield request(reply_to(address))


def to_nobody():
    yield request(reply_to(NO_ADDRESS))
    yield request(reply_to(NO_ADDRESS), must_understand())
    yield envelope(header(reply_to(NO_ADDRESS)), BODY)


def asked_for(name):
    return lambda: [envelope(header(action(name), block("MessageID", text("urn:id"))), BODY)]


# What makes requests for each case of the table of faults. Some come with a file of actions alone;
# no service of the program refuses with a reason of its own.
FAULTS = {
    "the root isn't a SOAP 1.2 Envelope": other_roots,
    "Action, To, MessageID or ReplyTo stands twice": repeated,
    "another document that is no envelope": no_envelopes,
    "a block isn't understood": not_understood,
    "no Action": without_action,
    "another reply address": to_others,
    "no such action": asked_for(UNKNOWN),
    "the service refuses": None,
    "the answer is larger than may be sent": asked_for(LARGE),
}
BY_ACTIONS = ("no such action", "the answer is larger than may be sent")
# What makes requests for each case of the table of answers, where these aren't faults.
ANSWERS = {
    "the document is no envelope": None,
    "ReplyTo's Address is the version's none address, which only 1.0 has": to_nobody,
    "a targeted header block with mustUnderstand isn't the version's Action, To, MessageID, "
    "RelatesTo or ReplyTo": None,
    "there is no Action": None,
    "there is a ReplyTo, and its Address isn't the version's anonymous one": None,
    "the service replies": served,
    "the service says nothing": None,
    "the service has no such action, or refuses with a reason": None,
}
# What FORMATS says of an envelope, of which all that is made here has cases.
RULES = (
    "names",
    "root",
    "children of the root",
    "blocks",
    "Action, To, MessageID, RelatesTo, ReplyTo",
    "Body",
)


def in_both_versions(made):
    """A request, and the same in the addressing of August 2004."""
    yield made
    yield made.replace(ANONYMOUS, ANONYMOUS_2004).replace(ADDRESSING, ADDRESSING_2004)


def all_requests():
    """Requests, each with words for it, what its answer has to say, or None where there is none,
    and whether that comes of a file of actions."""
    answers, faults = tables("Answers")[:2]
    known("an answer", [it[0] for it in answers], ANSWERS)
    known("a fault", [it[0] for it in faults], FAULTS)
    known("an envelope", [it[0] for it in tables("What an envelope is")[0]], RULES)
    for case, _, _, reason in faults:
        for one in FAULTS[case]() if FAULTS[case] else []:
            for made in in_both_versions(one):
                yield case, made, reason, case in BY_ACTIONS
    for case, answer in answers:
        for one in ANSWERS[case]() if ANSWERS[case] else []:
            for made in [one] if ANSWERS[case] is to_nobody else in_both_versions(one):
                yield case, made, None if answer == "none" else "Response", False


def values_in_headers():
    """Requests with each value in each header, of which each has an answer."""
    values = values_by_word()
    for value in [it for word in values for it in values[word]] + ["list 0"]:
        words = "with " + value[:100]
        yield words, envelope(header(block("Action", "text " + value)), BODY)
        yield words, request(*[block(it, "text " + value) for it in ("To", "MessageID")])
        yield words, request(block("RelatesTo", "text " + value))
        yield words, request(block("ReplyTo", block("Address", "text " + value)))
        yield words, request(must_understand(value))
        yield words, request(must_understand("number 0", value))
        yield words, request(must_understand("number 1", value))
        yield words, envelope("text " + value, header(action()), BODY)
        yield words, request(body=body(element("", "x", "text " + value)))
