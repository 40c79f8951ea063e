"""A reliable sequence as a list of bodies and two sets of numbers: what tools/rehearsals compares with."""


class Sequence:
    """Both ends, and what was sent between them. A line that can do nothing does nothing."""

    def __init__(self, window):
        self.window, self.bodies, self.closed = window, [], False
        self.acknowledged, self.received = set(), set()
        self.front = self.delivered = 0
        self.documents, self.acknowledgements = [], []

    def submit(self, body, last=False):
        if not self.closed and len(self.bodies) - self.front < self.window:
            self.bodies.append(body)
            self.closed = last

    def last(self, body):
        self.submit(body, True)

    def send(self, number):
        if number <= len(self.bodies) and number not in self.acknowledged:
            self.documents.append(number)

    def data(self, at):
        if at < len(self.documents) and self.documents[at] <= self.delivered + self.window:
            self.received.add(self.documents[at])

    def deliver(self):
        if self.delivered + 1 in self.received:
            self.delivered += 1
            return ["delivered %s" % self.bodies[self.delivered - 1]]

    def ack(self):
        self.acknowledgements.append(frozenset(self.received))

    def heard(self, at):
        if at < len(self.acknowledgements):
            self.acknowledged |= self.acknowledgements[at]
        while self.front + 1 in self.acknowledged:
            self.front += 1

    def counts(self):
        counts = len(self.bodies), self.delivered, len(self.acknowledged)
        return "submitted %d delivered %d acknowledged %d" % counts
