"""What the program reads of one direction of a session."""

import os
import re
import subprocess
import sys
import tempfile

from sockets import PROGRAM, ROOT, STATICS
from streams import Failure

# The lines of a report that begin what isn't a document, and of these the last ones.
OPEN, MESSAGE, ENDS = b"open ", b"message ", (b"ended ", b"fault ", b"offence ")
# The statuses of a run that has read its input to the session's end, or to a refusal.
READ = (0, 1, 9, 10)
TRUNCATED, OUT_OF_ORDER = 24, 3
# What greater quotas may prevent, of the payload, the dictionary, the depth and the content.
BY_A_QUOTA = (11, 14, 20, 21)
GREATEST = "--payload 16777216 --dictionary 1048576 --depth 1024 --content 67108864".split()
# A row of the tables of refusals.
ROW = re.compile(r"^\| (\d+) `\w+` \| .* \| (.*) \|$", re.M)


def note(text):
    print("sessions: " + text, file=sys.stderr, flush=True)


def tool(name):
    return os.path.join(ROOT, "tools", name)


def found_program():
    """The program that `./nettcp` runs, or that script where none is proved or can be kept."""
    if "NETTCP_PROGRAM" in os.environ or not subprocess.call([tool("prove"), "--built"]):
        return PROGRAM
    what = "isn't built of these sources, so its runs are without proofs"
    note("nettcp %s; tools/prove builds the proved program" % what)
    kept = subprocess.run([tool("trial"), "--program"], stdout=subprocess.PIPE, text=True)
    return os.path.join(ROOT, "nettcp") if kept.returncode else kept.stdout.strip()


class Refusal:
    """Why a direction is refused, by the last line of its report."""

    def __init__(self, line):
        words = line.split()
        self.place, self.name = words[1], words[-1]
        self.number, self.offset = int(words[-2]), int(words[-3])
        self.message = words[2] if self.place == "payload" else None

    def cause(self):
        """The usual cause, of the table for its place."""
        with open(os.path.join(ROOT, "docs", "FORMATS.md"), encoding="utf-8") as file:
            tables = re.split("^### In (?:the framing|a payload)$", file.read(), flags=re.M)
        table = tables[1 if self.place == "frame" else 2]
        cause = next(it for number, it in ROW.findall(table) if int(number) == self.number)
        return re.sub(r"\[([^]]*)\]\([^)]*\)", r"\1", cause).replace("`", "")


class Reading:
    """The report of a command on a file from a place on."""

    def __init__(self, command, path, begin, words):
        self.lines = tempfile.TemporaryFile()
        self.opened, self.messages, self.last = [], 0, ""
        with open(path, "rb", buffering=0) as source:
            source.seek(begin)
            ends = {"stdin": source, "stdout": self.lines, "stderr": subprocess.PIPE}
            ran = subprocess.run([*command, *STATICS, *words], **ends)
        if ran.returncode not in READ:
            said = ran.returncode, ran.stderr.decode(errors="replace").strip()
            raise Failure(ran.returncode, "nettcp ended with status %d: %s" % said)
        self.look_through()

    def look_through(self):
        self.lines.seek(0)
        for line in self.lines:
            if line.startswith(MESSAGE):
                self.messages += 1
            elif line.startswith(OPEN):
                self.opened = line.decode().strip().split(" ", 3)[1:]
            elif line.startswith(ENDS):
                self.last = line.decode().strip()

    def refusal(self):
        return Refusal(self.last) if self.last.startswith("offence ") else None

    def length(self):
        """How many bytes the session has, if it ended here."""
        return None if self.refusal() else int(self.last.split()[1])

    def blocks(self):
        """Of each message its line, and those of its document."""
        self.lines.seek(0)
        block = []
        for line in self.lines:
            if line.startswith((MESSAGE, *ENDS)):
                if block:
                    yield b"".join(block)
                block = []
            if block or line.startswith(MESSAGE):
                block.append(line)
