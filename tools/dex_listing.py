"""Reads the methods of DEX files, with their instructions, as Debian's `dexdump` lists them.

Methods come in the order in which `nosleep` numbers them: file by file, class row by class row, direct before virtual ones.
Names are shown as `nosleep` shows them.
"""
import re
import shutil
import subprocess
import tempfile
from dataclasses import dataclass, field

WAKE_LOCK = "Landroid/os/PowerManager$WakeLock;"
CLASS = re.compile(r"Class #(\d+) ")
SECTION = re.compile(r"  (Interfaces|Static fields|Instance fields|Direct methods|Virtual methods) +-")
QUOTED = re.compile(r" +(Class descriptor|Superclass|name|type) +: '(.*)'")
INTERFACE = re.compile(r"    #\d+ +: '(.*)'")
MEMBER = re.compile(r"    #(\d+) +: \(in ")
CODE = re.compile(r"([0-9a-f]{6,}): ([0-9a-f .]+?) *\|([0-9a-f]{4,}): (.*)")
LINE = re.compile(r"        0x([0-9a-f]{4,}) line=(\d+)")
SOURCE = re.compile(r"  source_file_idx +: \d+ \((.*)\)")
INVOKE = re.compile(r"invoke-\S+ \{.*?\}, (\S+?;|\[\S+?)\.(\S+?):(\(\S*\)\S+) //")


class Unlisted(Exception):
    """dexdump is not there, does not take a file, or lists it in a form that is not known."""


@dataclass
class Class:
    name: str = ""
    parent: str = ""
    interfaces: list = field(default_factory=list)
    source: str = ""


@dataclass
class Row:
    """An instruction: its text, where its bytes stand in the file, and how many they are."""
    text: str
    offset: int
    size: int


@dataclass
class Method:
    number: int
    file: str
    owner: Class
    name: str = ""
    proto: str = ""
    rows: dict = field(default_factory=dict)
    lines: dict = field(default_factory=dict)

    def shown(self):
        return f"{self.owner.name}->{self.name}"

    def line(self, pc):
        """The source line of an instruction, or None."""
        before = [place for place in self.lines if place <= pc]
        return self.lines[max(before)] if before else None

    def touches_lock(self):
        return any(WAKE_LOCK in row.text for row in self.rows.values())

    def calls(self):
        """The methods that its calls name, as (class, name, prototype)."""
        found = (INVOKE.match(row.text) for row in self.rows.values())
        return {tuple(shown(name.encode()) for name in call.groups()) for call in found if call}


def shown(data):
    """Bytes 21 to 7e but for the backslash as they are, any other as `\\x` and two digits."""
    return "".join(chr(byte) if 0x21 <= byte <= 0x7E and byte != 0x5C else f"\\x{byte:02x}" for byte in data)


def name_of(text):
    """A name of the listing, which is read byte by byte."""
    return shown(text.encode("latin-1"))


def methods(files):
    """Each method of the files in the order of their numbers."""
    number = 0
    for file in files:
        for owner in classes(file):
            for method in owner:
                method.number = number
                yield method
                number += 1


def classes(file):
    """The methods of each class of a file."""
    reader = None
    for line in dumped(file):
        if found := CLASS.match(line):
            expected = reader.number + 1 if reader else 0
            if int(found[1]) != expected:
                raise Unlisted(f"{file}: dexdump lists class {found[1]} where class {expected} was to stand")
            if reader:
                yield reader.methods
            reader = Reader(file, expected)
        elif reader:
            reader.take(line)
    if reader:
        yield reader.methods


class Reader:
    """Reads the lines of one class."""

    def __init__(self, file, number):
        self.file, self.number, self.section = file, number, ""
        self.row, self.methods = Class(), []

    def take(self, line):
        if line[:1] != " ":
            self.take_code(line)
        elif found := SECTION.match(line):
            self.section = found[1]
        elif found := SOURCE.match(line):
            self.row.source = found[1]
        elif self.section.endswith("methods"):
            self.take_method(line)
        elif not self.section:
            self.take_class(line)
        elif self.section == "Interfaces" and (found := INTERFACE.match(line)):
            self.row.interfaces.append(name_of(found[1]))

    def take_class(self, line):
        if found := QUOTED.match(line):
            if found[1] == "Class descriptor":
                self.row.name = name_of(found[2])
            elif found[1] == "Superclass":
                self.row.parent = name_of(found[2])

    def take_method(self, line):
        if MEMBER.match(line):
            self.methods.append(Method(0, self.file, self.row))
        elif not self.methods:
            return
        elif found := QUOTED.match(line):
            if found[1] == "name":
                self.methods[-1].name = name_of(found[2])
            elif found[1] == "type":
                self.methods[-1].proto = name_of(found[2])
        elif found := LINE.match(line):
            self.methods[-1].lines[int(found[1], 16)] = int(found[2])

    def take_code(self, line):
        if self.methods and (found := CODE.match(line)):
            size = len(re.sub(r"[^0-9a-f]", "", found[2])) // 2
            text = found[4].encode("latin-1").decode("utf-8", "replace")
            self.methods[-1].rows[int(found[3], 16)] = Row(text, int(found[1], 16), size)


def dumped(file):
    """The lines of dexdump's plain listing."""
    if shutil.which("dexdump") is None:
        raise Unlisted("there is no dexdump here: apt-get install dexdump")
    words = ["dexdump", "-d", "-l", "plain", file]
    with tempfile.TemporaryFile() as errors:
        with subprocess.Popen(words, stdout=subprocess.PIPE, stderr=errors, encoding="latin-1") as listing:
            yield from listing.stdout
        if listing.returncode != 0:
            errors.seek(0)
            said = errors.read().decode("latin-1").strip().rpartition("] ")[2]
            raise Unlisted(f"dexdump does not take {file}: {said or 'it says nothing'}")
