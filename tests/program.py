"""The program through C: crate `exports`, each request asked as model.asked does it, so that the two can be held side by side."""
import faulthandler
import os
import struct
import subprocess

import calls
import model

ROOT = os.path.dirname(os.path.dirname(os.path.abspath(__file__)))
GUARD = b"\xa5" * 64
faulthandler.enable()   # should the program be brought down, Python still says where it stood
UNSTORED = 0xDEADBEEF
VALUES = {"C": 2, "G": 1, "R": 1, "I": 5, "U": 5, "E": 5}   # how many C is given: of a change the count and four numbers


def built(path=None):
    """The path of the library that calls.py opens; without one it is made of the sources, unless the one made before is newer than all of them."""
    if path:
        return os.path.abspath(path)
    path = os.path.join(ROOT, "target", "exports.called")
    if not os.path.exists(path) or os.path.getmtime(path) < newest_source():
        ran = subprocess.run([os.path.join(ROOT, ".ci", "archive"), "exports"], capture_output=True, text=True)
        if ran.returncode:
            raise SystemExit(".ci/archive exports: " + (ran.stdout + ran.stderr)[-500:])
        calls.made(os.path.join(ROOT, "target", "staticlib", "libexports.a"), path)
    return path


def newest_source():
    """When a source was last changed; what rt keeps in crates/NAME/out is none."""
    crates, newest = os.path.join(ROOT, "crates"), os.path.getmtime(os.path.join(ROOT, "crates.txt"))
    for folder, folders, names in os.walk(crates):
        if os.path.dirname(folder) == crates:
            folders[:] = [name for name in folders if name != "out"]
        newest = max([newest] + [os.path.getmtime(os.path.join(folder, name)) for name in names])
    return newest


class Lent:
    """Bytes as they are lent to C: pointer and length, with other bytes on both sides that must stay."""

    def __init__(self, library, content):
        self.length = len(content)
        self.memory = library.lend(self.length + 2 * len(GUARD))
        self.memory.view[:] = GUARD + content + GUARD

    def words(self):
        return [self.memory.address + len(GUARD), self.length]

    def content(self):
        return bytes(self.memory.view[len(GUARD):len(GUARD) + self.length])

    def beside(self):
        return bytes(self.memory.view[:len(GUARD)]) + bytes(self.memory.view[len(GUARD) + self.length:])


class Numbers:
    """Numbers that C stores to, each by an address of its own."""

    def __init__(self, library, numbers):
        self.count = len(numbers)
        self.memory = library.lend(8 * self.count)
        self.memory.view[:] = struct.pack("<%dQ" % self.count, *numbers)

    def words(self):
        return [self.memory.address + 8 * i for i in range(self.count)]

    def now(self):
        return struct.unpack("<%dQ" % self.count, self.memory.view)


class Told(model.NamedTuple):
    """What comes back from C: the number, the values (0 where there are fewer), all bytes that were lent, and those on both sides of them."""
    number: int
    values: tuple
    area: bytes
    out: bytes
    content: bytes
    beside: bytes = 6 * GUARD


class Program:
    FUNCTIONS = {"C": "check", "G": "get", "R": "get_at", "I": "insert", "U": "update", "E": "erase"}

    def __init__(self, path):
        self.library = calls.opened(path)

    def asked(self, letter, area, m, content=b"", address=0, out=b""):
        lent, given, output = (Lent(self.library, each) for each in (area, content, out))
        values = Numbers(self.library, [UNSTORED] * VALUES[letter])
        words = lent.words() + list(m)
        if letter == "R":
            words.append(address)
        elif letter != "C":
            words += given.words()
        if letter in "GR":
            words += output.words()
        number = self.library.call("belquita_" + self.FUNCTIONS[letter], words + values.words())
        beside = lent.beside() + output.beside() + given.beside()
        return Told(number, values.now(), lent.content(), output.content(), given.content(), beside)


def expected(letter, area, m, content=b"", address=0, out=b""):
    """What the model says, in the form in which C tells it."""
    came = model.asked(letter, area, m, content, address, out)
    values = (came.answer.values + (0,) * 5)[:VALUES[letter]]
    return Told(came.answer.number, values, came.area, came.out, content)


class Comparing:
    """Requests asked of both; counts how many, and which numbers came."""

    def __init__(self, program):
        self.program, self.compared, self.differences, self.numbers = program, 0, [], {}

    def ask(self, letter, area, m, content=b"", address=0, out=b""):
        """The model's outcome; the area goes on from there."""
        should = expected(letter, area, m, content, address, out)
        found = self.program.asked(letter, area, m, content, address, out)
        self.compared += 1
        self.numbers[should.number] = self.numbers.get(should.number, 0) + 1
        if should != found:
            self.differences.append(difference(letter, m, area, content, address, should, found))
        return should


def difference(letter, m, area, content, address, should, found):
    """One difference in words."""
    told = "%s %s, %d bytes, content %s, address %d: model %d %s, program %d %s" % (
        model.NAMES[letter], tuple(m), len(area), content.hex() or "none", address, should.number, should.values, found.number, found.values)
    for name in ("area", "out", "content", "beside"):
        a, b = getattr(should, name), getattr(found, name)
        if a != b:
            at = next(i for i in range(len(a)) if a[i] != b[i])
            told += "; %s differs from byte %d: model %02x, program %02x" % (name, at, a[at], b[at])
    return told
