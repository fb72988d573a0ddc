"""The script that the program `trial` reads, and what it must print: each step is written to both, the second from the model alone.

A step, all numbers big-endian: `T` is a text; `A` is the area from now on; any other letter is a request. trial prints a text as it is, of a
request its answer, the output of a get, and every interval that a change altered.
"""
import itertools
import struct

import model

FILLED = b"\xee"
LONGEST_AREA = 1048576
WALKS = "FBLHNP"    # the letters of trial_walks.py


def filled(key, length):
    """A record that begins with its key; where the length is short of the key, only its front."""
    return (key + b"." * length)[:length]


def items(part):
    """All bytes, neighbours that are equal as one item: the byte, and after a star how often it stands there."""
    out = ""
    for byte, run in itertools.groupby(part):
        count = len(list(run))
        out += " %02x" % byte + ("*%d" % count if count > 1 else "")
    return out


class Script:
    def __init__(self):
        self.script, self.lines, self.area = bytearray(), [], b""

    def text(self, text):
        self.script += b"T" + struct.pack(">H", len(text)) + text.encode("ascii")
        self.lines.append(text)

    def lay(self, area):
        assert len(area) <= LONGEST_AREA
        self.script += b"A" + struct.pack(">I", len(area)) + area
        self.area = area

    def ask(self, letter, m, content=b"", address=0, out=0, lent=None):
        """A request of the area's first `lent` bytes, or all of them; gives the answer."""
        lent = len(self.area) if lent is None else lent
        assert lent <= len(self.area) and out <= 65536
        self.script += letter.encode("ascii") + struct.pack(">QQQQIIQH", *m, lent, out, address, len(content)) + content
        before = self.area[:lent]
        came = model.asked(letter, before, m, content, address, FILLED * out)
        self.area = came.area + self.area[lent:]
        self.lines.append("  %s:%s" % (model.NAMES[letter], "".join(" %d" % each for each in (came.answer.number,) + came.answer.values)))
        if out:
            self.lines.append("    out:" + items(came.out))
        self.altered(before, came.area, m.size if 1 <= m.size <= 32768 else 512)
        return came.answer

    def altered(self, before, after, unit):
        for place in range(len(before) // unit):
            old, new = (area[place * unit:(place + 1) * unit] for area in (before, after))
            if old != new:
                self.lines.append("    %s:%s" % ("index" if place == 0 else place - 1, items(new)))

    def stdout(self):
        return "".join(line + "\n" for line in self.lines)

    # ---- what the papers say in so many words, for the model to be held to

    def says(self, at, digits):
        """The area has these bytes there; from the right where `at` is below zero."""
        wanted = bytes.fromhex(digits)
        at = at if at >= 0 else len(self.area) + at
        assert self.area[at:at + len(wanted)] == wanted, (self.lines[-8:], self.area[at:at + len(wanted)].hex(), digits)

    def answers(self, answer, number, *values):
        assert answer == (number, values), (self.lines[-8:], answer, number, values)

    def made(self, answer, number, count=0, *numbers):
        """What a change came to: a refusal, or so many intervals written; which ones, where that is said (L9)."""
        told = (count,) + (numbers or answer.values[1:]) if number == 0 else ()
        assert answer == (number, told) and len(told) == (count + 1 if number == 0 else 0), (self.lines[-8:], answer, number, count, numbers)


# ---- the script read back, for a check of the format that does not lean on how it was written

def replayed(script, asked, walked):
    """What trial must print for the bytes of a script, where asked(letter, area, m, content, address, out) tells number, values, area and output, and
    walked(letter, area, m, content, out) the line for a walk or for steps."""
    at, area, text = 0, b"", ""
    while at < len(script):
        letter = chr(script[at])
        if letter == "T":
            length, = struct.unpack_from(">H", script, at + 1)
            text += script[at + 3:at + 3 + length].decode("ascii") + "\n"
            at += 3 + length
        elif letter == "A":
            length, = struct.unpack_from(">I", script, at + 1)
            area = bytes(script[at + 5:at + 5 + length])
            at += 5 + length
        else:
            *m, lent, out, address, length = struct.unpack_from(">QQQQIIQH", script, at + 1)
            start = at + 1 + struct.calcsize(">QQQQIIQH")
            content, at = bytes(script[start:start + length]), start + length
            if letter in WALKS:
                text += walked(letter, area[:lent], model.Measures(*m), content, out) + "\n"
                continue
            told, after = replayed_request(letter, area[:lent], model.Measures(*m), content, address, out, asked)
            area, text = after + area[lent:], text + told
    return text


def replayed_request(letter, lent, m, content, address, out, asked):
    number, values, after, given = asked(letter, lent, m, bytes(content), address, FILLED * out)
    text = "  %s:%s\n" % (model.NAMES[letter], "".join(" %d" % each for each in (number,) + values))
    if letter in "GR" and out:
        text += "    out:" + items(given) + "\n"
    unit = m.size if 1 <= m.size <= 32768 else 512
    for place in range(len(lent) // unit if letter in "IUE" else 0):
        new = after[place * unit:(place + 1) * unit]
        if new != lent[place * unit:(place + 1) * unit]:
            text += "    %s:%s\n" % ("index" if place == 0 else place - 1, items(new))
    return text, after
