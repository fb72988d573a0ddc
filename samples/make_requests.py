#!/usr/bin/env python3
"""make_requests.py [LIST FILE]: requests as a text list to the 64-byte requests of the depot's program.

A line is a letter, a blank, and for G and E a key of 8 characters, for I and U a record of 8 to 60.
Blank lines and lines that begin with # are passed over. A bad line is told with its number, and then
nothing is written. With no names it goes from samples/requests.txt to samples/register/requests.rec.
"""
import os
import sys

HERE = os.path.dirname(os.path.abspath(__file__))
sys.path.insert(0, os.path.join(HERE, "..", "tests"))
import layout  # noqa: E402
import texts  # noqa: E402

KEY, MOST = 8, 60


def wrong(text):
    """Why a line is no request, or nothing."""
    if text[:1] not in ("G", "I", "U", "E") or text[1:2] != " ":
        return "no letter G, I, U or E with a blank after it"
    if not text.isascii():
        return "a character that is not ASCII"
    length = len(text) - 2
    if text[0] in "GE" and length != KEY:
        return "a key of %d characters, not %d" % (length, KEY)
    if text[0] in "IU" and not KEY <= length <= MOST:
        return "a record of %d characters, not %d to %d" % (length, KEY, MOST)
    return ""


def requests(path):
    """The requests in their order; a line on standard error for each bad line, and then none."""
    out, bad = [], False
    for place, text in texts.lines(path):
        reason = wrong(text)
        if reason:
            print("%s:%d: %s" % (path, place, reason), file=sys.stderr)
            bad = True
            continue
        out.append(layout.request_line(text[:1].encode("ascii"), text[2:].encode("ascii")))
    if bad:
        sys.exit(1)
    return b"".join(out)


def main():
    own_list, own_file = os.path.join(HERE, "requests.txt"), os.path.join(HERE, "register", "requests.rec")
    path, file = texts.names(__doc__, own_list, own_file)
    texts.write(file, requests(path))


if __name__ == "__main__":
    main()
