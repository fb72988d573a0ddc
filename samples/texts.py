"""What make_area.py and make_requests.py have in common: the names of the call, a text list read,
a file written. What goes wrong is told in one line."""
import argparse
import sys


class Parser(argparse.ArgumentParser):
    def error(self, message):
        self.exit(2, "%s: %s (--help says more)\n" % (self.prog, message))


def names(told, own_list, own_file):
    """LIST and FILE of the call, or the samples' own where it has none; told is what --help says."""
    parser = Parser(usage="%(prog)s [--help] [LIST FILE]", description=told, formatter_class=argparse.RawDescriptionHelpFormatter)
    parser.add_argument("LIST", nargs="?", help="the text to read")
    parser.add_argument("FILE", nargs="?", help="the file to write")
    given = parser.parse_args()
    if given.LIST is None:
        return own_list, own_file
    if given.FILE is None:
        parser.error("FILE is missing: name both, or none")
    return given.LIST, given.FILE


def lines(path):
    """The lines that count, each with its number; not the blank ones, nor those that begin with #."""
    try:
        with open(path, encoding="ascii", errors="surrogateescape") as file:
            numbered = enumerate(file.read().split("\n"), 1)
    except OSError as error:
        sys.exit("%s: %s" % (path, error.strerror))
    return [(place, text) for place, text in numbered if text and not text.startswith("#")]


def write(path, content):
    try:
        with open(path, "wb") as file:
            file.write(content)
    except OSError as error:
        sys.exit("%s: %s" % (path, error.strerror))
