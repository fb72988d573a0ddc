"""The layouts, written: data intervals, index records, areas, the depot's request lines.

This is the only writer of layouts among the scripts. It follows source document 001, chapter 7 and appendix D, with the house rules of
documents 01 and 02 (L5, L6), and knows nothing of the program. Left alone it writes as their writer does: neighbours of equal length in one
run, entries in sections of about the square root of their number, the longest F, zeros in the unused space. Told otherwise it also
writes what a reader must accept.
"""
import struct
from typing import NamedTuple

NONE_KEPT = bytes(13)
HEADER = 24


# ---- data intervals

def groups_of(records):
    """Neighbours of equal length as [length, count]: the writer's groups."""
    groups = []
    for record in records:
        if groups and groups[-1][0] == len(record):
            groups[-1][1] += 1
        else:
            groups.append([len(record), 1])
    return groups


def needs(lengths):
    """The bytes that each front of a list of records takes in the writer's form, from none of them to all of them."""
    out, total, fields, before, run = [4], 0, 0, None, 0
    for length in lengths:
        run = run + 1 if length == before else 1
        fields += 1 if run <= 2 else 0      # a run has one RDF for its first record, a second one from its second record on
        total, before = total + length, length
        out.append(total + 3 * fields + 4)
    return out


def rdf(control, value):
    return struct.pack(">BH", control, value)


def data_interval(records, size, groups=None, filling=0):
    """The groups, as (length, count), are the writer's unless others are given; the filling is the byte of the unused space."""
    fields = b""
    for length, count in groups_of(records) if groups is None else groups:
        fields = (rdf(0x00, length) if count == 1 else rdf(0x08, count) + rdf(0x40, length)) + fields
    body = b"".join(records)
    unused = size - len(body) - len(fields) - 4
    assert unused >= 0, "the records do not fit"
    return body + bytes([filling]) * unused + fields + struct.pack(">HH", len(body), unused)


# ---- index records

def same_front(a, b):
    """How many first bytes two keys or separators have in common."""
    n = 0
    while n < min(len(a), len(b)) and a[n] == b[n]:
        n += 1
    return n


def cut_at(left, right):
    """The separator of a cut: the left key as far as the first byte in which the right one is another."""
    return left[:same_front(left, right) + 1]


def width_for(n):
    """The bytes of a pointer and of a free number among n data intervals (document 02, L6)."""
    return 1 if n <= 256 else 2


def section_size(count):
    """How many entries the writer puts into a section, of so many in all: the least number whose square is no less."""
    size = 1
    while size * size < count:
        size += 1
    return size


def writers_sections(count):
    """The sizes of the writer's sections, from the low end; the last one takes the rest."""
    size = section_size(count)
    return [min(size, count - at) for at in range(0, count, size)]


class Part(NamedTuple):
    """An entry as it stands in the record: its characters, its F, its number, and whether it closes a section, being the highest there."""
    characters: bytes
    front: int
    number: int
    closes: bool

    def size(self, width):
        """Its bytes: characters, F, L and the number; a section's highest has a field of two bytes before them."""
        return len(self.characters) + 2 + width + (2 if self.closes else 0)


def parts_of(entries, sections=None, fronts=None):
    """Entries (separator, number), in the order of keys, as parts. The sizes of the sections are the writer's, and each F the longest that
    matches, unless others are given. A section's highest is counted against the highest of the section before, every other entry
    against the entry before."""
    sizes = writers_sections(len(entries)) if sections is None else sections
    assert sum(sizes) == len(entries) and min(sizes, default=1) > 0, "every section has an entry, and every entry a section"
    parts, before, high = [], b"", b""
    for closes, (separator, number) in zip(closings(sizes), entries):
        longest = same_front(high if closes else before, separator)
        front = longest if fronts is None else fronts[len(parts)]
        assert front <= longest, "F takes over bytes that are others"
        parts.append(Part(separator[front:], front, number, closes))
        before, high = separator, separator if closes else high
    return parts


def closings(sizes):
    """For each entry of sections of these sizes, whether it closes one."""
    return [place == size - 1 for size in sizes for place in range(size)]


def controls(parts, width=1):
    """How far left of the record's end the control information of each part stands, which is its F."""
    out, right = [], 0
    for part in parts:
        out.append(right + width + 2)
        right += part.size(width)
    return out


def fields_of(parts, width=1):
    """The field of each part that closes a section: how far it is from its control information to that of the next such part; 0 for the last."""
    highest = [control for part, control in zip(parts, controls(parts, width)) if part.closes]
    return [after - control for control, after in zip(highest, highest[1:])] + ([0] if highest else [])


def entry_bytes(parts, width=1):
    """The parts as they stand in the record, the first one rightmost. A section's field stands left of its highest's characters."""
    out, fields = b"", iter(fields_of(parts, width))
    for part in parts:
        field = struct.pack(">H", next(fields)) if part.closes else b""
        out = field + part.characters + bytes([part.front, len(part.characters)]) + part.number.to_bytes(width, "big") + out
    return out


def index_size(entries, free, width=1, sections=None, fronts=None):
    """The bytes of an index record's header, free numbers and entries with their sections: what must not exceed S - 7."""
    return HEADER + width * len(free) + sum(part.size(width) for part in parts_of(entries, sections, fronts))


def index_interval(entries, free, size, kept=NONE_KEPT, sections=None, fronts=None, filling=0):
    """kept: base RBA, horizontal pointer and reserved bytes, 12 in all, and the reserved byte after the level. sections and fronts are
    the writer's unless others are given, as sizes and as one F for each entry. The width is that of as many intervals as are named."""
    return index_frame(parts_of(entries, sections, fronts), free, size, kept, filling, width_for(len(entries) + len(free)))


def index_frame(parts, free, size, kept=NONE_KEPT, filling=0, width=1):
    """An index record around parts. The control length is F, L and the pointer; the indicator has a bit for each byte of a pointer. The last
    two displacements lead to the control information of the last part and of the first section's highest. Where no part closes a
    section both lead to the last part, and where there is no part, to the record's end."""
    record, body = size - 7, entry_bytes(parts, width)
    numbers = b"".join(number.to_bytes(width, "big") for number in free)
    unused = record - HEADER - len(numbers) - len(body)
    assert unused >= 0, "the index record has no room"
    places = controls(parts, width) or [0]
    first = next((place for part, place in zip(parts, places) if part.closes), places[-1])
    head = struct.pack(">HBB", record, width + 2, 2 ** width - 1) + kept[:12] + bytes([1]) + kept[12:]
    head += struct.pack(">HHH", HEADER + len(numbers), record - places[-1], record - first)
    assert len(head) == HEADER
    return head + numbers + bytes([filling]) * unused + body + rdf(0x00, record) + struct.pack(">HH", record, 0)


def old_index_interval(entries, free, size, kept=NONE_KEPT, filling=0):
    """An index record in the form that document 01 had and document 02 (L5) did away with: no sections and no field, each F counted against
    the entry before, both displacements to the last entry. For areas that a reader must refuse, or take for the new form; nothing else."""
    width = width_for(len(entries) + len(free))
    open_parts = [part._replace(closes=False) for part in parts_of(entries, [1] * len(entries))]
    return index_frame(open_parts, free, size, kept, filling, width)


def kept_bytes(base, horizontal=0, reserved=0, after_level=0):
    return struct.pack(">IIIB", base, horizontal, reserved, after_level)


# ---- areas and request lines

def area_of(size, entries, free, data, kept=NONE_KEPT, found=None, sections=None):
    """A whole area. data has the records of each interval by its number. found has the bytes of intervals that lie otherwise than a
    writer leaves them: 0 the index record, number + 1 a data interval. sections as for index_interval."""
    count = len(entries) + len(free)
    parts = [index_interval(entries, free, size, kept, sections) if not found or 0 not in found else b""]
    parts += [data_interval(data.get(number, []), size) for number in range(count)]
    for place, part in (found or {}).items():
        parts[place] = part
    return b"".join(parts)


def bent(area, at, new):
    """The area with other bytes from a place on."""
    return area[:at] + new + area[at + len(new):]


def request_line(letter, content, length=None, filling=0):
    """The 64 bytes of one of the depot's requests: letter, length, content, and bytes that do not count."""
    head = letter + bytes([len(content) if length is None else length]) + content
    return head + bytes([filling]) * (64 - len(head))
