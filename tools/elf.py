"""Reads the requirements of an x86-64 program: its libraries, and the versions of their symbols."""
import struct
from typing import NamedTuple

MAGIC = b"\x7fELF\x02\x01"
# places in the head: the table of sections, and the size and the number of these
TABLE, SIZES = 40, 58
SECTION = struct.Struct("<4xI16xQQI")
DYNAMIC, VERSIONS = 6, 0x6FFFFFFE
# entries of these two sections
TAG = struct.Struct("<qQ")
LIBRARY, VERSION = struct.Struct("<2xHIII"), struct.Struct("<8xII")
NEEDED = 1


class Section(NamedTuple):
    """A section: its kind, place and size, and the number of the section that has its texts."""

    kind: int
    place: int
    size: int
    texts: int


class Program:
    """A program's file."""

    def __init__(self, data):
        if not data.startswith(MAGIC):
            raise ValueError("the file is no program for x86-64")
        (table,), (size, number) = struct.unpack_from("<Q", data, TABLE), struct.unpack_from("<HH", data, SIZES)
        self.data = data
        self.sections = [Section(*SECTION.unpack_from(data, table + size * each)) for each in range(number)]

    def of_kind(self, kind):
        return (one for one in self.sections if one.kind == kind)

    def text(self, section, place):
        """The text at that place among those of the section."""
        start = self.sections[section.texts].place + place
        return self.data[start:self.data.index(b"\0", start)].decode()

    def libraries(self):
        """The names of the libraries that it loads."""
        for section in self.of_kind(DYNAMIC):
            for tag, value in TAG.iter_unpack(self.data[section.place:section.place + section.size]):
                if tag == NEEDED:
                    yield self.text(section, value)

    def versions(self):
        """The versions of symbols that it needs of all libraries."""
        for section in self.of_kind(VERSIONS):
            place, after = section.place, 1
            while after:
                number, _, first, after = LIBRARY.unpack_from(self.data, place)
                at = place + first
                for _ in range(number):
                    name, step = VERSION.unpack_from(self.data, at)
                    yield self.text(section, name)
                    at += step
                place += after
