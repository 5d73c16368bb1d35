"""Prints the public symbols of a program database: their addresses in the image, and their names.

usage: PYTHONPATH=python python3 examples/python/publics.py FILE

The records of symbols are read here; the library moves their places to addresses.
"""

import struct
import sys

import pdb_container

DEBUG_INFORMATION = 3  # the stream whose header says which stream has the records of symbols
RECORDS_AT = 20
S_PUB32 = 0x110E


def publics(pdb):
    """The address of each public symbol, None if it is nowhere in the image, and its name."""
    (number,) = struct.unpack_from("<H", pdb.stream(DEBUG_INFORMATION), RECORDS_AT)
    stream, at = pdb.stream(number), 0
    while at + 4 <= len(stream):
        length, kind = struct.unpack_from("<2H", stream, at)
        record = bytes(stream[at + 4 : at + 2 + length])
        if kind == S_PUB32 and len(record) > 10:
            _, offset, section = struct.unpack_from("<2IH", record)
            name = record[10:].split(b"\0")[0].decode(errors="replace")
            yield pdb.address_map.internal_place(section, offset).rva, name
        at += 2 + length


def main():
    with pdb_container.open(sys.argv[1]) as pdb:
        for address, name in publics(pdb):
            print("-" if address is None else f"{address:#x}", name)


if __name__ == "__main__":
    main()
