"""Makes a ctypes.Structure of a class, and prints where its members lie.

usage: PYTHONPATH=python python3 examples/python/structure.py FILE CLASS
"""

import ctypes
import sys

import pdb_container
from pdb_container import Array, BaseClass, Bitfield, Class, Member, Modifier, Union

SIGNED = dict.fromkeys((0x10, 0x11, 0x12, 0x13, 0x68, 0x70, 0x72, 0x74, 0x76), "int")
NUMBERS = {**SIGNED, 0x30: "bool", 0x40: "float", 0x41: "double"}
BY_SIZE = {1: "8", 2: "16", 4: "32", 8: "64"}


def kind_of(types, index):
    """What ctypes has for a type. An address, an enumeration and any other number are unsigned."""
    it, size = types[index], types.definitions.size_of(index) or 0
    if isinstance(it, (Modifier, Bitfield)):
        return kind_of(types, it.underlying_type_index)
    if isinstance(it, Array):
        element = kind_of(types, it.element_type_index)
        return element * (size // (ctypes.sizeof(element) or 1))
    if isinstance(it, (Class, Union)):
        return structure(types, index)
    name = NUMBERS.get(index, "uint")
    name += BY_SIZE.get(size, "") if name.endswith("int") else ""
    return getattr(ctypes, f"c_{name}") if size in BY_SIZE else ctypes.c_uint8 * size


def structure(types, index):
    """The structure of a class, in which members lie where their records say, also where they overlap."""
    it = types[index].definition or types[index]
    parts = [("_bytes", ctypes.c_uint8 * it.size)]
    for one in it.fields:
        if isinstance(one, (Member, BaseClass)):
            kind, of = kind_of(types, one.type_index), types[one.type_index]
            fields = [("_before", ctypes.c_uint8 * one.offset)]
            if isinstance(of, Bitfield):
                kind = ctypes.c_uint8 if kind is ctypes.c_bool else kind  # whose bits ctypes reads as a byte
                fields += [("_below", kind, of.position)] if of.position else []
                fields.append((one.name, kind, of.length))
            else:
                fields.append((one.name or of.name, kind))
            parts.append((f"_{len(parts)}", type("Part", (ctypes.Structure,), {"_pack_": 1, "_fields_": fields})))
    named = {"_pack_": 1, "_anonymous_": [name for name, _ in parts[1:]], "_fields_": parts}
    members = {"_pack_": 1, "_anonymous_": ["_"], "_fields_": [("_", type("Parts", (ctypes.Union,), named))]}
    return type(it.name, (ctypes.Structure,), members)


if __name__ == "__main__":
    with pdb_container.open(sys.argv[1]) as pdb:
        made = structure(pdb.types, pdb.types[sys.argv[2]].index)
        print(made.__name__, ctypes.sizeof(made))
        for one in pdb.types[sys.argv[2]].fields:
            if isinstance(one, Member):
                print(f"  +{getattr(made, one.name).offset} {one.name}")
