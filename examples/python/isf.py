"""Writes the types and the public symbols of a program database as JSON, in Volatility's format ISF.

usage: PYTHONPATH=python python3 examples/python/isf.py FILE
"""

import json
import sys

import pdb_container
from pdb_container import Array, Bitfield, Class, Enum, Member, MemberFunction, Pointer, Primitive, Procedure, Union, UserDefinedType
from publics import publics

CHARACTERS, BOOLEANS, FLOATS = (0x10, 0x20, 0x70, 0x71, 0x7A, 0x7B, 0x7C), range(0x30, 0x34), range(0x40, 0x47)
SIGNED = {0x08, 0x10, 0x11, 0x12, 0x13, 0x14, 0x68, 0x70, 0x72, 0x74, 0x76, 0x78, *FLOATS}
NAMED = {Class: "struct", Union: "union", Enum: "enum"}


def key_of(it):
    """What a type is called: by its index if it has no name in the source."""
    return f"__unnamed_{it.index:x}" if "<unnamed-" in it.name else it.name


def reference(types, base, index):
    """A type where it is used. A base type is put among those that were met."""
    it, size = types[index], types.definitions.size_of(index) or 0
    if isinstance(it, Primitive) and it.target:
        return {"kind": "pointer", "subtype": reference(types, base, it.kind)}
    if isinstance(it, Primitive):
        kind = "float" if index in FLOATS else "char" if index in CHARACTERS else "bool" if index in BOOLEANS else "int"
        name = types.definitions.text_of(index)
        base[name] = {"kind": kind if size else "void", "size": size, "signed": index in SIGNED, "endian": "little"}
        return {"kind": "base", "name": name}
    if isinstance(it, (UserDefinedType, Procedure, MemberFunction)):
        return {"kind": NAMED[type(it)], "name": key_of(it)} if type(it) in NAMED else {"kind": "function"}
    if it.type_index >= index:
        raise ValueError(f"the type {index:#x} is made of a later one")
    inner = reference(types, base, it.type_index)
    if isinstance(it, Array):
        return {"kind": "array", "count": size // (types.definitions.size_of(it.type_index) or 1), "subtype": inner}
    if isinstance(it, Bitfield):
        return {"kind": "bitfield", "bit_position": it.position, "bit_length": it.length, "type": inner}
    return {"kind": "pointer", "subtype": inner} if isinstance(it, Pointer) else inner


with pdb_container.open(sys.argv[1]) as pdb:
    types, users, enums, size = pdb.types, {}, {}, 8 if pdb.identity.machine in (0x8664, 0xAA64) else 4
    base = {"pointer": {"kind": "int", "size": size, "signed": False, "endian": "little"}}
    for it in types:
        if isinstance(it, Enum) and it.is_definition:
            size, of = types.definitions.size_of(it.index), reference(types, base, it.underlying_type_index)["name"]
            enums[key_of(it)] = {"size": size, "base": of, "constants": {one.name: one.value for one in it.fields}}
        elif isinstance(it, (Class, Union)) and it.definition in (it, None):
            members = [one for one in it.fields if isinstance(one, Member)]
            fields = {one.name: {"offset": one.offset, "type": reference(types, base, one.type_index)} for one in members}
            users[key_of(it)] = {"kind": NAMED[type(it)], "size": it.size, "fields": fields}
    metadata = {"format": "6.2.0", "producer": {"name": "pdb_container", "version": pdb_container.__version__}}
    symbols = {name: {"address": address} for address, name in publics(pdb) if address is not None}
    made = {"metadata": metadata, "base_types": base, "user_types": users, "enums": enums, "symbols": symbols}
json.dump(made, sys.stdout, indent=1)
