"""Streams that have a role, whose numbers the debug header in stream 3 lists."""

import struct

from pdbtest.addresses import OMAP, omap_bytes
from pdbtest.msf import DEBUG, EOF, Refused, with_stream, word, words_of
from pdbtest.report import Trouble

NO_STREAM = 0xFFFF

# The roles in the order of the debug header, and how llvm-pdbutil tells of each.
ROLES = {
    "fpo": "FPO Data",
    "exception": "Exception Data",
    "fixup": "Fixup Data",
    "omap_to_src": "Omap To Source Data",
    "omap_from_src": "Omap From Source Data",
    "section_headers": "Section Header Data",
    "token_rid_map": "Token Rid Data",
    "xdata": "Xdata",
    "pdata": "Pdata",
    "framedata": "New FPO Data",
    "original_section_headers": "Section Header Original Data",
}

# The roles that the header of stream 3 and those of the tables give, and how llvm-pdbutil tells of each.
HEADER_ROLES = {
    "globals": "Global Symbol Hash",
    "publics": "Public Symbol Hash",
    "symbol_records": "Symbol Records",
    "type_hashes": "TPI Hash",
    "id_hashes": "IPI Hash",
}

OLD_SECTIONS = b".old".ljust(8, b"\0") + words_of([0x123, 0x1000, 0x200, 0x400, 0, 0, 0, 0x60000020])


def role_list(debug):
    """Where stream 3 lists the numbers of the streams in their roles, and in how many bytes."""
    sizes = struct.unpack_from("<5I", debug, 24)
    size, names_size = struct.unpack_from("<2I", debug, 48)
    return 64 + sum(sizes) + names_size, size


def role_numbers(debug):
    """The number of each stream that has a role, by stream 3."""
    if not debug:
        return {}
    if word(debug, 0) != 0xFFFFFFFF:
        raise Refused("ancient DBI header")
    if len(debug) < 64:
        raise Refused(EOF)
    place, size = role_list(debug)
    if place + size > len(debug) or size < 2 * len(ROLES) and size % 2:
        raise Refused(EOF)
    numbers = struct.unpack_from(f"<{min(size // 2, len(ROLES))}H", debug, place)
    return {role: number for role, number in zip(ROLES, numbers) if number != NO_STREAM}


def with_roles(streams, added):
    """These streams, and others to which stream 3 gives roles."""
    debug = bytearray(streams[DEBUG])
    place, size = role_list(debug)
    if size < 2 * len(ROLES):
        raise Trouble("LLD wrote a debug header that lists fewer roles than are known here")
    for number, role in enumerate(added, len(streams)):
        struct.pack_into("<H", debug, place + 2 * list(ROLES).index(role), number)
    return [*with_stream(streams, DEBUG, bytes(debug)), *added.values()]


def with_more_roles(streams):
    """These streams and four more, in the roles that LLD leaves free."""
    omap = omap_bytes(OMAP)
    frames = words_of([0x1000, 15, 0, 0x40000])
    added = {"omap_to_src": omap, "omap_from_src": omap[::-1], "original_section_headers": OLD_SECTIONS, "fpo": frames}
    return with_roles(streams, added)
