"""What identifies a program database."""

import uuid
from ctypes import byref, c_char, c_size_t, c_uint8
from dataclasses import dataclass
from typing import FrozenSet, Optional

from . import _sys
from ._library import Buffer, Lent, Opened, library, unsigned
from ._sys import Feature, Format, IdentityFlag, KeyForm


@dataclass(frozen=True)
class Identity:
    """What identifies a file. The last three are None if it has no debug information, as that of a type server."""

    version: int  # of the format, such as 20000404 for version 7
    signature: int  # the time at which the file was made, in seconds since 1970, or a hash in its place
    information_age: int  # the age in stream 1: how often the file was written
    guid: uuid.UUID
    features: Optional[FrozenSet[Feature]]  # of the file; None if stream 1 ends among the names of streams
    debug_age: Optional[int]  # the age of the debug information
    machine: Optional[int]  # as the header of an image numbers it, such as 0x8664 for x86-64
    flags: Optional[IdentityFlag]  # what the debug information says of the file

    @property
    def age(self) -> int:
        """The age in the key: that of the debug information, or that of stream 1 if there is none."""
        return self.information_age if self.debug_age is None else self.debug_age

    def key(self, form: KeyForm = KeyForm.UPPER) -> str:
        """The key under which a symbol server stores the file."""
        about, buffer = _sys.Identity(age=unsigned(self.age), guid=(c_uint8 * 16)(*self.guid.bytes_le)), (c_char * 64)()
        library().pdb_key(byref(about), KeyForm(form), buffer, len(buffer), byref(c_size_t()))
        return buffer.value.decode()


def identity_of(file: Opened) -> Identity:
    """What identifies a file."""
    it = file.written(_sys.Identity, library().pdb_file_identity)
    debug = (it.debug_age, it.machine, IdentityFlag(it.flags)) if it.has_debug_header else (None, None, None)
    features = frozenset(feature for feature in Feature if it.features & feature) if it.has_features else None
    return Identity(it.version, it.signature, it.information_age, uuid.UUID(bytes_le=bytes(it.guid)), features, *debug)


def format_of(data: Buffer) -> Format:
    """What a file is that begins with these bytes. The first 42 bytes decide."""
    lent = Lent(data)
    with lent as place:
        lent.release()
        return Format(library().pdb_format_of(*place))
