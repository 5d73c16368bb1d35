"""A program database, and the parts of it that are no tables of records."""

import builtins
import mmap
import operator
import os
import uuid
from ctypes import c_uint32
from dataclasses import dataclass, field, fields
from typing import Any, Callable, Dict, Generic, Iterator, List, Optional, Sequence, Tuple, TypeVar, Union, overload

from . import _sys
from ._identity import Identity, identity_of
from ._library import Buffer, Keyed, Lent, Opened, PdbError, library, unsigned, utf8
from ._sys import AddressForm, FrameKind, SectionCharacteristics, Status, StreamNumber
from ._tables import Ids, Types

_T = TypeVar("_T")


@dataclass(frozen=True)
class Information:
    """The numbers that identify a file."""

    version: int  # of the format, such as 20000404 for version 7
    signature: int  # the time at which the file was made, in seconds since 1970, or a hash in its place
    age: int  # how often the file was written
    guid: uuid.UUID


@dataclass(frozen=True)
class Roles:
    """The numbers of the streams in eleven roles, each None if the file has no such stream."""

    fpo: Optional[int]
    exception: Optional[int]
    fixup: Optional[int]
    omap_to_src: Optional[int]
    omap_from_src: Optional[int]
    section_headers: Optional[int]
    token_rid_map: Optional[int]
    xdata: Optional[int]
    pdata: Optional[int]
    framedata: Optional[int]
    original_section_headers: Optional[int]


@dataclass(frozen=True)
class Section:
    """The header of a section."""

    name: str
    virtual_size: int
    virtual_address: int
    size_of_raw_data: int
    pointer_to_raw_data: int
    pointer_to_relocations: int
    pointer_to_line_numbers: int
    number_of_relocations: int
    number_of_line_numbers: int
    characteristics: SectionCharacteristics

    @property
    def alignment(self) -> Optional[int]:
        """The alignment of its start in bytes, None if the characteristics give none."""
        exponent = (self.characteristics & SectionCharacteristics.ALIGN_MASK) >> 20  # plus one
        if self.characteristics & SectionCharacteristics.TYPE_NO_PAD:
            return None if exponent else 1
        return 1 << exponent - 1 if 0 < exponent < 15 else None


@dataclass(frozen=True)
class Frame:
    """What a stack walker needs to know about the frame of a piece of code. What there is not is None."""

    kind: FrameKind
    code_start: int  # the address of the first byte of the code, in the original image
    code_size: int
    locals_size: int
    params_size: int
    prolog_size: int
    saved_regs_size: int
    max_stack_size: Optional[int]
    has_structured_eh: bool
    has_cpp_eh: bool
    is_function_start: bool
    uses_base_pointer: bool
    program: Optional[int]  # the offset of the frame's program in the string table


class Names(Keyed):
    """A string table: the name at an offset, or each offset and name, in their order."""

    def __init__(self, file: Opened):
        self._table = file.open(library().pdb_names_open)

    def __getitem__(self, offset: int) -> str:
        """The name at an offset. KeyError if no name is there."""
        return str(self._bytes(offset), "utf-8", "replace")

    def _bytes(self, offset: int) -> bytes:
        try:
            return self._table.copied(library().pdb_names_get, unsigned(offset)) or b""
        except PdbError as error:
            if error.status == Status.UNEXPECTED_EOF:
                raise KeyError(offset) from None
            raise

    def __iter__(self) -> Iterator[Tuple[int, str]]:
        offset, past = 0, 1 << 32
        while offset < past:
            try:
                name = self._bytes(offset)
            except KeyError:
                return
            yield offset, str(name, "utf-8", "replace")
            offset += len(name) + 1  # the NUL


class _Ranges:
    """A table that moves the addresses of a range."""

    _table: Opened

    def _ranges(self, addresses: range, call: Any, *words: int) -> List[range]:
        if addresses.step != 1:
            raise ValueError("the addresses of a range follow one another")
        start, end = unsigned(addresses.start), unsigned(addresses.stop)
        return [range(it.start, it.end) for it in self._table.items(_sys.Span, call, *words, start, end) or ()]


class Omap(_Ranges):
    """A table of moved addresses."""

    def __init__(self, file: Opened, number: int):
        number = unsigned(number)
        self._table = file.open(library().pdb_omap_open, number, stream=number)

    def lookup(self, address: int) -> Optional[int]:
        """The address to which the table moves an address, or None if it moves it nowhere."""
        target = self._table.value(c_uint32, library().pdb_omap_lookup, unsigned(address))
        return None if target is None else target.value

    @property
    def records(self) -> List[Tuple[int, int]]:
        """The first address that each record moves, and where it moves that one, 0 if nowhere, in their order."""
        return [(it.source, it.target) for it in self._table.items(_sys.OmapRecord, library().pdb_omap_records) or ()]

    @property
    def is_sorted(self) -> bool:
        """Whether no record has a source below that of the record before it."""
        return bool(self._table.written(c_uint32, library().pdb_omap_is_sorted).value)

    def ranges(self, addresses: range) -> List[range]:
        """The ranges to which the table moves the addresses of a range: one for each record that moves some."""
        return self._ranges(addresses, library().pdb_omap_ranges)


Place = Tuple[int, int]  # a section, counted from 1, and an offset in it


@dataclass(frozen=True)
class Translation:
    """An address or a place in its four forms. A form that doesn't exist is None.

    An RVA is an address in the image as it is loaded, and an internal RVA is one in the original image, which the parts
    of a program database refer to.
    """

    rva: Optional[int]
    place: Optional[Place]
    internal_rva: Optional[int]
    internal_place: Optional[Place]


class AddressMap(_Ranges):
    """The address map of a file: its sections, and the OMAP tables of a tool that rearranged the image."""

    def __init__(self, file: Opened):
        self._table = file.open(library().pdb_address_map_open)

    def _translate(self, form: AddressForm, section: int, offset: int) -> Translation:
        numbers = unsigned(section, 16), unsigned(offset)
        it = self._table.written(_sys.Translation, library().pdb_translate, form, *numbers)
        return Translation(
            it.rva if it.has_rva else None,
            (it.section_offset.section, it.section_offset.offset) if it.has_section_offset else None,
            it.internal_rva if it.has_internal_rva else None,
            (it.internal_section_offset.section, it.internal_section_offset.offset) if it.has_internal_section_offset else None,
        )

    def rva(self, address: int) -> Translation:
        """The forms of an address in the image as it is loaded."""
        return self._translate(AddressForm.RVA, 0, address)

    def place(self, section: int, offset: int) -> Translation:
        """The forms of a place in a section of the image as it is loaded."""
        return self._translate(AddressForm.SECTION_OFFSET, section, offset)

    def internal_rva(self, address: int) -> Translation:
        """The forms of an address in the original image."""
        return self._translate(AddressForm.INTERNAL_RVA, 0, address)

    def internal_place(self, section: int, offset: int) -> Translation:
        """The forms of a place in a section of the original image."""
        return self._translate(AddressForm.INTERNAL_SECTION_OFFSET, section, offset)

    def rva_ranges(self, addresses: range) -> List[range]:
        """Where the addresses of a range of the original image lie in the image as it is loaded."""
        return self._ranges(addresses, library().pdb_address_ranges, AddressForm.INTERNAL_RVA)

    def internal_rva_ranges(self, addresses: range) -> List[range]:
        """Where the addresses of a range of the image as it is loaded lie in the original image."""
        return self._ranges(addresses, library().pdb_address_ranges, AddressForm.RVA)


class Frames:
    """The frame table of a file, of both formats."""

    def __init__(self, file: Opened):
        self._table = file.open(library().pdb_frames_open)

    def at(self, address: int) -> Optional[Frame]:
        """The frame whose code has an address of the original image, or else the first frame above it."""
        it = self._table.value(_sys.Frame, library().pdb_frames_at, unsigned(address))
        return None if it is None else _frame(it)

    def __iter__(self) -> Iterator[Frame]:
        """All frames, ordered by their starts."""
        return map(_frame, self._table.items(_sys.Frame, library().pdb_frames_list) or ())


def _frame(it: _sys.Frame) -> Frame:
    return Frame(
        kind=FrameKind(it.kind),
        code_start=it.code_start,
        code_size=it.code_size,
        locals_size=it.locals_size,
        params_size=it.params_size,
        prolog_size=it.prolog_size,
        saved_regs_size=it.saved_regs_size,
        max_stack_size=it.max_stack_size if it.has_max_stack_size else None,
        has_structured_eh=bool(it.has_structured_eh),
        has_cpp_eh=bool(it.has_cpp_eh),
        is_function_start=bool(it.is_function_start),
        uses_base_pointer=bool(it.uses_base_pointer),
        program=it.program if it.has_program else None,
    )


@dataclass(frozen=True)
class Stream:
    """A stream of a file."""

    _pdb: "Pdb" = field(repr=False)
    number: int
    size: Optional[int]  # in bytes, as the directory gives it; None for one that is absent

    def read(self, limit: Optional[int] = None) -> memoryview:
        """Its bytes, at most `limit` of them."""
        return self._pdb.stream(self.number, limit)

    @property
    def name(self) -> Optional[str]:
        """The first of its names."""
        return next((name for name, number in self._pdb.named_streams.items() if number == self.number), None)

    @property
    def role(self) -> Optional[str]:
        """The name of its role in `Roles`."""
        roles = self._pdb.roles
        return next((it.name for it in fields(roles) if getattr(roles, it.name) == self.number), None)


class Streams(Sequence[Stream]):
    """The streams of a file, by their numbers."""

    def __init__(self, pdb: "Pdb", count: int):
        self._pdb, self._count = pdb, count

    def __len__(self) -> int:
        return self._count

    @overload
    def __getitem__(self, number: int) -> Stream: ...

    @overload
    def __getitem__(self, number: slice) -> List[Stream]: ...

    def __getitem__(self, number: Union[int, slice]) -> Union[Stream, List[Stream]]:
        """The stream of a number, or those of a slice. A number below 0 counts from the last one."""
        if isinstance(number, slice):
            return [self[at] for at in range(*number.indices(self._count))]
        number = operator.index(number)
        if number < 0:
            number += self._count
        if not 0 <= number < self._count:
            raise IndexError("the file has no stream of this number")
        return Stream(self._pdb, number, self._pdb._source.size(number))


class _Kept(Generic[_T]):
    """A part of a file that is read when it is first asked for, and kept until the file is closed."""

    def __init__(self, func: Callable[[Any], _T]):
        self.func, self.__doc__ = func, func.__doc__

    @overload
    def __get__(self, it: None, owner: object) -> "_Kept[_T]": ...

    @overload
    def __get__(self, it: object, owner: object) -> _T: ...

    def __get__(self, it: Any, owner: object) -> "Union[_T, _Kept[_T]]":
        if it is None:
            return self
        with it._lent:  # which a closed file has no more
            kept: Dict[Any, _T] = it._kept
            # Threads that ask together may each read it; the first one's is kept, whole.
            return kept[self] if self in kept else kept.setdefault(self, self.func(it))


class _Source(Opened):
    """The bytes of a file, and its directory."""

    def __init__(self, data: Buffer):
        super().__init__(kind=_sys.File)
        self._lent = Lent(data)
        self._kept: Dict[Any, Any] = {}
        try:
            with self._lent as place:
                self.begin(library().pdb_file_open, *place)
        except BaseException:
            self._lent.release()
            raise
        self.sizes = self.written(_sys.Sizes, library().pdb_file_sizes)

    def open(self, call: Any, *words: Any, stream: Optional[int] = None) -> Opened:
        """What a call opens from it. ValueError if it is closed."""
        with self._lent:
            return super().open(call, *words, stream=stream)

    def ask(self, call: Any, *words: Any, stream: Optional[int] = None, offset: Optional[int] = None) -> int:
        """The status of a call. ValueError if it is closed."""
        with self._lent:
            return super().ask(call, *words, stream=stream, offset=offset)

    def close(self) -> None:
        """Gives the bytes back, and forgets the types."""
        self._lent.release()
        super().close()
        self._kept = {}

    def size(self, number: int) -> Optional[int]:
        """The size of a stream, None if it is absent."""
        try:
            size: int = self.written(c_uint32, library().pdb_file_stream_size, unsigned(number)).value
            return size
        except PdbError as error:
            if error.status != Status.STREAM_NOT_FOUND:
                raise
            return None

    @_Kept
    def types(self) -> Types:
        """The table of types."""
        return Types(self)


class Pdb:
    """A program database over the bytes of any object that has a buffer, which are not copied."""

    def __init__(self, data: Buffer):
        self._source = _Source(data)
        self._lent = self._source._lent
        self._kept: Dict[Any, Any] = {}

    @property
    def page_size(self) -> int:
        """The size of its pages in bytes."""
        return int(self._source.sizes.page_size)

    @property
    def streams(self) -> "Streams":
        """The streams, by their numbers."""
        return Streams(self, self._source.sizes.stream_count)

    def __enter__(self) -> "Pdb":
        return self

    def __exit__(self, *_: object) -> None:
        self.close()

    def close(self) -> None:
        """Gives the bytes back to whom they belong, and forgets the tables. A table that the caller still has stays as it
        is. Closing again does nothing."""
        self._source.close()
        self._kept = {}

    def stream(self, number: int, limit: Optional[int] = None) -> memoryview:
        """The bytes of a stream, at most `limit` of them."""
        number, most = unsigned(number), 2**64 - 1 if limit is None else unsigned(limit, 64)
        return self._source.read(library().pdb_file_stream, number, most, stream=number)

    def named_stream(self, name: Union[str, bytes]) -> memoryview:
        """The bytes of the first stream with this name, such as `/names`."""
        word = utf8(name) if isinstance(name, str) else bytes(memoryview(name))
        return self._source.read(library().pdb_file_named_stream, word, len(word))

    @_Kept
    def information(self) -> Information:
        """The numbers in stream 1, which identify the file."""
        it = self.identity
        return Information(it.version, it.signature, it.information_age, it.guid)

    @_Kept
    def identity(self) -> Identity:
        """What identifies the file, and its key."""
        return identity_of(self._source)

    @_Kept
    def named_streams(self) -> Dict[str, Optional[int]]:
        """The number of the first stream of each name, None if the file gives none, in the file's order."""
        rows, count, names = self._source.named_items(_sys.NamedStream, library().pdb_file_stream_names) or ((), 0, b"")
        streams: Dict[str, Optional[int]] = {}
        for row in rows[:count]:
            name = names[row.name_offset : row.name_offset + row.name_length].decode(errors="replace")
            streams.setdefault(name, None if row.number == StreamNumber.NO_STREAM else row.number)
        return streams

    @_Kept
    def roles(self) -> Roles:
        """The numbers of the streams in eleven roles."""
        it = self._source.written(_sys.Roles, library().pdb_file_roles)
        numbers = {field.name: getattr(it, field.name) for field in fields(Roles)}
        return Roles(**{name: None if number == StreamNumber.NO_STREAM else number for name, number in numbers.items()})

    @property
    def types(self) -> Types:
        """The table of types, which is stream 2."""
        return self._source.types

    @_Kept
    def ids(self) -> Ids:
        """The table of ids, which is stream 4."""
        source = self._source
        return Ids(source, lambda: source.types)

    @_Kept
    def names(self) -> Names:
        """The string table, which is the stream `/names`."""
        return Names(self._source)

    @property
    def sections(self) -> List[Section]:
        """The headers of the sections of the image, none if the file has no such stream."""
        return self._sections("section_headers")

    @property
    def original_sections(self) -> List[Section]:
        """The headers of the sections that the image had before a tool rearranged it."""
        return self._sections("original_section_headers")

    def _sections(self, role: str) -> List[Section]:
        number = getattr(self.roles, role)
        if number is None:
            return []
        sections = []
        for it in self._source.items(_sys.Section, library().pdb_file_sections, number, stream=number) or ():
            numbers: Dict[str, Any] = {field.name: getattr(it, field.name) for field in fields(Section)}
            numbers["name"] = bytes(it.name).split(b"\0")[0].decode(errors="replace")
            numbers["characteristics"] = SectionCharacteristics(it.characteristics)
            sections.append(Section(**numbers))
        return sections

    @property
    def omap_to_src(self) -> Optional[Omap]:
        """The table by which addresses of the image as it is loaded go to the original image."""
        number = self.roles.omap_to_src
        return None if number is None else Omap(self._source, number)

    @property
    def omap_from_src(self) -> Optional[Omap]:
        """The table by which addresses of the original image go to the image as it is loaded."""
        number = self.roles.omap_from_src
        return None if number is None else Omap(self._source, number)

    @_Kept
    def address_map(self) -> AddressMap:
        """The sections, and the OMAP tables of a tool that rearranged the image."""
        return AddressMap(self._source)

    @_Kept
    def frames(self) -> Frames:
        """The frame table."""
        return Frames(self._source)


def open(path: "Union[str, bytes, os.PathLike[str], os.PathLike[bytes]]") -> Pdb:
    """Opens a file, which is mapped and not read. It must not be shortened before it is closed."""
    with builtins.open(path, "rb") as file:
        # Only what has a size can be mapped: no empty file, and no pipe.
        size = os.fstat(file.fileno()).st_size
        data = mmap.mmap(file.fileno(), 0, access=mmap.ACCESS_READ) if size else file.read()
    try:
        return Pdb(data)
    except BaseException:
        if isinstance(data, mmap.mmap):
            data.close()
        raise
