"""The tables of types and of ids."""

from contextlib import suppress
from ctypes import byref, c_size_t, c_uint32
from typing import Callable, Dict, Generic, Iterator, List, Optional, SupportsIndex, TypeVar, Union, overload

from . import _ids, _sys, _types
from ._ids import Id
from ._layouts import Definitions, Layout
from ._library import NONE, OK, Keyed, Opened, PdbError, library, unsigned
from ._rows import FIELD, FIELD_NAME, NO_SHAPE, TYPE, Record, raw_of
from ._sys import Fault, Status, StreamNumber
from ._types import FIELDS, FIRST_RECORD, Field, Method, Type, UserDefinedType

TYPES, IDS = int(StreamNumber.TYPES), int(StreamNumber.IDS)  # the streams of both tables
BATCH = 512  # the records that a walk takes from the library at a time
_R = TypeVar("_R", bound=Record)


class _Table(Keyed, Generic[_R]):
    """A table of records, which stays open when its file is closed."""

    _classes: "Dict[int, type[_R]]"  # the class of each shape
    _least: int  # the least index of a record; those of types below it have none
    __reversed__ = None  # indexes do not count from 0, as those of a sequence do

    def __init__(self, file: Opened, number: int):
        self.number, self._opened = number, file.open(library().pdb_types_open, number, stream=number)
        counted = self._opened.written(_sys.IndexRange, library().pdb_types_range)
        self.first_index: int = counted.first
        self._count: int = counted.end - counted.first
        # How many records the library's walk has read. It is the walk of the iterator that was the last to go on.
        self._at: Optional[int] = 0

    def _batches(self) -> Iterator[memoryview]:
        """The records in their order, some at a time, as the library writes them. An error of the table itself is raised."""
        opened, read = self._opened, library().pdb_types_read
        at, status, rows, count = 0, OK, (_sys.Type * BATCH)(), c_size_t()
        while status == OK:
            with opened.lock:
                if self._at != at:
                    # Another walk has gone on since. The further this one is, the more it reads at once.
                    opened.ask(library().pdb_types_rewind)
                    for start in range(0, at, BATCH):
                        read(opened.handle, rows, min(BATCH, at - start), byref(count))
                    rows = (_sys.Type * max(BATCH, at // 4))()
                self._at = None  # until it is known
                status = read(opened.handle, rows, len(rows), byref(count))
                self._at = at = at + count.value
                error = None if status in (OK, Status.END) else opened.error()
            yield memoryview(rows).cast("B")[: count.value * TYPE.size]
        if error:
            raise error

    def __iter__(self) -> Iterator[_R]:
        """Each record, from the first on. One that can't be read has an `error`. An error of the table itself is raised."""
        classes = self._classes
        for batch in self._batches():
            for raw in TYPE.iter_unpack(batch):
                yield classes[NO_SHAPE if raw[3] else raw[6]](self, raw)

    def _indexed(self, index: SupportsIndex) -> _R:
        """The record of an index. KeyError if there is none."""
        number = unsigned(index)
        found = self._find(number)
        status = found.fault.status
        if status == NONE and number >= self._least:
            raise KeyError(index)
        try:
            if status not in (OK, NONE):
                raise PdbError(found.fault, self.number)
            return self._parse(number, found.position)
        except PdbError as error:
            if error.status == Status.TYPE_NOT_FOUND:
                raise KeyError(index) from None
            raise

    def _find(self, index: int) -> _sys.FoundRecord:
        """Where the record of an index is, or why it isn't found."""
        opened, wanted, found, count = self._opened, c_uint32(index), _sys.FoundRecord(), c_size_t()
        with opened.lock:
            library().pdb_types_find(opened.handle, byref(wanted), 1, byref(found), 1, byref(count))
        return found

    def _parse(self, index: int, place: _sys.Record) -> _R:
        """What the record of an index says, which is at a place."""
        opened, row, offset = self._opened, _sys.Row(), place.offset
        with opened.lock:
            if library().pdb_type_parse(opened.handle, index, byref(row)) != OK:
                raise opened.error(offset=offset)
        return self._classes[row.shape](self, (index, offset, place.length, 0, 0, 0, *raw_of(row)))


class Types(_Table[Type]):
    """A table of types: by an index or by the name of a class, a union or an enumeration, or one after another."""

    _classes, _least = _types.CLASSES, FIRST_RECORD

    def __init__(self, file: Opened):
        super().__init__(file, TYPES)
        self._definitions: Optional[Definitions] = None

    def __len__(self) -> int:
        """The number of indexes that the header counts. A damaged table may have fewer types, or more."""
        return self._count

    @overload
    def __getitem__(self, key: str) -> UserDefinedType: ...

    @overload
    def __getitem__(self, key: int) -> Type: ...

    def __getitem__(self, key: Union[int, str]) -> Type:
        """The type of an index, or the definition of the first class, union or enumeration of a name. KeyError if there
        is none."""
        return self._indexed(self._first_named(key) if isinstance(key, str) else key)

    def get(self, key: Union[int, str], default: Optional[Type] = None) -> Optional[Type]:
        """The type that `types[key]` is, or the default if there is none."""
        try:
            return self[key]
        except KeyError:
            return default

    def fields(self, list_index: int, underlying_type: Optional[int] = None) -> List[Field]:
        """The fields of the list of an index, and of the lists in which it continues. If the type under an enumeration is
        given, the values are numbers of it; or else they have the signs that their records have, where -128 may be
        128. KeyError if there is no such index."""
        number = unsigned(list_index)
        try:
            found = self._opened.named_items(_sys.Field, library().pdb_type_fields, number, 1)
        except PdbError:
            if number not in self:
                raise KeyError(list_index) from None
            raise
        if found is None:
            return []
        rows, count, names = found
        if underlying_type is not None:
            number = unsigned(underlying_type)
            for row in rows[:count]:
                library().pdb_enumerator_typed(byref(row.info), number)
        data = memoryview(rows).cast("B")[: count * FIELD.size]
        return [
            FIELDS[raw[0]](self, raw, str(names[at : at + length], "utf-8", "replace") if has_name else None)
            for raw, (at, length, has_name) in zip(FIELD.iter_unpack(data), FIELD_NAME.iter_unpack(data))
        ]

    def methods(self, list_index: int) -> List[Method]:
        """The methods of the list of an index. KeyError if there is no such index."""
        found = self._indexed(list_index)
        rows = self._opened.items(_sys.Row, library().pdb_type_methods, found.index, offset=found._raw[1])
        if rows is None:
            fault = Fault(Status.UNIMPLEMENTED_TYPE_KIND, int.from_bytes(found.record[:2], "little"))
            raise PdbError(fault, self.number, found._raw[1])
        return [Method(self, raw_of(row), None) for row in rows]

    @property
    def definitions(self) -> Definitions:
        """The definitions of the table, which are found once, and the sizes, layouts and texts of its types."""
        if self._definitions is None:
            self._definitions = Definitions(self._opened)
        return self._definitions

    def layout(self, key: Union[int, str]) -> Layout:
        """The layout of the type of an index, or of the first class, structure, interface or union of a name. KeyError
        if there is none."""
        indexes = self.definitions.named(key) if isinstance(key, str) else [self[key].index]
        layout = next(filter(None, map(self.definitions.layout_of, indexes)), None)
        if layout is None:
            raise KeyError(key)
        return layout

    def _first_named(self, name: str) -> int:
        indexes = self.definitions.named(name)
        if not indexes:
            raise KeyError(name)
        return indexes[0]


class Ids(_Table[Id]):
    """A table of ids: by an index, or one after another."""

    _classes, _least = _ids.CLASSES, 0

    def __init__(self, file: Opened, types: Callable[[], Types]):
        super().__init__(file, IDS)
        self._types = types
        self._length: Optional[int] = None

    def __len__(self) -> int:
        """How many ids the table has, up to its end or to where it is damaged."""
        if self._length is None:
            length = 0
            with suppress(PdbError):
                for batch in self._batches():
                    length += len(batch) // TYPE.size
            self._length = length
        return self._length

    @property
    def types(self) -> Types:
        """The types to which the ids refer."""
        return self._types()

    def __getitem__(self, index: int) -> Id:
        """The id of an index. KeyError if there is none."""
        return self._indexed(index)
