"""Finds the shared library, and calls it."""

import ctypes
import operator
import os
import sys
import sysconfig
import threading
from ctypes import byref, c_char, c_size_t, c_ssize_t, c_uint8, c_void_p, pythonapi
from itertools import islice
from pathlib import Path
from types import SimpleNamespace
from typing import Any, Iterator, Optional, SupportsIndex, Tuple, Type, TypeVar

from . import _sys
from ._sys import VERSION, Fault, Handle, Status

NAME = "pdb_container.dll" if sys.platform == "win32" else "libpdb_container.so.0"
# Where dist has the library of each platform.
BUILT = {
    "linux-x86_64": "x86_64-linux/lib/libpdb_container.so.0",
    "linux-aarch64": "aarch64-linux/lib/libpdb_container.so.0",
    "win-amd64": "x86_64-windows/bin/pdb_container.dll",
}
# Statuses as plain numbers, and those of calls that found nothing wrong.
OK, TOO_SMALL, NONE = int(Status.OK), int(Status.TOO_SMALL), int(Status.NONE)
_FINE = OK, TOO_SMALL, NONE, int(Status.UNMAPPED)
# The items and the bytes for which there is room without asking for their number.
_USUAL, _USUAL_TEXT = 16, 256
_TEXT = c_char * _USUAL_TEXT

T = TypeVar("T", bound="ctypes._CData")
# Any object that has a buffer, such as bytes or a mapped file.
Buffer = Any


class LibraryError(ImportError):
    """The shared library is missing or of another version."""


def unsigned(number: SupportsIndex, bits: int = 32) -> int:
    """A whole number that an unsigned number of so many bits can hold. Any other is an OverflowError, since the library
    would get its low bits alone."""
    whole = operator.index(number)
    if not 0 <= whole < 1 << bits:
        raise OverflowError(f"{whole} is not from 0 to {(1 << bits) - 1:#x}")
    return whole


def utf8(name: str) -> bytes:
    """The bytes of a name that is looked for. A surrogate has those that no text in UTF-8 has, so that it isn't found."""
    return str.encode(name, errors="surrogatepass")


def _restored(fault: bytes, stream: Optional[int], offset: Optional[int]) -> "PdbError":
    return PdbError(Fault.from_buffer_copy(fault), stream, offset)


class PdbError(ValueError):
    """Why a file, or a part of it, can't be read.

    `status` says which error it is, and `first` and `second` are its numbers. `stream` is the number of the stream
    that has the fault, and `offset` the place there of the record that has it, each None where it is not known.
    """

    def __init__(self, fault: Fault, stream: Optional[int] = None, offset: Optional[int] = None):
        self._fault = bytes(fault)
        self.status = Status(fault.status)
        self.first: int = fault.first
        self.second: int = fault.second
        self.stream = stream
        self.offset = offset
        super().__init__(self._text(fault))

    def _text(self, fault: Fault) -> str:
        buffer = _TEXT()
        library().pdb_fault_text(byref(fault), buffer, _USUAL_TEXT, byref(c_size_t()))
        text: str = buffer.value.decode(errors="replace")
        if self.stream is None:
            return text
        where = f"stream {self.stream}" if self.offset is None else f"stream {self.stream} byte {self.offset:#x}"
        return f"{text} [{where}]"

    def __reduce__(self) -> Tuple[Any, ...]:
        return _restored, (self._fault, self.stream, self.offset)


class Keyed:
    """What has something under each of its keys."""

    def __contains__(self, key: object) -> bool:
        """Whether something is under a key, also a record that can't be read. What can't be a key is none."""
        try:
            self[key]  # type: ignore[index]
        except (KeyError, OverflowError, TypeError):
            return False
        except PdbError as error:
            if error.offset is None:  # no record, but the table
                raise
        return True


def _place() -> str:
    """Where the library may be: the one that is chosen, or that beside the package, or that of dist, or the system's."""
    chosen = os.environ.get("PDB_CONTAINER")
    if chosen:
        return chosen
    here, built = Path(__file__).resolve().parent, BUILT.get(sysconfig.get_platform(), NAME)
    beside = [here / NAME, here.parent / "dist" / built, here.parent.parent / "dist" / built]
    return next((str(path) for path in beside if path.is_file()), NAME)


def _load() -> SimpleNamespace:
    path = _place()
    try:
        # Its calls keep the interpreter's lock, so no two run at once.
        loaded = ctypes.PyDLL(path)
    except OSError as error:
        raise LibraryError(f"the shared library can't be loaded, which PDB_CONTAINER may name: {error}") from None
    version: int = loaded.pdb_version() if hasattr(loaded, "pdb_version") else 0
    # The last two digits are of versions with the same calls.
    if version // 100 != VERSION // 100 or not all(hasattr(loaded, name) for name in _sys.FUNCTIONS):
        raise LibraryError(f"{path} is not {NAME} of version {VERSION // 10_000}.{VERSION // 100 % 100}")
    calls = SimpleNamespace()
    for name, (result, parameters) in _sys.FUNCTIONS.items():
        function = getattr(loaded, name)
        function.restype, function.argtypes = result, parameters
        setattr(calls, name, function)
    return calls


_loaded: Optional[SimpleNamespace] = None


def library() -> SimpleNamespace:
    """The calls of the shared library, which is loaded where it is first needed."""
    global _loaded
    if _loaded is None:
        _loaded = _load()
    return _loaded


class Opened:
    """What the library keeps open. A lock gives it to one call at a time, of any thread, until the fault of that call is read."""

    def __init__(self, stream: Optional[int] = None, kind: Type[Any] = Handle):
        self._handle = Handle.from_buffer(kind())  # with which each kind begins
        self.handle, self.lock, self.stream = byref(self._handle), threading.RLock(), stream

    def begin(self, call: Any, *words: Any) -> None:
        """Opens it by a call."""
        if call(*words, self.handle) != OK:
            raise self.error()

    def open(self, call: Any, *words: Any, stream: Optional[int] = None) -> "Opened":
        """What a call opens from it."""
        opened = Opened(stream)
        with self.lock:
            opened.begin(call, self.handle, *words)
        return opened

    def close(self) -> None:
        """Frees what it holds. Closing again does nothing."""
        if self._handle.held:
            with self.lock:
                library().pdb_handle_close(self.handle)

    __del__ = close

    def error(self, stream: Optional[int] = None, offset: Optional[int] = None) -> PdbError:
        """The fault of the last call."""
        return PdbError(self._handle.fault, self.stream if stream is None else stream, offset)

    def ask(self, call: Any, *words: Any, stream: Optional[int] = None, offset: Optional[int] = None) -> int:
        """The status of a call, which is no error: there is an answer, or none, or too little room for it."""
        with self.lock:
            status: int = call(self.handle, *words)
            if status not in _FINE:
                raise self.error(stream, offset)
        return status

    def value(self, kind: Type[T], call: Any, *words: Any, offset: Optional[int] = None) -> Optional[T]:
        """What a call writes, or None where there is no answer."""
        answer = kind()
        return answer if self.ask(call, *words, byref(answer), offset=offset) == OK else None

    def written(self, kind: Type[T], call: Any, *words: Any, offset: Optional[int] = None) -> T:
        """What a call writes that has an answer for each question."""
        found = self.value(kind, call, *words, offset=offset)
        if found is None:
            raise LookupError("the library has no answer")
        return found

    def copied(self, call: Any, *words: Any, offset: Optional[int] = None) -> Optional[bytes]:
        """The text or the bytes that a call copies, or None where there are none."""
        # A buffer of its own for each call: another thread may run before the bytes are taken out.
        buffer: Any = _TEXT()
        length = c_size_t()
        with self.lock:
            status = call(self.handle, *words, buffer, _USUAL_TEXT, byref(length))
            if status == TOO_SMALL:
                buffer = (c_char * (length.value + 1))()
                status = call(self.handle, *words, buffer, length.value + 1, byref(length))
            if status not in _FINE:
                raise self.error(offset=offset)
        return buffer[: length.value] if status == OK else None

    def items(
        self, kind: Any, call: Any, *words: Any, stream: Optional[int] = None, offset: Optional[int] = None
    ) -> Optional[Iterator[Any]]:
        """The items that a call copies, or None where there is no answer."""
        count, status = c_size_t(_USUAL), TOO_SMALL
        while status == TOO_SMALL:
            buffer = (kind * count.value)()
            status = self.ask(call, *words, buffer, len(buffer), byref(count), stream=stream, offset=offset)
        return islice(buffer, count.value) if status == OK else None

    def named_items(self, kind: Type[T], call: Any, *words: Any) -> Optional[Tuple[Any, int, Any]]:
        """The same of a call that also copies the names of the items: an array of these, their number, and the names."""
        count, size, status = c_size_t(_USUAL), c_size_t(512), TOO_SMALL
        while status == TOO_SMALL:
            rows, names = (kind * count.value)(), (c_char * size.value)()
            status = self.ask(call, *words, rows, len(rows), byref(count), names, len(names), byref(size))
        return (rows, count.value, names) if status == OK else None

    def read(self, call: Any, *words: Any, stream: Optional[int] = None) -> memoryview:
        """The bytes of a stream, which a call copies. It says first how many they are."""
        length, buffer = c_size_t(), (c_uint8 * 0)()
        while self.ask(call, *words, buffer, len(buffer), byref(length), stream=stream) == TOO_SMALL:
            buffer = (c_uint8 * length.value)()
        return memoryview(buffer).cast("B")[: length.value].toreadonly()


class _Buffer(ctypes.Structure):
    _fields_ = [
        ("at", c_void_p),
        ("owner", c_void_p),
        ("length", c_ssize_t),
        ("itemsize", c_ssize_t),
        ("readonly", ctypes.c_int),
        ("ndim", ctypes.c_int),
        ("format", c_void_p),
        ("shape", c_void_p),
        ("strides", c_void_p),
        ("suboffsets", c_void_p),
        ("internal", c_void_p),
    ]


_get_buffer = pythonapi.PyObject_GetBuffer
_get_buffer.argtypes = [ctypes.py_object, c_void_p, ctypes.c_int]
_release_buffer = pythonapi.PyBuffer_Release
_release_buffer.argtypes, _release_buffer.restype = [c_void_p], None


class Lent:
    """The bytes of any object that has a buffer, which are not copied. While a call reads them, another thread that releases
    them does not take them away."""

    def __init__(self, data: Buffer):
        self._buffer, self._lock = _Buffer(), threading.Lock()
        self._users = 0
        _get_buffer(data, byref(self._buffer), 0)
        self._users, self._is_released = 1, False
        self._place = self._buffer.at or ctypes.addressof(self._buffer), self._buffer.length

    def __enter__(self) -> Tuple[int, int]:
        """Their address and their length. ValueError if they were released."""
        with self._lock:
            if self._is_released:
                raise ValueError("the program database is closed")
            self._users += 1
        return self._place

    def __exit__(self, *_: object) -> None:
        with self._lock:
            self._users -= 1
            is_last = self._users == 0
        if is_last:
            _release_buffer(byref(self._buffer))

    def release(self) -> None:
        """Gives the bytes back to whom they belong, once no call reads them. Releasing again does nothing."""
        with self._lock:
            is_first = self._users > 0 and not self._is_released
            self._is_released = True
        if is_first:
            self.__exit__()

    __del__ = release
