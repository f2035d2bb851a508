"""The command nspk as one call, and the library that has it."""
from __future__ import annotations

import ctypes
import os
import threading
from dataclasses import dataclass
from enum import IntEnum
from typing import Mapping, Optional, Sequence, Union

__all__ = ["Answer", "Malformed", "Status", "call", "check", "load", "run"]

Text = Union[str, bytes]

# How large the rooms of the first call are, in bytes.
_FIRST_ROOM = 65536


class Status(IntEnum):
    """How a command ended."""

    DONE = 0
    """The command did what it was asked to."""
    PROGRAM_ERROR = 1
    """The program that ran ended in an error; or an audit, a test or --true wasn't passed."""
    REFUSED = 2
    """The words, a file, its text, a size, an image or a snapshot were refused."""
    LIMIT = 3
    """The program that ran met a limit."""


class Malformed(Exception):
    """The lengths of a call don't divide its bytes into words and files. No call of this module comes to it."""


@dataclass(frozen=True)
class Answer:
    """What a command gave."""

    status: Status
    out: bytes
    """What it wrote to standard output."""
    err: bytes
    """What it wrote to standard error."""
    stored: bytes
    """What `build` or `snap` stored; empty where nothing was."""

    @property
    def report(self) -> str:
        """The first line of standard error: how a run ended, or what was refused."""
        return self.err.decode("utf-8", "replace").partition("\n")[0]


class _Lengths(ctypes.Structure):
    _fields_ = [("out", ctypes.c_uint64), ("err", ctypes.c_uint64), ("stored", ctypes.c_uint64)]


_lock = threading.Lock()
_library: Optional[ctypes.CDLL] = None


def load(path: Optional[str] = None) -> None:
    """Loads the shared library libnspk.so: at `path`, or where the variable NSPK_LIBRARY says, or the one in this package.

    The first call does it where it wasn't done.
    """
    global _library
    path = path or os.environ.get("NSPK_LIBRARY") or os.path.join(os.path.dirname(os.path.abspath(__file__)), "libnspk.so")
    library = ctypes.CDLL(path)
    library.nspk_call.restype = ctypes.c_uint8
    library.nspk_call.argtypes = [
        ctypes.c_size_t,
        ctypes.POINTER(ctypes.c_uint64), ctypes.c_size_t,
        ctypes.c_char_p, ctypes.c_size_t,
        ctypes.c_char_p, ctypes.c_size_t,
        ctypes.c_char_p, ctypes.c_size_t,
        ctypes.c_char_p, ctypes.c_size_t,
        ctypes.POINTER(_Lengths),
    ]
    for name in ("nspk_open", "nspk_ask", "nspk_turn"):
        getattr(library, name).restype = ctypes.c_uint8
    size, bytes_of, number = ctypes.c_size_t, ctypes.c_char_p, ctypes.c_uint64
    library.nspk_open.argtypes = [ctypes.c_void_p, ctypes.c_void_p, size, bytes_of, size, bytes_of, size, ctypes.c_void_p, size, ctypes.c_void_p]
    library.nspk_ask.argtypes = [number, bytes_of, size, ctypes.c_void_p, size, bytes_of, size, bytes_of, size, number, ctypes.c_void_p, size, ctypes.c_void_p]
    library.nspk_turn.argtypes = [number, bytes_of, size, number, ctypes.c_void_p, size, ctypes.c_void_p]
    _library = library


def loaded() -> ctypes.CDLL:
    """The library, which is loaded where it wasn't."""
    with _lock:
        if _library is None:
            load()
    assert _library is not None
    return _library


def _bytes(text: Text) -> bytes:
    return text.encode() if isinstance(text, str) else bytes(text)


def _ask(words: int, lengths: Sequence[int], joined: bytes, rooms: Sequence[int]) -> tuple[int, list[bytes], list[int]]:
    """One call with rooms of these sizes: the status as a number, what stands in each room, and the lengths that were told."""
    held = [ctypes.create_string_buffer(max(size, 1)) for size in rooms]
    told = _Lengths()
    status = loaded().nspk_call(
        words, (ctypes.c_uint64 * max(len(lengths), 1))(*lengths), len(lengths), joined, len(joined),
        held[0], rooms[0], held[1], rooms[1], held[2], rooms[2], ctypes.byref(told),
    )
    lengths_told = [told.out, told.err, told.stored]
    return status, [room.raw[:min(n, size)] for room, n, size in zip(held, lengths_told, rooms)], lengths_told


def call(words: Sequence[str], files: Mapping[str, Text] = {}) -> Answer:
    """Carries out the command of these words, as on the command line of `nspk`, over these files.

    Raises MemoryError where no memory was found.
    """
    pieces = [word.encode() for word in words]
    for name, text in files.items():
        pieces += [name.encode(), _bytes(text)]
    lengths, joined = [len(piece) for piece in pieces], b"".join(pieces)
    rooms = [_FIRST_ROOM] * 3
    status, given, told = _ask(len(words), lengths, joined, rooms)
    if any(n > size for n, size in zip(told, rooms)):
        status, given, told = _ask(len(words), lengths, joined, told)
    if status == 6:
        raise MemoryError("nspk found no memory")
    if status == 7:
        raise Malformed
    return Answer(Status(status), *given)


def _options(**limits: Optional[int]) -> list[str]:
    return [f"--{name}={limit}" for name, limit in limits.items() if limit is not None]


def run(
    name: str,
    files: Mapping[str, Text],
    arguments: Sequence[str] = (),
    *,
    others: Sequence[str] = (),
    lib: bool = False,
    json: bool = False,
    steps: Optional[int] = None,
    cells: Optional[int] = None,
    depth: Optional[int] = None,
    out: Optional[int] = None,
) -> Answer:
    """Runs the class of the file `name`, with the files `others` behind it, within these limits.

    With `lib` the library is the last of the files; with `json` the answer's `out` is one line of JSON that tells all.
    """
    words = ["run", *_options(steps=steps, cells=cells, depth=depth, out=out)]
    words += ["--lib"] * lib + ["--json"] * json
    words += [name, *others]
    return call(words + ["--", *arguments] if arguments else words, files)


def check(names: Sequence[str], files: Mapping[str, Text], *, lib: bool = False) -> Answer:
    """Says whether these files are a program: `out` is b'ok\\n', or `report` tells the first fault."""
    return call(["check", *["--lib"] * lib, *names], files)
