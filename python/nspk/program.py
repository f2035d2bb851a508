"""Programs that are asked again and again: each is kept here, as bytes.

    >>> with nspk.Program.open("Ledger.ns", {"Ledger.ns": source}, steps=10_000) as ledger:
    ...     plugin = ledger.value
    ...     ledger.ask(plugin, "add:", 3)
    3
"""
from __future__ import annotations

import ctypes
import itertools
from dataclasses import dataclass
from typing import Mapping, NamedTuple, Optional, Sequence, Union

from . import _library

__all__ = ["Counters", "Ended", "Handle", "Program", "Refused"]

Text = Union[str, bytes]

# The most steps of a turn: it goes on to the end of the run.
WHOLE = 2**64 - 1

_NIL, _TRUE, _FALSE, _INTEGER, _SYMBOL, _CLASS, _OBJECT, _TEXT, _NO_VALUE = range(9)
_FIRST_ROOM = 65536
_names = itertools.count(1)


class _Value(ctypes.Structure):
    _fields_ = [("kind", ctypes.c_uint64), ("number", ctypes.c_int64), ("program", ctypes.c_uint64)]


class _Terms(ctypes.Structure):
    _fields_ = [
        (name, ctypes.c_uint64)
        for name in ("name", "steps", "cells", "depth", "out", "console", "kernel", "mirrors", "first_turn")
    ]


class _Told(ctypes.Structure):
    _fields_ = [
        *((name, ctypes.c_uint64) for name in ("program", "printed", "report", "text")),
        ("value", _Value),
        *((name, ctypes.c_uint64) for name in ("steps", "cells", "depth", "out")),
    ]


class Counters(NamedTuple):
    """What a program has used of its limits, all calls together."""

    steps: int
    cells: int
    depth: int
    out: int


@dataclass(frozen=True)
class Handle:
    """A value of a program that isn't plain: a symbol, a class of the kernel or an object. It is handed to that program alone."""

    kind: int
    number: int
    program: int
    text: Optional[bytes] = None
    """The bytes of a String, or of the name of a Symbol."""


class Refused(Exception):
    """A call did nothing: its text says why. The program stands as it did."""


class Ended(Exception):
    """A run ended in an error or at a limit: the text is the line that reports it. Such a program can't be asked any more."""


Plain = Union[None, bool, int, str, bytes, Handle]


class Program:
    """A program that is open. What it is stands in `state`, which can be kept, and from which `at` makes a program again."""

    def __init__(self, name: int, state: bytes) -> None:
        self._name = name
        self._state: Optional[bytes] = state
        self._printed = b""
        self.value: Plain = None
        """The value with which the last run ended."""
        self.goes_on = False
        """Whether a run goes on, which `turn` continues."""
        self.counters = Counters(0, 0, 0, 0)

    @classmethod
    def open(
        cls,
        name: str,
        files: Mapping[str, Text],
        arguments: Sequence[Text] = (),
        *,
        others: Sequence[str] = (),
        lib: bool = False,
        **terms: int,
    ) -> Program:
        """Opens the class of the file `name`, with the files `others` behind it, on the terms of `open_image`."""
        built = _library.call(["build", *["--lib"] * lib, "image", name, *others], files)
        if built.status:
            raise Refused(built.report)
        return cls.open_image(built.stored, arguments, **terms)

    @classmethod
    def open_image(
        cls,
        image: bytes,
        arguments: Sequence[Text] = (),
        *,
        console: bool = False,
        kernel: bool = False,
        mirrors: bool = False,
        steps: int = 10_000_000,
        cells: int = 4_000_000,
        depth: int = 10_000,
        out: int = 1_048_576,
        turn: int = WHOLE,
    ) -> Program:
        """Opens the program of an image that `build` stored: within these limits, granted what is named, with a first turn of so many steps."""
        program = cls(next(_names), b"")
        terms = _Terms(program._name, steps, cells, depth, out, console, kernel, mirrors, turn)
        values, texts = _handed(arguments)
        program._call(lambda room, told: _library.loaded().nspk_open(
            ctypes.byref(terms), values, len(arguments), texts, len(texts), image, len(image),
            room, len(room), ctypes.byref(told)))
        return program

    @classmethod
    def at(cls, state: bytes) -> Program:
        """The program of such bytes, as it stood when they were taken. It has a name of its own: handles from before aren't its."""
        program = cls(next(_names), state)
        program.turn(0)
        return program

    @property
    def state(self) -> bytes:
        """The program as it stands, as bytes: those of a snapshot."""
        if self._state is None:
            raise ValueError("the program is closed")
        return self._state

    def ask(self, receiver: Plain, selector: str, *arguments: Plain, steps: int = WHOLE) -> Plain:
        """Sends `selector` to a value with plain arguments or handles of this program, and gives it a turn of so many steps.

        Answers the value with which that ended; None too where the run goes on, which `goes_on` tells. Raises Refused where it may not
        be asked, and Ended where the run ended in an error or at a limit.
        """
        values, texts = _handed((receiver, *arguments))
        name, state, sent = self._name, self.state, selector.encode()
        return self._call(lambda room, told: _library.loaded().nspk_ask(
            name, state, len(state), values, 1 + len(arguments), texts, len(texts), sent, len(sent), steps,
            room, len(room), ctypes.byref(told)))

    def turn(self, steps: int = WHOLE) -> Plain:
        """Goes on with a run for so many steps, and answers as `ask` does. With 0 steps it only looks how the program stands."""
        name, state = self._name, self.state
        return self._call(lambda room, told: _library.loaded().nspk_turn(
            name, state, len(state), steps, room, len(room), ctypes.byref(told)))

    def printed(self) -> bytes:
        """What was printed since this was asked last."""
        printed, self._printed = self._printed, b""
        return printed

    def close(self) -> None:
        """Lets the program go. Nothing else has to be freed."""
        self._state = None

    def __enter__(self) -> Program:
        return self

    def __exit__(self, *_: object) -> None:
        self.close()

    def _call(self, call) -> Plain:
        """One call, or two where the room of the first was too small; what it told becomes this program."""
        told = _Told()
        room = (ctypes.c_uint8 * _FIRST_ROOM)()
        status = call(room, told)
        whole = told.program + told.printed + told.report + told.text
        if whole > len(room):
            room = (ctypes.c_uint8 * whole)()
            status = call(room, told)
        if status == 6:
            raise MemoryError("nspk found no memory")
        if status == 7:
            raise ValueError("the call isn't well formed")
        given = bytes(room)
        parts, at = [], 0
        for length in (told.program, told.printed, told.report, told.text):
            parts.append(given[at:at + length])
            at += length
        state, printed, report, text = parts
        line = report.decode("utf-8", "replace").rstrip("\n")
        if not state:
            raise Refused(line)
        self._state = state
        self._printed += printed
        self.counters = Counters(told.steps, told.cells, told.depth, told.out)
        self.value = _told(told.value, text)
        self.goes_on = status == 0 and told.value.kind == _NO_VALUE
        if status:
            raise Ended(line)
        return self.value


def _handed(values: Sequence[Plain]) -> tuple[ctypes.Array, bytes]:
    """Values as C has them, and the bytes of the texts among them."""
    made, texts = [], b""
    for value in values:
        if value is None:
            made.append(_Value(_NIL, 0, 0))
        elif value is True:
            made.append(_Value(_TRUE, 0, 0))
        elif value is False:
            made.append(_Value(_FALSE, 0, 0))
        elif isinstance(value, int):
            if not -(2**63) <= value < 2**63:
                raise OverflowError("an Integer has 64 bits")
            made.append(_Value(_INTEGER, value, 0))
        elif isinstance(value, Handle):
            made.append(_Value(value.kind, value.number, value.program))
        else:
            text = value.encode() if isinstance(value, str) else bytes(value)
            made.append(_Value(_TEXT, len(text), 0))
            texts += text
    return (_Value * max(len(made), 1))(*made), texts


def _told(value: _Value, text: bytes) -> Plain:
    """A value that was told: a plain one, or a handle."""
    if value.kind in (_NIL, _NO_VALUE):
        return None
    if value.kind in (_TRUE, _FALSE):
        return value.kind == _TRUE
    if value.kind == _INTEGER:
        return value.number
    return Handle(value.kind, value.number, value.program, text if text or value.kind == _SYMBOL else None)
