"""The WebAssembly text format: checks, lists, prints and formats texts, by the proved library of Dilgorza.

    >>> import wat
    >>> wat.check("(module (func i32.ad))")[0].message
    'no instruction is called `i32.ad`'

A text is a `str` or UTF-8 `bytes`. A call raises MemoryError if the library runs out of memory. Several threads can
call at the same time.

The environment variable WAT_LIBRARY has the path of the library. Without it, the library is libwat.so in the folder of
this file, as in a wheel; else the one that `bindings/build` makes in this source tree; else the installed libwat.so.0,
as the system's loader finds it. If there is none, `import wat` raises an ImportError.
"""

from __future__ import annotations

import ctypes
import enum
import os
from dataclasses import dataclass
from typing import List, Union

__all__ = ["Fault", "FaultKind", "Refused", "check", "format", "list", "print", "report", "version"]
__version__ = "0.1.0"

#: A name of a text, such as its path.
Name = Union[str, bytes, "os.PathLike[str]", "os.PathLike[bytes]"]


class FaultKind(enum.IntEnum):
    """The kinds of faults, by their numbers.

    `More` isn't a fault of the text: it has the number of invalid fields, or of errors, that aren't listed.
    """

    More = 0
    Memory = 1
    LexChar = 2
    LexString = 3
    LexComment = 4
    LexAnnotation = 5
    Unexpected = 6
    Range = 7
    Utf8 = 8
    FloatLiteral = 9
    Alignment = 10
    PageSize = 11
    Operator = 12
    ParamAfterResult = 13
    IfWithoutThen = 14
    IfTooMany = 15
    HintValue = 16
    HintTwice = 17
    HintPlace = 18
    ImportMixed = 19
    ImportId = 20
    HintTarget = 21
    # Faults of names, blocks and imports.
    UnknownName = 101
    DoubledName = 102
    UnknownLabel = 103
    OtherLabel = 104
    SurplusEnd = 105
    UnclosedBlock = 106
    MisplacedElse = 107
    MisplacedCatch = 108
    LateImport = 109


@dataclass(frozen=True)
class Fault:
    """An error of a text, with its position.

    If more than 20 fields are invalid, a fault whose kind is `More` has the number of the others in its message. Its
    four numbers are 0.
    """

    #: The offset of the fault in the UTF-8 text, in bytes from 0.
    offset: int
    #: The number of bytes to underline, from the offset on; 0 at the end of the text.
    length: int
    #: The line, from 1.
    line: int
    #: The column in characters, from 1.
    column: int
    #: The kind of the fault.
    kind: FaultKind
    #: The message.
    message: str
    #: A suggestion, or None.
    hint: str | None = None
    #: A list of what could be at this position, or None.
    expected: str | None = None
    #: The name of the text that `check` was called with, or None.
    file: str | None = None

    @property
    def name(self) -> str:
        """The name of the kind, as `wat check --json` prints it."""
        return self.kind.name

    def __str__(self) -> str:
        place = f"{self.line}:{self.column}: {self.message}"
        return place if self.file is None else f"{self.file}:{place}"


class Refused(Exception):
    """The text can't be listed, printed or formatted.

    `report` is the reason, as the program `wat` prints it for a file with the name of the text. `faults` are the faults
    that `check` returns for the text and its name, with `syntax`. The list is empty if the only reason is a float literal, which
    `check` accepts.
    """

    def __init__(self, report: str, faults: List[Fault]) -> None:
        super().__init__(report, faults)
        self.report = report
        self.faults = faults

    def __str__(self) -> str:
        return self.report


class _Record(ctypes.Structure):
    """The struct `wat_fault` of wat.h."""

    _fields_ = [
        (name, ctypes.c_size_t)
        for name in ("offset", "length", "line", "column", "fault", "message", "hint", "expected", "end")
    ]


_OK, _REFUSED = 0, 1
_ROOM, _SPACE = 4096, 32
_HOW = "run ./prove wat_c and bindings/build, or set WAT_LIBRARY to the path of an installed libwat.so"


def _found() -> ctypes.CDLL:
    """Loads the library."""
    folder = os.path.dirname(os.path.abspath(__file__))
    paths = [f"{folder}/libwat.so", os.path.normpath(f"{folder}/../../out/libwat.so")]
    asked = os.environ.get("WAT_LIBRARY")
    path = asked or next((it for it in paths if os.path.exists(it)), "libwat.so.0")
    try:
        return ctypes.CDLL(path)
    except OSError as error:
        tried = "by WAT_LIBRARY" if asked else f"as {paths[0]}, as {paths[1]}, or by the system's loader"
        raise ImportError(f"wat: there is no library {tried}: {error}; {_HOW}", path=path) from None


def _library() -> ctypes.CDLL:
    library = _found()
    size = ctypes.POINTER(ctypes.c_size_t)
    text, output = [ctypes.c_char_p, ctypes.c_size_t], [ctypes.c_char_p, ctypes.c_size_t, size]
    for name, words in {
        "wat_check_named": [*text, *text, *output],
        "wat_faults": [*text, ctypes.POINTER(_Record), ctypes.c_size_t, size, *output],
        "wat_faults_syntax": [*text, ctypes.POINTER(_Record), ctypes.c_size_t, size, *output],
        "wat_list_named": [*text, *text, *output],
        "wat_print_named": [*text, *text, ctypes.c_bool, *output],
        "wat_format_named": [*text, *text, *output],
        "wat_version": output,
    }.items():
        call = getattr(library, name, None)
        if call is None:
            raise ImportError(f"wat: {library._name} isn't the library of version {__version__}: no {name}; {_HOW}")
        call.argtypes, call.restype = words, ctypes.c_int32
    return library


_LIBRARY = _library()


def _bytes(text: str | bytes) -> bytes:
    return text.encode() if isinstance(text, str) else text


def _output(function: str, *words: object) -> tuple[int, str]:
    """Returns the status and the output of a call; calls again with more room if the output doesn't fit."""
    room, needed = _ROOM, ctypes.c_size_t()
    while True:
        output = ctypes.create_string_buffer(room)
        status = getattr(_LIBRARY, function)(*words, output, room, ctypes.byref(needed))
        if status not in (_OK, _REFUSED):
            raise MemoryError
        if needed.value <= room:
            return status, output.raw[: needed.value].decode()
        room = needed.value


def _named(function: str, name: Name | None, data: bytes, *words: object) -> tuple[int, str]:
    """Returns the status and the output of a call for a text with a name."""
    file = b"<text>" if name is None else os.fsencode(name)
    return _output(function, file, len(file), data, len(data), *words)


def _answer(function: str, name: Name | None, text: str | bytes, *words: object) -> str:
    data = _bytes(text)
    status, output = _named(function, name, data, *words)
    if status == _REFUSED:
        raise Refused(output, check(data, name, syntax=True))
    return output


def _fault(record: _Record, messages: bytes, file: str | None) -> Fault:
    def words(start: int, end: int) -> str:
        return messages[start:end].decode()

    return Fault(
        offset=record.offset,
        length=record.length,
        line=record.line,
        column=record.column,
        kind=FaultKind(record.fault),
        message=words(record.message, record.hint),
        hint=words(record.hint, record.expected) or None,
        expected=words(record.expected, record.end) or None,
        file=file,
    )


def check(text: str | bytes, name: Name | None = None, syntax: bool = False) -> List[Fault]:
    """Returns the faults of the text; the list is empty for a module without errors of names, blocks and imports.

    With `syntax` these errors are left out. Types, and indices that are numbers, aren't checked.

    Each fault has the name of the text, if there is one, as its `file`. In a name that isn't UTF-8, each invalid
    sequence of bytes becomes U+FFFD.
    """
    data = _bytes(text)
    file = None if name is None else os.fsencode(name).decode(errors="replace")
    space, room = _SPACE, _ROOM
    count, needed = ctypes.c_size_t(), ctypes.c_size_t()
    call = _LIBRARY.wat_faults_syntax if syntax else _LIBRARY.wat_faults
    while True:
        records, messages = (_Record * space)(), ctypes.create_string_buffer(room)
        more = records, space, ctypes.byref(count), messages, room, ctypes.byref(needed)
        if call(data, len(data), *more) not in (_OK, _REFUSED):
            raise MemoryError
        if count.value <= space and needed.value <= room:
            return [_fault(it, messages.raw, file) for it in records[: count.value]]
        space, room = max(space, count.value), max(room, needed.value)


def report(text: str | bytes, name: Name | None = None) -> str:
    """Returns the report that `wat check` prints for the text in a file with this name; empty for a module.

    Without a name, the report calls the text `<text>`. For other names see `check`.
    """
    return _named("wat_check_named", name, _bytes(text))[1]


def format(text: str | bytes, name: Name | None = None) -> str:
    """Returns the formatted text: only white space differs. Raises Refused if the text has an invalid token."""
    return _answer("wat_format_named", name, text)


def print(text: str | bytes, line: bool = False, name: Name | None = None) -> str:
    """Returns a text that parses back to the same module, flat and without comments; with `line`, on one line.

    Raises Refused if the text isn't a module, or has a float literal.
    """
    return _answer("wat_print_named", name, text, line)


def list(text: str | bytes, name: Name | None = None) -> str:
    """Returns the contents of the module, one field or instruction per line.

    Raises Refused if the text isn't a module, or has a float literal.
    """
    return _answer("wat_list_named", name, text)


def version() -> str:
    """Returns the name and the version of the library."""
    return _output("wat_version")[1]
