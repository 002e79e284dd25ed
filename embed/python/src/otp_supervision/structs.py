"""The structs of the header, and its calls, as ctypes has them. A test compares their places with a C compiler's."""

from __future__ import annotations

import ctypes as c
import os
from pathlib import Path
from typing import Any, Dict, List

U8, U32, U64 = c.c_uint8, c.c_uint32, c.c_uint64
VERSION = "0.3.0"
# As the library file of a release is called.
FILE = "libotp-supervision.so." + VERSION.rpartition(".")[0]


def fields(numbers: Dict[Any, str], *rest: Any) -> List[Any]:
    """Fields of one type each, by their names, and then others."""
    return [(name, kind) for kind, names in numbers.items() for name in names.split()] + list(rest)


class Name(c.Structure):
    _fields_ = [("len", U8), ("bytes", U8 * 32)]


class Text(c.Structure):
    _fields_ = [("len", U8), ("bytes", U8 * 64)]


class Spec(c.Structure):
    _fields_ = fields({U32: "restart significant type shutdown shutdown_ms modules", Name: "id start"}, ("module", Name * 4))


class Order(c.Structure):
    _fields_ = fields({U64: "number deadline", U32: "kind supervisor has_deadline reason cause", Name: "id start", Text: "text"})


class Answer(c.Structure):
    _fields_ = fields({U64: "call number specs active supervisors workers", U32: "kind fault spec_fault spec_key reason lines", Text: "text"})


class Line(c.Structure):
    _fields_ = fields({U64: "number", U32: "process type modules", Name: "id"}, ("module", Name * 4))


class Supervisor(c.Structure):
    _fields_ = fields({
        U64: "intensity period process specs active supervisors workers restarts in_period starts rows",
        U32: "parent strategy auto_shutdown phase has_process is_stopping has_open_work cause", Name: "id",
    })


class Child(c.Structure):
    _fields_ = fields({U64: "number deadline", U32: "state has_deadline nested", Spec: "spec", Name: "id"})


class Fault(c.Structure):
    _fields_ = fields({U32: "code table place index key text_len"}, ("text", U8 * 160))


HANDLE = c.POINTER(U64)
TEXT = [c.c_char_p, c.c_size_t]
# What each call takes.
CALLS: Dict[str, List[Any]] = {
    "open": [HANDLE, *TEXT, c.POINTER(Fault)], "close": [HANDLE], "tick": [HANDLE, U64], "stop": [HANDLE, U64],
    "note": [HANDLE, U64, U32, U32, U64, U32, *TEXT], "start_child": [HANDLE, U64, U32, c.POINTER(Spec), c.POINTER(U64)],
    "call": [HANDLE, U64, U32, U32, c.POINTER(Name), U64, c.POINTER(U64)], "next": [HANDLE, c.POINTER(Order)],
    "answer_of": [HANDLE, c.POINTER(Answer)], "answer_line": [HANDLE, U32, c.POINTER(Line)], "answer_spec": [HANDLE, c.POINTER(Spec)],
    "deadline": [HANDLE, c.POINTER(U64)], "look": [HANDLE, U32, c.POINTER(Supervisor)],
}


def load() -> c.CDLL:
    """The library of the package, or the one that OTP_SHARED_LIBRARY names."""
    library = c.CDLL(os.environ.get("OTP_SHARED_LIBRARY") or str(Path(__file__).with_name(FILE)))
    for name, words in CALLS.items():
        call = getattr(library, "otp_" + name)
        call.argtypes, call.restype = words, None if name == "close" else U32
    library.otp_version.argtypes, library.otp_version.restype = [], U32
    theirs, ours = library.otp_version() >> 8, [int(number) for number in VERSION.split(".")]
    # Before version 1 each minor version is another interface.
    if (theirs >> 8, theirs & 0xFF) != (ours[0], ours[1]):
        raise ImportError(f"the library is of version {theirs >> 8}.{theirs & 0xFF}, and this package of {VERSION}")
    return library


def told(raw: Any) -> str:
    """A name or a text as the library tells it."""
    return bytes(raw.bytes[: raw.len]).decode("ascii")


def name_of(text: str) -> Name:
    """A name for the library, which refuses one that it can't have."""
    data = text.encode()
    return Name(min(len(data), 255), (U8 * 32)(*data[:32]))
