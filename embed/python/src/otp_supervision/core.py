"""The core: `Tree`. What happened goes in, orders come out; no clock, no thread, no process."""

from __future__ import annotations

import ctypes as c
from dataclasses import dataclass
from typing import Iterator, Optional, Tuple

from . import structs
from .words import (
    NORMAL, AnswerKind, Call, Cause, ChildSpec, Kind, Note, Reason, Refused, Restart, Type, Why, text_of,
)

_library = structs.load()
OK, NONE, MEMORY, BAD_TREE = 0, 1, 4, 11
# Of a modules field: they are asked of the child.
DYNAMIC = 5


class OtpError(Exception):
    """A call isn't taken; the tree is as it was. `status` is that of the header."""

    def __init__(self, call: str, status: int) -> None:
        super().__init__(f"{call} answers status {status}")
        self.status = status


class TreeRefused(ValueError):
    """A tree file is refused: `code` is the N of EN as `otp check` has it, and the text says where and why."""

    def __init__(self, code: int, text: str) -> None:
        super().__init__(f"E{code}: {text}")
        self.code = code


@dataclass(frozen=True)
class Line:
    """A line of which_children."""

    id: str
    process: str
    type: Type
    modules: Tuple[str, ...]

    def __str__(self) -> str:
        return f"{self.id or 'undefined'},{self.process},{text_of(self.type)},{'+'.join(self.modules) or '-'}"


@dataclass(frozen=True)
class Answer:
    """The answer to the call of this number."""

    call: int
    kind: AnswerKind
    number: int = 0
    counts: Tuple[int, int, int, int] = (0, 0, 0, 0)
    refused: Optional[Refused] = None
    spec_fault: int = 0
    reason: Optional[Reason] = None
    lines: Tuple[Line, ...] = ()
    spec: Optional[ChildSpec] = None

    def __str__(self) -> str:
        if self.kind == AnswerKind.REFUSED and self.refused:
            return "error " + self._refusal(self.refused)
        return {
            AnswerKind.OK: "ok", AnswerKind.PROCESS: f"ok #{self.number}", AnswerKind.UNDEFINED: "ok undefined", AnswerKind.NOPROC: "noproc",
            AnswerKind.WHICH: " ".join(["which", *map(str, self.lines)]), AnswerKind.SPEC: str(self.spec),
            AnswerKind.COUNT: "count specs {} active {} supervisors {} workers {}".format(*self.counts),
        }[self.kind]

    def _refusal(self, refused: Refused) -> str:
        return {
            Refused.IS_SIMPLE: "simple_one_for_one", Refused.ALREADY_STARTED: f"already_started #{self.number}",
            Refused.BAD_SPEC: f"bad_spec E{self.spec_fault}", Refused.START_FAILED: f"start {self.reason}",
        }.get(refused, text_of(refused))


@dataclass(frozen=True)
class Order:
    """An order of a tree. `number` is the process, or of a reply the call; `deadline` a reading at which the kill comes."""

    kind: Kind
    supervisor: int
    number: int
    id: str = ""
    start: str = ""
    deadline: Optional[int] = None
    reason: Optional[Reason] = None
    cause: Optional[Cause] = None
    answer: Optional[Answer] = None

    def __str__(self) -> str:
        return {
            Kind.REPLY: f"reply {self.number} {self.answer}", Kind.READY: "ready", Kind.END: f"end {self.reason}",
        }.get(self.kind, f"{text_of(self.kind)} {self.id or '-'} #{self.number}")


def _modules(raw: structs.Spec | structs.Line) -> Tuple[str, ...]:
    count = int(raw.modules)
    return ("dynamic",) if count == DYNAMIC else tuple(structs.told(raw.module[place]) for place in range(count))


def _spec_of(raw: structs.Spec) -> ChildSpec:
    shutdown = {1: "brutal_kill", 2: str(raw.shutdown_ms), 3: "infinity"}[raw.shutdown]
    return ChildSpec(
        structs.told(raw.id), structs.told(raw.start), Restart(raw.restart), bool(raw.significant), shutdown, Type(raw.type), _modules(raw),
    )


def _raw_spec(spec: ChildSpec) -> structs.Spec:
    raw = structs.Spec(restart=spec.restart, significant=int(spec.significant), type=spec.type)
    raw.id, raw.start = structs.name_of(spec.id), structs.name_of(spec.start)
    raw.shutdown = {"brutal_kill": 1, "infinity": 3}.get(spec.shutdown, 2)
    raw.shutdown_ms = int(spec.shutdown) if raw.shutdown == 2 else 0
    modules = spec.modules or (spec.start,)
    raw.modules = DYNAMIC if modules == ("dynamic",) else len(modules)
    if raw.modules != DYNAMIC:
        if len(modules) > 4:
            raise ValueError("a specification names at most four modules")
        for place, name in enumerate(modules):
            raw.module[place] = structs.name_of(name)
    return raw


class Tree:
    """A whole tree of supervisors, opened of the text of a tree file. It is used by one thread at a time.

    A reading of the clock is in milliseconds since any beginning; what is told carries the one at which it happens.
    """

    def __init__(self, text: str) -> None:
        data, fault = text.encode(), structs.Fault()
        # A handle: zeroed, and never copied.
        self._handle = (structs.U64 * 2)()
        status = _library.otp_open(self._handle, data, len(data), c.byref(fault))
        if status == BAD_TREE:
            raise TreeRefused(fault.code, bytes(fault.text[: fault.text_len]).decode("utf-8", "replace"))
        self._want("otp_open", status)

    def __del__(self) -> None:
        self.close()

    def close(self) -> None:
        """Frees the tree; a closed one stays closed."""
        if hasattr(self, "_handle"):
            _library.otp_close(self._handle)

    @staticmethod
    def _want(call: str, status: int, *also: int) -> None:
        """Raises what a status says, but for those that are expected."""
        if status == MEMORY:
            raise MemoryError(call)
        if status != OK and status not in also:
            raise OtpError(call, status)

    def tick(self, reading: int) -> None:
        """The clock is read: what is due by then comes with the next orders."""
        self._want("otp_tick", _library.otp_tick(self._handle, reading))

    def note(self, reading: int, supervisor: int, note: Note, number: int, reason: Reason = NORMAL) -> None:
        """At this reading a process tells the supervisor that ordered its start how it stands."""
        text = (reason.text or "_").encode()
        self._want("otp_note", _library.otp_note(self._handle, reading, supervisor, note, number, reason.why, text, len(text)))

    def up(self, reading: int, order: Order) -> None:
        """The process of an order to start is up."""
        self.note(reading, order.supervisor, Note.UP, order.number)

    def exited(self, reading: int, order: Order, reason: Reason) -> None:
        """The process of an order to start has ended."""
        self.note(reading, order.supervisor, Note.EXIT, order.number, reason)

    def stop(self, reading: int) -> None:
        """The root is wanted to shut down."""
        self._want("otp_stop", _library.otp_stop(self._handle, reading))

    def call(self, reading: int, supervisor: int, call: Call, id: str = "", number: int = 0) -> int:
        """Asks for a call; its answer comes with an order of kind REPLY under the number that this returns."""
        told, name = structs.U64(), structs.name_of(id)
        self._want("otp_call", _library.otp_call(self._handle, reading, supervisor, call, c.byref(name), number, c.byref(told)))
        return told.value

    def start_child(self, reading: int, supervisor: int, spec: ChildSpec) -> int:
        """start_child/2 with a specification; its answer comes as that of any call."""
        told, raw = structs.U64(), _raw_spec(spec)
        self._want("otp_start_child", _library.otp_start_child(self._handle, reading, supervisor, c.byref(raw), c.byref(told)))
        return told.value

    def next_order(self) -> Optional[Order]:
        """The next order, or None. Each comes once: carry it out before the next one is taken."""
        raw = structs.Order()
        status = _library.otp_next(self._handle, c.byref(raw))
        self._want("otp_next", status, NONE)
        return None if status == NONE else self._order_of(raw)

    def orders(self) -> Iterator[Order]:
        """The orders that are left, up to that of the root's end. Between two of them notes may be told."""
        while (order := self.next_order()) is not None:
            yield order
            if order.kind == Kind.END:
                return

    def _order_of(self, raw: structs.Order) -> Order:
        kind, is_end = Kind(raw.kind), raw.kind == Kind.END
        return Order(
            kind, raw.supervisor, raw.number, structs.told(raw.id), structs.told(raw.start), raw.deadline if raw.has_deadline else None,
            Reason(Why(raw.reason), structs.told(raw.text)) if is_end else None, Cause(raw.cause) if is_end else None,
            self._answer() if kind == Kind.REPLY else None,
        )

    def _answer(self) -> Answer:
        raw = structs.Answer()
        self._want("otp_answer_of", _library.otp_answer_of(self._handle, c.byref(raw)))
        kind = AnswerKind(raw.kind)
        refused = Refused(raw.fault) if kind == AnswerKind.REFUSED else None
        return Answer(
            raw.call, kind, raw.number, (raw.specs, raw.active, raw.supervisors, raw.workers), refused, raw.spec_fault,
            Reason(Why(raw.reason), structs.told(raw.text)) if refused == Refused.START_FAILED else None,
            tuple(self._line(place) for place in range(raw.lines)) if kind == AnswerKind.WHICH else (),
            self._spec() if kind == AnswerKind.SPEC else None,
        )

    def _line(self, place: int) -> Line:
        raw = structs.Line()
        self._want("otp_answer_line", _library.otp_answer_line(self._handle, place, c.byref(raw)))
        process = {1: f"#{raw.number}", 2: "restarting"}.get(raw.process, "undefined")
        return Line(structs.told(raw.id), process, Type(raw.type), _modules(raw))

    def _spec(self) -> ChildSpec:
        raw = structs.Spec()
        self._want("otp_answer_spec", _library.otp_answer_spec(self._handle, c.byref(raw)))
        return _spec_of(raw)

    def deadline(self) -> Optional[int]:
        """The reading at which the clock is to be read again at the latest."""
        reading = structs.U64()
        status = _library.otp_deadline(self._handle, c.byref(reading))
        self._want("otp_deadline", status, NONE)
        return None if status == NONE else reading.value

    def path(self, supervisor: int) -> str:
        """The ids from the root's child on, each with a `/` behind it; the root's is empty."""
        path, raw = "", structs.Supervisor()
        while supervisor:
            self._want("otp_look", _library.otp_look(self._handle, supervisor, c.byref(raw)))
            path, supervisor = f"{structs.told(raw.id)}/{path}", raw.parent
        return path
