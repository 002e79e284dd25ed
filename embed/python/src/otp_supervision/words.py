"""The words of the library's header, with the numbers that it gives them."""

from __future__ import annotations

import enum
import typing
from dataclasses import dataclass
from typing import Tuple, TypeVar


class Kind(enum.IntEnum):
    """What an order orders."""

    START, ASK, KILL, REPLY, READY, END = range(1, 7)


class Note(enum.IntEnum):
    """What a process tells."""

    UP, IGNORED, FAILED, EXIT = range(1, 5)


class Why(enum.IntEnum):
    """The kind of a reason."""

    NORMAL, SHUTDOWN, SHUTDOWN_WITH, KILL, KILLED, NOPROC, ERROR = range(1, 8)


class Cause(enum.IntEnum):
    """What made a supervisor end."""

    INTENSITY, SIGNIFICANT, ASKED, INIT_FAILED = range(1, 5)


class Restart(enum.IntEnum):
    """When a child that has ended is started again."""

    PERMANENT, TRANSIENT, TEMPORARY = range(1, 4)


class Type(enum.IntEnum):
    """Whether a child is a supervisor."""

    WORKER, SUPERVISOR = range(1, 3)


class Call(enum.IntEnum):
    """A call on a supervisor, but for start_child with a specification."""

    START_DYNAMIC, RESTART_CHILD, DELETE_CHILD, TERMINATE_CHILD, TERMINATE_PROCESS, WHICH_CHILDREN, COUNT_CHILDREN, GET_CHILDSPEC = range(1, 9)


class AnswerKind(enum.IntEnum):
    """What a call is answered."""

    OK, PROCESS, UNDEFINED, REFUSED, WHICH, COUNT, SPEC, NOPROC = range(1, 9)


class Refused(enum.IntEnum):
    """Why a call isn't done."""

    NOT_FOUND, RUNNING, RESTARTING, IS_SIMPLE, NOT_SIMPLE, ALREADY_PRESENT, ALREADY_STARTED, TOO_MANY_CHILDREN, BAD_SPEC, START_FAILED = range(1, 11)


Word = TypeVar("Word", bound=enum.IntEnum)


def word_of(words: typing.Type[Word], text: str) -> Word:
    """The word that a text is, as `one_for_all`."""
    return words[text.upper()]


def text_of(word: enum.IntEnum) -> str:
    """A word as a text, as `one_for_all`."""
    return word.name.lower()


@dataclass(frozen=True)
class Reason:
    """Why a process ended, or didn't start. A text is 1 to 64 visible letters of ASCII, without a space."""

    why: Why
    text: str = ""

    @staticmethod
    def error(text: str) -> Reason:
        """An error with this text, cut to what one may have: another letter becomes `_`."""
        told = "".join(letter if "!" <= letter <= "~" else "_" for letter in text[:64])
        return Reason(Why.ERROR, told or "_")

    @staticmethod
    def parse(text: str) -> Reason:
        """As `error:TEXT` or `normal`."""
        word, _, rest = text.partition(":")
        if rest:
            return Reason({"shutdown": Why.SHUTDOWN_WITH, "error": Why.ERROR}[word], rest)
        return Reason(word_of(Why, word))

    def __str__(self) -> str:
        if self.why in (Why.SHUTDOWN_WITH, Why.ERROR):
            return f"{'shutdown' if self.why == Why.SHUTDOWN_WITH else 'error'}:{self.text}"
        return text_of(self.why)


NORMAL, SHUTDOWN, KILLED = Reason(Why.NORMAL), Reason(Why.SHUTDOWN), Reason(Why.KILLED)


@dataclass(frozen=True)
class ChildSpec:
    """A child's specification, with OTP's defaults."""

    id: str
    start: str
    restart: Restart = Restart.PERMANENT
    significant: bool = False
    # Milliseconds, `brutal_kill` or `infinity`.
    shutdown: str = "5000"
    type: Type = Type.WORKER
    # At most four names, or `dynamic`.
    modules: Tuple[str, ...] = ()

    def __str__(self) -> str:
        return (
            f"spec {self.id} start {self.start} restart {text_of(self.restart)} significant {str(self.significant).lower()} "
            f"shutdown {self.shutdown} type {text_of(self.type)} modules {'+'.join(self.modules) or '-'}"
        )
