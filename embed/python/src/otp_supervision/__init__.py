"""Supervision trees with the rules of Erlang/OTP, decided by a proved core.

`Supervisor` supervises asyncio's tasks:

    top = Supervisor(intensity=3, period=10)
    top.child("db", database, wait_ready=True)
    pool = top.supervisor("pool", strategy="one_for_all")
    pool.child("worker", worker)
    await top.run()

`Tree` is the core by itself, for any other kind of process.
"""

from __future__ import annotations

from .core import Answer, Line, Order, OtpError, Tree, TreeRefused
from .structs import VERSION as __version__
from .tasks import GaveUp, Ignore, Supervisor, ready
from .words import AnswerKind, Call, Cause, ChildSpec, Kind, Note, Reason, Refused, Restart, Type, Why

__all__ = [
    "Answer", "AnswerKind", "Call", "Cause", "ChildSpec", "GaveUp", "Ignore", "Kind", "Line", "Note", "Order", "OtpError", "Reason",
    "Refused", "Restart", "Supervisor", "Tree", "TreeRefused", "Type", "Why", "__version__", "ready",
]
