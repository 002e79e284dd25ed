"""Supervises asyncio's tasks."""

from __future__ import annotations

import asyncio
import logging
from dataclasses import dataclass
from typing import Any, Awaitable, Callable, Dict, List, Optional, Set, Tuple, Union

from .core import Order, Tree
from .words import KILLED, NORMAL, SHUTDOWN, Cause, Kind, Note, Reason, Why

Body = Callable[..., Awaitable[Any]]
log = logging.getLogger("otp_supervision")


class Ignore(Exception):
    """Raised by a child before it is ready: it isn't started, and that is well."""


class GaveUp(Exception):
    """The root has ended other than by being asked. `cause` says why, `__cause__` is the last crash."""

    def __init__(self, cause: Cause, child: str) -> None:
        texts = {
            Cause.INTENSITY: "more restarts within the period than the intensity allows",
            Cause.SIGNIFICANT: "a significant child has ended",
            Cause.INIT_FAILED: f"the child {child} didn't start",
        }
        super().__init__(texts.get(cause, "it was told to shut down"))
        self.cause = cause


@dataclass(frozen=True)
class Job:
    """What a child runs."""

    body: Body
    words: Tuple[Any, ...]
    waits: bool


class Supervisor:
    """Children are coroutine functions. One that returns has ended normally, one that raises has crashed. To ask one to stop is to
    cancel its task. No task can be killed: one that is still there after `shutdown` seconds is given up, and said so."""

    def __init__(self, strategy: str = "one_for_one", intensity: int = 1, period: int = 5, auto_shutdown: str = "never") -> None:
        self._flags = f'strategy = "{strategy}"\nintensity = {intensity}\nperiod = {period}\nauto_shutdown = "{auto_shutdown}"\n'
        self._members: List[Tuple[str, str, Union[Supervisor, Job]]] = []

    def child(
        self, id: str, body: Body, *words: Any, restart: str = "permanent", shutdown: Union[float, str] = 5.0, significant: bool = False,
        wait_ready: bool = False,
    ) -> Supervisor:
        """One more child. With wait_ready it is up, and the next one starts, once it calls ready(). `shutdown` is seconds,
        "infinity" or "brutal_kill"."""
        time = f'"{shutdown}"' if isinstance(shutdown, str) else str(round(shutdown * 1000))
        keys = f'restart = "{restart}"\nshutdown = {time}\nsignificant = {str(significant).lower()}\n'
        self._members.append((id, keys, Job(body, words, wait_ready)))
        return self

    def supervisor(self, id: str, **flags: Any) -> Supervisor:
        """One more child, which is a supervisor, and which this returns."""
        below = Supervisor(**flags)
        self._members.append((id, 'type = "supervisor"\n', below))
        return below

    def _write(self, table: str, jobs: List[Job]) -> str:
        """The tree file; the start word of a child is the place of its job."""
        text = self._flags
        for id, keys, member in self._members:
            text += f'[[{table}]]\nid = "{id}"\nstart = "f{len(jobs)}"\n{keys}'
            if isinstance(member, Supervisor):
                text += f"[{table}.tree]\n" + member._write(f"{table}.tree.child", jobs)
            else:
                jobs.append(member)
        return text

    async def run(self) -> Cause:
        """Runs the tree until its root has ended. To cancel this is to stop the tree in order; then it returns Cause.ASKED."""
        jobs: List[Job] = []
        text = self._write("child", jobs)
        return await _Run(Tree(text), jobs).run()


@dataclass
class _Live:
    """A child's task, and how it stands."""

    order: Order
    path: str
    task: asyncio.Task[Any]
    is_up: bool = False
    is_asked: bool = False


# What a task calls where it is ready.
_ready: Dict[Optional[asyncio.Task[Any]], Callable[[], None]] = {}


def ready() -> None:
    """Called by a child with wait_ready: it is up."""
    told = _ready.pop(asyncio.current_task(), None)
    if told:
        told()


async def _play(job: Job) -> None:
    await job.body(*job.words)


class _Run:
    """A tree that runs."""

    def __init__(self, tree: Tree, jobs: List[Job]) -> None:
        self.tree, self.jobs, self.loop = tree, jobs, asyncio.get_running_loop()
        self.live: Dict[int, _Live] = {}
        self.untold: List[int] = []
        self.happened = asyncio.Event()
        self.crash: Optional[BaseException] = None

    def now(self) -> int:
        return int(self.loop.time() * 1000)

    async def run(self) -> Cause:
        try:
            while True:
                cause = self.carry_out()
                if cause is not None:
                    return cause
                await self.wait()
                self.tree.tick(self.now())
                untold, self.untold = self.untold, []
                for number in untold:
                    self.tell(number)
        finally:
            self.leave()

    def leave(self) -> None:
        """Nothing goes on that was begun here, also where the run ends by a fault of this layer."""
        for live in self.live.values():
            live.task.cancel()
        self.tree.close()

    async def wait(self) -> None:
        """Until something has happened, or is due."""
        due = self.tree.deadline()
        left = None if due is None else max(0.0, due / 1000 - self.loop.time())
        try:
            await asyncio.wait_for(self.happened.wait(), left)
        except asyncio.TimeoutError:
            pass
        except asyncio.CancelledError:
            self.tree.stop(self.now())
        self.happened.clear()

    def carry_out(self) -> Optional[Cause]:
        """All orders; the cause where the root has ended."""
        for order in self.tree.orders():
            if order.kind == Kind.START:
                self.start(order)
            elif order.kind in (Kind.ASK, Kind.KILL) and order.number in self.live:
                self.end(self.live[order.number], order.kind == Kind.KILL)
            elif order.kind == Kind.END and order.cause is not None:
                if order.cause != Cause.ASKED:
                    raise GaveUp(order.cause, order.id) from self.crash
                return order.cause
        return None

    def happen(self, task: asyncio.Task[Any], number: int) -> None:
        """A task is done."""
        _ready.pop(task, None)
        self.untold.append(number)
        self.happened.set()

    def start(self, order: Order) -> None:
        job, path = self.jobs[int(order.start[1:])], self.tree.path(order.supervisor) + order.id
        task = self.loop.create_task(_play(job), name=path)
        live = self.live[order.number] = _Live(order, path, task)
        if job.waits:
            _ready[task] = lambda: self.rise(live)
        else:
            self.rise(live)
        task.add_done_callback(lambda task: self.happen(task, order.number))

    def rise(self, live: _Live) -> None:
        if not live.is_up and live.order.number in self.live:
            live.is_up = True
            self.tree.up(self.now(), live.order)
            self.happened.set()

    def end(self, live: _Live, is_kill: bool) -> None:
        """Asks a child, or gives it up, as no task can be killed."""
        live.is_asked = True
        live.task.cancel()
        if is_kill:
            log.error("%s #%d didn't end in time, and is given up", live.path, live.order.number)
            del self.live[live.order.number]
            self.tree.exited(self.now(), live.order, KILLED)

    def tell(self, number: int) -> None:
        """A task is done. Of one that was given up nothing is told."""
        live = self.live.pop(number, None)
        if live is None:
            return
        error = None if live.task.cancelled() else live.task.exception()
        reason = self.reason_of(live, error)
        if isinstance(error, Ignore) and not live.is_up:
            self.tree.note(self.now(), live.order.supervisor, Note.IGNORED, number)
        elif live.is_up:
            self.tree.exited(self.now(), live.order, reason)
        else:
            early = Reason.error("not_ready") if reason.why != Why.ERROR else reason
            self.tree.note(self.now(), live.order.supervisor, Note.FAILED, number, early)

    def reason_of(self, live: _Live, error: Optional[BaseException]) -> Reason:
        if live.task.cancelled():
            return SHUTDOWN if live.is_asked else Reason.error("cancelled")
        if error is None:
            return SHUTDOWN if live.is_asked else NORMAL
        if not isinstance(error, Ignore):
            self.crash = error
            log.error("%s #%d crashed", live.path, live.order.number, exc_info=error)
        return Reason.error(type(error).__name__)
