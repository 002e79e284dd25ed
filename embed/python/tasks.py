#!/usr/bin/env python3
"""Tests of the package's Supervisor, with tasks of asyncio.

usage: tasks.py FOLDER     (of the package; OTP_SHARED_LIBRARY names the library)
"""

from __future__ import annotations

import asyncio
import logging
import sys
import unittest
from typing import Any, Awaitable, Callable, List

sys.path.insert(0, sys.argv.pop(1))

from otp_supervision import Cause, GaveUp, Ignore, Supervisor, TreeRefused, ready

logging.disable(logging.CRITICAL)


class Seen(List[str]):
    """What happened, in its order."""

    def steady(self, name: str) -> Callable[[], Awaitable[None]]:
        """A child that runs until it is asked to stop."""

        async def body() -> None:
            self.append(f"+{name}")
            try:
                await asyncio.Event().wait()
            finally:
                self.append(f"-{name}")

        return body

    @staticmethod
    async def until(wanted: Callable[[], bool]) -> None:
        while not wanted():
            await asyncio.sleep(0.001)


async def crash() -> None:
    raise ConnectionError("lost")


class Tasks(unittest.IsolatedAsyncioTestCase):
    async def stopped(self, top: Supervisor, seen: Seen, wanted: Callable[[], bool]) -> Any:
        """Runs a tree until this holds, and then stops it."""
        task = asyncio.create_task(top.run())
        await asyncio.wait_for(seen.until(lambda: wanted() or task.done()), 60)
        task.cancel()
        return await task

    async def test_what_was_started_stops_in_reverse_order(self) -> None:
        seen = Seen()
        top = Supervisor()
        top.child("a", seen.steady("a"))
        top.supervisor("pool").child("b", seen.steady("b"))
        top.child("c", seen.steady("c"))
        self.assertEqual(await self.stopped(top, seen, lambda: "+c" in seen), Cause.ASKED)
        self.assertEqual(seen, ["+a", "+b", "+c", "-c", "-b", "-a"])

    async def test_a_pool_gives_up_and_is_started_anew(self) -> None:
        seen, left = Seen(), [3]

        async def flaky() -> None:
            seen.append("+flaky")
            await asyncio.sleep(0)
            if left[0]:
                left[0] -= 1
                raise ValueError
            seen.append("calm")
            await asyncio.Event().wait()

        top = Supervisor(intensity=1, period=60)
        pool = top.supervisor("pool", strategy="one_for_all", intensity=1, period=60)
        pool.child("mate", seen.steady("mate"))
        pool.child("flaky", flaky)
        await self.stopped(top, seen, lambda: "calm" in seen)
        self.assertEqual(seen.count("+flaky"), 4)
        self.assertEqual(seen.count("+mate"), 4)

    async def test_the_root_gives_up_with_the_last_crash(self) -> None:
        with self.assertRaises(GaveUp) as caught:
            await Supervisor(intensity=2, period=60).child("a", crash).run()
        self.assertEqual(caught.exception.cause, Cause.INTENSITY)
        self.assertIsInstance(caught.exception.__cause__, ConnectionError)

    async def test_a_child_that_hears_nothing_is_given_up(self) -> None:
        seen = Seen()
        heard, done = [0], asyncio.Event()

        async def deaf() -> None:
            seen.append("+deaf")
            while not done.is_set():
                try:
                    await done.wait()
                except asyncio.CancelledError:
                    heard[0] += 1

        top = Supervisor().child("deaf", deaf, shutdown=0.05)
        self.assertEqual(await self.stopped(top, seen, lambda: "+deaf" in seen), Cause.ASKED)
        self.assertGreaterEqual(heard[0], 2)
        done.set()

    async def test_the_next_child_waits_until_one_is_ready(self) -> None:
        seen, go = Seen(), asyncio.Event()

        async def db() -> None:
            seen.append("+db")
            await go.wait()
            seen.append("ready")
            ready()
            await asyncio.Event().wait()

        top = Supervisor().child("db", db, wait_ready=True).child("web", seen.steady("web"))
        task = asyncio.create_task(top.run())
        await seen.until(lambda: "+db" in seen)
        await asyncio.sleep(0)
        self.assertEqual(seen, ["+db"])
        go.set()
        await seen.until(lambda: "+web" in seen)
        self.assertEqual(seen, ["+db", "ready", "+web"])
        task.cancel()
        await task

    async def test_a_start_is_ignored_or_fails(self) -> None:
        seen = Seen()

        async def not_here() -> None:
            seen.append("ignored")
            raise Ignore

        top = Supervisor().child("a", not_here, wait_ready=True).child("b", seen.steady("b"))
        await self.stopped(top, seen, lambda: "+b" in seen)
        self.assertEqual(seen, ["ignored", "+b", "-b"])
        with self.assertRaises(GaveUp) as caught:
            await Supervisor().child("a", crash, wait_ready=True).run()
        self.assertEqual(caught.exception.cause, Cause.INIT_FAILED)

    async def test_a_job_that_is_done_ends_its_supervisor(self) -> None:
        seen = Seen()

        async def job() -> None:
            seen.append("job")

        top = Supervisor(auto_shutdown="any_significant")
        top.child("web", seen.steady("web")).child("job", job, restart="transient", significant=True)
        with self.assertRaises(GaveUp) as caught:
            await top.run()
        self.assertEqual(caught.exception.cause, Cause.SIGNIFICANT)
        self.assertEqual(seen, ["+web", "job", "-web"])

    async def test_a_tree_is_refused(self) -> None:
        with self.assertRaisesRegex(TreeRefused, "E3"):
            await Supervisor().child("a", crash).child("a", crash).run()


unittest.main()
