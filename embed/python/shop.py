"""A small web service under supervision: a counter, a pool of two workers that gives up when they crash too often, and a server.

    python3 shop.py 8080       then: curl localhost:8080/work ; curl localhost:8080/crash
    python3 shop.py --tour     asks itself, prints what comes, and stops

What stays when a child crashes is what isn't its own: here the queue of orders.
"""

from __future__ import annotations

import asyncio
import logging
import sys
from typing import Any, List

from otp_supervision import GaveUp, Supervisor, ready

orders: asyncio.Queue[Any]
port: List[int] = []


async def worker(name: str) -> None:
    """Does one order after another. A crash loses the one in hand, and says so to who waits."""
    while True:
        what, answer = await orders.get()
        if what == "crash":
            answer.set_result(f"{name} crashes")
            raise RuntimeError("a bad order")
        answer.set_result(f"{name} did {what}")


async def serve(reader: asyncio.StreamReader, writer: asyncio.StreamWriter) -> None:
    """One request of HTTP, whose path is the order."""
    words = (await reader.readline()).split()
    answer = asyncio.get_running_loop().create_future()
    await orders.put((words[1].decode().strip("/") if len(words) > 1 else "", answer))
    text = str(await answer) + "\n"
    writer.write(f"HTTP/1.0 200 OK\r\ncontent-length: {len(text)}\r\n\r\n{text}".encode())
    await writer.drain()
    writer.close()


async def web(wanted: int) -> None:
    async with await asyncio.start_server(serve, "127.0.0.1", wanted) as server:
        port[:] = [server.sockets[0].getsockname()[1]]
        ready()
        await server.serve_forever()


def shop(wanted: int) -> Supervisor:
    top = Supervisor(intensity=2, period=60)
    pool = top.supervisor("pool", strategy="one_for_all", intensity=1, period=60)
    for name in ("a", "b"):
        pool.child(name, worker, name)
    top.child("web", web, wanted, wait_ready=True, shutdown=1)
    return top


async def ask(what: str) -> str:
    reader, writer = await asyncio.open_connection("127.0.0.1", port[0])
    writer.write(f"GET /{what} HTTP/1.0\r\n\r\n".encode())
    text = (await reader.read()).decode().splitlines()[-1]
    writer.close()
    return text


async def tour(task: asyncio.Task[Any]) -> None:
    """The pool bears one crash in a minute: at the second it gives up, and is started anew; the third time is one too many
    for the root, too."""
    while not port:
        await asyncio.sleep(0.01)
    for what in ("tea", "crash", "cake"):
        print((await ask(what))[2:])
    while not task.done():
        try:
            await asyncio.wait_for(ask("crash"), 10)
        except (OSError, asyncio.TimeoutError, IndexError):
            break


async def main(words: List[str]) -> None:
    global orders
    orders = asyncio.Queue()
    is_tour = words == ["--tour"]
    task = asyncio.create_task(shop(0 if is_tour or not words else int(words[0])).run())
    if is_tour:
        await tour(task)
    try:
        await task
    except GaveUp as why:
        print(f"the shop gave up: {why}")


logging.basicConfig(level=logging.CRITICAL if sys.argv[1:] == ["--tour"] else logging.INFO, format="%(message)s")
asyncio.run(main(sys.argv[1:]))
