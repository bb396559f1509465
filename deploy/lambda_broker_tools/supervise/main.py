"""Reads the words, and supervises."""
from __future__ import annotations

import asyncio
import sys

from .broker import Broker
from .lines import Line
from .manager import Manager
from .supervisor import Supervisor
from .words import Words, words_of


async def supervise(words: Words, manager: Manager) -> None:
    broker = Broker(words.broker)
    server = await asyncio.get_running_loop().create_server(lambda: Line(broker.serve), "127.0.0.1", words.listen)
    await Supervisor(broker, words, server.sockets[0].getsockname()[1], manager).run()
    server.close()


def main(doc: str | None) -> None:
    words = words_of(doc or "", sys.argv)
    asyncio.run(supervise(words, Manager()))
