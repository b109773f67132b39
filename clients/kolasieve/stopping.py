"""Ctrl-C, SIGTERM, or the end of input: the relay ends soon, whatever waits.

All that was replied to is in the log, if there is one.
"""

import asyncio
import os
import signal
import threading

from kolasieve.program import Program

# How long sessions are left and each magicd ends, in seconds, and when the relay ends at the latest.
ORDERLY = 1.2
LATEST = 1.8


def when_asked():
    """Returns a future that has a result once the relay is to end. From then on a thread sees to it that it does."""
    loop = asyncio.get_running_loop()
    asked = loop.create_future()

    def ask(number, frame):
        loop.call_soon_threadsafe(lambda: asked.done() or asked.set_result(None))
        latest = threading.Timer(LATEST, end_at_once)
        latest.daemon = True
        latest.start()

    for name in (signal.SIGINT, signal.SIGTERM):
        signal.signal(name, ask)
    return asked


def ask_at_the_end_of_input():
    """Asks for the end, as SIGTERM does, once standard input ends: so it does with who holds its other end."""

    def watch():
        while os.read(0, 4096):
            pass
        os.kill(os.getpid(), signal.SIGTERM)

    threading.Thread(target=watch, daemon=True).start()


async def in_order(ending):
    """Waits for what ends the relay in order, but not for long."""
    try:
        async with asyncio.timeout(ORDERLY):
            await ending
    except TimeoutError:
        end_at_once()


def end_at_once():
    """Ends each magicd and this process."""
    Program.kill_all()
    os.write(2, b"relay: ended before all that waits has a reply\n")
    os._exit(0)
