"""Work done by several processes, which end when the one that started them does."""

import os
import signal

from kolasieve.faults import Fault
from kolasieve.script import Run

# How many items wait for each process.
AHEAD = 2


# What this process does for the one that has forked it.
doing = None


class PoolFault(Fault):
    """A process of the pool was killed."""


def results(work, items, jobs):
    """Yields what a function returns for each item, in any order, from as many processes at most.

    They are forked, so what the function knows isn't sent; an item and what is returned for it are.
    """
    items = iter(items)
    if jobs == 1:
        yield from map(work, items)
        return
    # They take longer to import than a small layout to check.
    import multiprocessing
    from concurrent.futures import FIRST_COMPLETED, ProcessPoolExecutor, wait
    from concurrent.futures.process import BrokenProcessPool

    ours, theirs = os.pipe()
    executor = ProcessPoolExecutor(jobs, multiprocessing.get_context("fork"), follow, (work, ours, theirs))
    try:
        running = set()
        while True:
            for item in items:
                running.add(executor.submit(do, item))
                if len(running) >= AHEAD * jobs:
                    break
            if not running:
                return
            done, running = wait(running, return_when=FIRST_COMPLETED)
            for each in done:
                yield each.result()
    except BrokenProcessPool:
        raise PoolFault("a process of the check was killed") from None
    finally:
        os.close(theirs)
        executor.shutdown(cancel_futures=True)
        os.close(ours)


def follow(work, ours, theirs):
    """Has a new process do this work, until the one that has forked it closes its end of a pipe, or ends."""
    import threading

    global doing
    doing = work
    signal.signal(signal.SIGINT, signal.SIG_IGN)
    signal.signal(signal.SIGTERM, signal.SIG_DFL)
    os.close(theirs)
    threading.Thread(target=wait_for_end, args=(ours,), daemon=True).start()


def wait_for_end(pipe):
    os.read(pipe, 1)
    Run.kill_all()
    os._exit(1)


def do(item):
    return doing(item)
