"""What the relay says: a line with its time and its level for each message; one that comes again is counted."""

import asyncio
import logging
import sys

log = logging.getLogger("relay")

# For how long a message that comes again is only counted, in seconds.
PERIOD = 60

# How many different messages are counted at a time.
MOST = 100

# What is said where there are more of them.
FURTHER = "further warnings are left out"

# How often each message came again since it was said last.
again = {}


def begin():
    """Has messages go to standard error from now on."""
    logging.basicConfig(
        level=logging.INFO,
        format="%(asctime)s %(levelname)s %(name)s: %(message)s",
        datefmt="%Y-%m-%d %H:%M:%S",
        stream=sys.stderr,
    )


def warn(text):
    """Says what may happen a thousand times a second: at once, and then once a period how often it came again."""
    if text in again:
        again[text] += 1
    elif len(again) > MOST:
        warn(FURTHER)
    else:
        log.warning("%s", text)
        again[text] = 0
        asyncio.get_running_loop().call_later(PERIOD, sum_up, text)


def sum_up(text):
    count = again.pop(text, 0)
    if count > 0:
        log.warning("%s: %d times more", text, count)
        again[text] = 0
        asyncio.get_running_loop().call_later(PERIOD, sum_up, text)


def sum_up_all():
    """Says how often each message came again, at the end."""
    for text in list(again):
        sum_up(text)


def on_fault(loop, context):
    """Says in one line what no task has caught."""
    fault = context.get("exception")
    warn(f"{context['message']}: {fault!r}" if fault is not None else context["message"])
