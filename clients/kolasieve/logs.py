"""Which form of log is meant: a file, or etcd."""

import os
import re

from kolasieve.log import LogFault
from kolasieve.sqlite_log import SqliteLog, SqliteReader

ETCD = re.compile(r"etcd://([^/,]+:[0-9]+(?:,[^/,]+:[0-9]+)*)(?:/([A-Za-z0-9_]+))?\Z")

# How keys begin where no name is given.
PREFIX = "kolasieve"


def is_file(where):
    """Returns whether a log is a file, or logs are files in a folder."""
    return not where.startswith("etcd://")


def log_of_part(where, part):
    """Returns where the log of one of several parts is: in a folder, or in the same etcd under another name."""
    if is_file(where):
        return os.path.join(where, f"{part}.log")
    addresses, name = parsed(where)
    return f"etcd://{addresses}/{name}_{part}"


def parsed(where):
    """Returns the addresses of an etcd, and the name of the log there."""
    found = ETCD.match(where)
    if found is None:
        raise LogFault(f"{where}: a log is FILE or etcd://HOST:PORT,HOST:PORT,..")
    return found[1], found[2] or PREFIX


async def open_log(where, wanted=None, tls=None, place=None, to_read=False):
    """Opens the log at FILE or etcd://HOST:PORT,..[/NAME] that agrees with what is wanted, or one that is there."""
    if is_file(where):
        return SqliteReader(where) if to_read else SqliteLog(where, wanted)
    addresses, name = parsed(where)
    try:
        from kolasieve.etcd import credentials
        from kolasieve.etcd_log import EtcdLog
    except ImportError as fault:
        raise LogFault(f"{where}: {fault.name} is missing; it is of Debian's python3-etcd3") from None
    secured = credentials(*tls) if tls else None
    return await EtcdLog.start(addresses.split(","), secured, wanted, place, name)
