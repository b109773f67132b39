"""What one owner may have, so that there is enough for the others."""

import resource
from dataclasses import dataclass

# How many connections there may be, and how many of one owner where there are several.
CONNECTIONS = 900
CONNECTIONS_EACH = 100

# How many sessions an owner may have, in use and left: where all have one owner, and where there are several.
SESSIONS_OF_ALL = 64
SESSIONS_EACH = 16

# How many connections there may be at the page, and how many of one owner where there are several.
PAGE_CONNECTIONS = 200
PAGE_CONNECTIONS_EACH = 20

# How many files are kept for all else: connections that aren't let in yet, three for each magicd, of which each of 64
# sessions may have its own, and the log.
OTHER_FILES = 300


@dataclass(frozen=True)
class Limits:
    """How many connections there may be, and how many connections and sessions of one owner."""

    connections: int
    connections_each: int
    sessions_each: int

    @classmethod
    def of(cls, words, has_several_owners):
        """Returns the limits that a command line has, and those of its kind where it is silent."""
        connections = words.connections or CONNECTIONS
        each = CONNECTIONS_EACH if has_several_owners else connections
        sessions = SESSIONS_EACH if has_several_owners else SESSIONS_OF_ALL
        return cls(connections, min(words.connections_each or each, connections), words.sessions_each or sessions)


def make_room_for_files(count):
    """Raises this process's limit of open files to so many where it may, and returns what it is then."""
    soft, hard = resource.getrlimit(resource.RLIMIT_NOFILE)
    wanted = count if hard == resource.RLIM_INFINITY else min(count, hard)
    if soft != resource.RLIM_INFINITY and soft < wanted:
        resource.setrlimit(resource.RLIMIT_NOFILE, (wanted, hard))
        return wanted
    return count if soft == resource.RLIM_INFINITY else soft
