"""Whose sessions an owner may see: his own, and those that others share with him."""

import re

# In place of users.
ALL = "all"
NOBODY = "none"

USERS = re.compile(rb"[^,]+(,[^,]+)*\Z")


class Unshown(Exception):
    """A session can't be shown; the text says why."""


class Shares:
    """With whom sessions are shared, until they are closed or the relay ends."""

    def __init__(self):
        self.users = {}

    def share(self, key, users):
        """Has these users see a session from now on, with commas, and nobody else."""
        self.users[key] = set(users.split(","))

    def forget(self, key):
        self.users.pop(key, None)

    def may_see(self, owner, key):
        """Returns whether an owner may see a session. No owner is who may see all."""
        users = self.users.get(key, ())
        return owner in (None, key[0]) or NOBODY not in users and (ALL in users or not names_of(owner).isdisjoint(users))

    def find(self, owner, word, keys):
        """Returns which of these sessions an owner means by NAME or OWNER/NAME.

        Raises Unshown where he may see none, or several and none is his own.
        """
        of, _, name = word.rpartition("/")
        found = [key for key in keys if key[1].decode() == name and of in ("", key[0]) and self.may_see(owner, key)]
        own = [key for key in found if key[0] == owner]
        if len(own or found) != 1:
            raise Unshown("several owners have one: say OWNER/NAME" if found else "no such session")
        return (own or found)[0]


def names_of(owner):
    """Returns by which names an owner is meant: whole, and without the machine or the word before the name of a certificate."""
    return {owner, owner.removeprefix("cert:"), owner.rpartition("@")[0] or owner}
