"""The token of a port: a line in a file that nobody but its user may read."""

import errno
import os
import pathlib
import re
import secrets
import stat

from kolasieve.faults import Fault

TOKEN = re.compile(r"[A-Za-z0-9_-]{16,200}\n?\Z")


class TokenFault(Fault):
    """There is no such file, nor can there be one; the text says why."""


def token_at(path, is_new):
    """Returns the token of a file, or a new one where there is no file yet, or where a new one is wanted."""
    try:
        if is_new:
            pathlib.Path(path).unlink(missing_ok=True)
        try:
            return kept(path)
        except FileNotFoundError:
            return made(path)
    except OSError as fault:
        if fault.errno == errno.ELOOP:
            raise unkept(path, "it is a symbolic link") from None
        raise TokenFault(f"{path}: {fault.strerror}") from None


def kept(path):
    """Returns the token of a file that nobody else can have read or written."""
    with os.fdopen(os.open(path, os.O_RDONLY | os.O_NOFOLLOW | os.O_NONBLOCK)) as file:
        found = os.fstat(file.fileno())
        if not stat.S_ISREG(found.st_mode):
            raise unkept(path, "it is no file")
        if found.st_uid != os.getuid():
            raise unkept(path, "it is another user's")
        if found.st_mode & 0o077:
            raise unkept(path, f"others may have read it, its mode is {stat.S_IMODE(found.st_mode):o}")
        text = file.read(1000)
    if not TOKEN.match(text):
        raise unkept(path, "it has no token")
    return text.strip()


def made(path):
    token = secrets.token_urlsafe(24)
    with os.fdopen(os.open(path, os.O_WRONLY | os.O_CREAT | os.O_EXCL, 0o600), "w") as file:
        file.write(token + "\n")
    return token


def unkept(path, why):
    return TokenFault(f"{path}: {why}; --new-token makes another token in its place")
