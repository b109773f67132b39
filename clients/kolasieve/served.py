"""The address file of a served process: where a relay for each group listens, and the token of all of them."""

import json
import os
import pathlib
from dataclasses import asdict, dataclass

from kolasieve.addresses import parse
from kolasieve.forms import digest
from kolasieve.process import Process, ProcessFault
from kolasieve.report import replaced

# The form of an address file.
FORM = 1


class ServedFault(Exception):
    """There is no such address file, or it is of another process; the text says which."""


def digests_of(process):
    """Returns the hash of each group's technology file."""
    return [digest(group.text) for group in process.groups]


@dataclass(frozen=True)
class Served:
    """A served process: its folder, the hashes of its groups' files, and HOST:PORT of each group's relay.

    Lambda is `grid` squares wide. The token's file is none where the relays want certificates.
    """

    folder: str
    digests: list
    grid: int
    addresses: list
    token: str = None

    def write(self, path):
        """Writes the address file."""
        with replaced(path) as file:
            json.dump({"form": FORM, **asdict(self)}, file, indent=1)
            file.write("\n")

    @classmethod
    def read(cls, path):
        """Returns what an address file says."""
        try:
            document = json.loads(pathlib.Path(path).read_text(encoding="utf-8"))
            if document.pop("form") != FORM:
                raise ServedFault(f"{path}: another version has written it")
            served = cls(**document)
            for address in served.addresses:
                parse(address)
            return served
        except OSError as fault:
            raise ServedFault(f"{path}: {fault.strerror}") from None
        except (ValueError, LookupError, TypeError, AttributeError):
            raise ServedFault(f"{path}: it is no address file") from None

    def process(self, folder=None):
        """Returns the process as it lies in a folder, by default in that of the relays."""
        try:
            process = Process.load(folder or self.folder)
        except ProcessFault as fault:
            raise ServedFault(str(fault)) from None
        if digests_of(process) != self.digests:
            raise ServedFault(f"{folder or self.folder}: the server has another process, or another compilation of it")
        return process

    def read_token(self):
        """Returns the token that is in its file now, or nothing: a relay that was started again may have another one."""
        if self.token is None:
            return None
        try:
            return pathlib.Path(os.path.expanduser(self.token)).read_bytes().strip()
        except OSError as fault:
            raise ServedFault(f"{self.token}: {fault.strerror}") from None
