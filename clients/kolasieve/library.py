"""What each magicd of a relay is started with; with a log, the very bytes of files that the first one got."""

import asyncio
import logging
import os
import pathlib
import re
import stat
import tempfile
from dataclasses import replace

from kolasieve.log import LogFault, Unavailable
from kolasieve.options import GROWING, digest, read, under

log = logging.getLogger("relay")

# How many cells there may be: magicd takes 64, and a checkpoint needs one.
MOST_CELLS = 63

# The greatest pool, and how many planes of tiles a cell has at most.
MOST_POOL = 8388608
MOST_PLANES = 4

CELL_NAME = re.compile(rb"[A-Za-z0-9_.$-]{1,64}\Z")

# What magicd says of a cell that it refuses.
REFUSAL = re.compile(r"magicd: cell \S+ (line .*)")

# How large a cell's file may be, in bytes.
LONGEST_CELL = 16 << 20


class Unloaded(Exception):
    """A cell isn't loaded; the text says why."""


class Library:
    """The command that starts a magicd, with the cells that there are now."""

    def __init__(self, server, options, log=None):
        self.server = server
        self.options = options
        self.log = log
        self.loading = asyncio.Lock()
        self.folder = None
        # The hash of each cell's text by its name, where there is a log.
        self.cells = dict.fromkeys(options.cells)
        # Under which options the log was begun.
        self.begun = ""

    @classmethod
    async def of(cls, server, wanted, log):
        """Returns the library of a log that agrees with what is wanted: it has all files, or gets them now."""
        library = cls(server, wanted.options, log)
        library.begun = wanted.has["begun"]
        library.folder = tempfile.TemporaryDirectory(prefix="kolasieve-")
        await library.take_technology(wanted)
        await library.take_cells(wanted.options.cells)
        return library

    async def take_technology(self, wanted):
        path = wanted.options.technology
        if path is None:
            return
        has = wanted.has["technology"]
        if wanted.edited:
            log.warning("%s was edited: until a new log is begun, the one counts with which the log was begun", path)
        text = await self.log.text(has)
        if text is None:
            text = read(path)
            if digest(text) != has:
                raise LogFault(f"the log has lost its copy of {path}, which was edited")
            await self.log.keep_text(text)
        self.options = replace(self.options, technology=self.copy(has, text))

    async def take_cells(self, given):
        self.cells = await self.log.cells()
        for name, path in given.items():
            text = read(path)
            if name not in self.cells:
                await self.add(name, text)
            elif digest(text) != self.cells[name]:
                log.warning("%s was edited: the cell %s stays as it is in the log", path, name)
        for hash in self.cells.values():
            await self.copy_of(hash)
        self.say_under()

    async def add(self, name, text):
        """Keeps a new cell in the log."""
        await self.log.add_cell(len(self.cells), name, await self.log.keep_text(text))
        self.cells[name] = digest(text)
        self.copy(digest(text), text)
        self.say_under()

    async def load(self, name, path):
        """Loads a cell from a file for all sessions, once a magicd has read it. Fails where it can't be."""
        async with self.loading:
            await self.read_cells()
            if CELL_NAME.match(name) is None:
                raise Unloaded("a name has letters, digits, _, -, . and $, 64 at most")
            name = name.decode()
            if name in self.cells:
                raise Unloaded("name twice")
            if len(self.cells) >= MOST_CELLS:
                raise Unloaded(f"library full: {MOST_CELLS} cells")
            text = read_cell(path)
            await self.try_out(name, text)
            try:
                await self.add(name, text)
            except Unavailable as fault:
                raise Unloaded(str(fault)) from None

    async def try_out(self, name, text):
        """Has a magicd read a cell, and fails with what it says where it refuses it."""
        path = self.copy(f"tried_{digest(text)}", text)
        trial = await asyncio.create_subprocess_exec(
            *self.command({name: path}),
            stdin=asyncio.subprocess.DEVNULL,
            stdout=asyncio.subprocess.DEVNULL,
            stderr=asyncio.subprocess.PIPE,
            start_new_session=True,
        )
        said = (await trial.communicate())[1].decode("utf-8", "replace").strip()
        pathlib.Path(path).unlink()
        if trial.returncode != 0:
            found = REFUSAL.search(said)
            raise Unloaded(found[1] if found else said.rpartition("\n")[2] or "magicd has ended")

    def say_under(self):
        self.log.under = under({name: self.options.numbers[name] for name in GROWING}, len(self.cells))

    def has(self, cell):
        """Returns whether there is a cell of this name, as a line has it."""
        return cell.decode("latin-1") in self.cells

    async def guarded(self, line, program):
        """Returns a line as a session in this magicd is to send it: only cells that all know of are named.

        Returns nothing where the line names a cell that the magicd hasn't got yet.
        """
        if self.may_send(line, program):
            return line
        if not self.has(line.cell):
            await self.read_cells()
        if not self.has(line.cell):
            return line.without_cell()
        return line if self.may_send(line, program) else None

    def may_send(self, line, program):
        """Returns whether a session in this magicd may send a line as it is."""
        return self.log is None or line.cell is None or (self.has(line.cell) and line.cell.decode() in program.cells)

    async def read_cells(self):
        """Reads from the log which cells there are: another relay may have loaded some."""
        if self.log is None:
            return
        for name, hash in (await self.log.cells()).items():
            if name not in self.cells:
                await self.copy_of(hash)
                self.cells[name] = hash
                self.say_under()

    # ---- files

    def copy(self, name, text):
        """Writes a text for magicd to read, and returns where."""
        path = pathlib.Path(self.folder.name) / name
        try:
            path.write_bytes(text)
        except OSError as fault:
            raise LogFault(f"{path}: {fault.strerror}") from None
        return str(path)

    async def copy_of(self, hash):
        """Has a copy of a text of the log."""
        text = await self.log.text(hash)
        if text is None:
            raise LogFault(f"the log has lost the text {hash}")
        return self.copy(hash, text)

    # ---- starting a magicd

    @property
    def journal(self):
        return self.options.numbers["journal"]

    def paths(self):
        """Returns where each cell's file is, by its name."""
        if self.log is None:
            return self.options.cells
        return {name: str(pathlib.Path(self.folder.name) / hash) for name, hash in self.cells.items()}

    def command(self, others=None):
        """Returns the command that starts a magicd with all cells, and others by the paths of their files."""
        if self.log is None:
            return self.options.command(self.server)
        others = others or {}
        numbers = dict(self.options.numbers)
        # A checkpoint has as many tiles as a session may.
        numbers["cell-tiles"] = max(numbers["cell-tiles"], numbers["quota"])
        more = len(self.cells) + len(others) - len(self.options.cells)
        numbers["pool"] = min(numbers["pool"] + more * MOST_PLANES * numbers["cell-tiles"], MOST_POOL)
        return replace(self.options, numbers=numbers, cells=self.paths() | others).command(self.server)

    def end(self):
        if self.folder is not None:
            self.folder.cleanup()


def read_cell(path):
    """Returns the text of a cell's file. It must be one that can be read without waiting."""
    try:
        with os.fdopen(os.open(path, os.O_RDONLY | os.O_NONBLOCK), "rb") as file:
            if not stat.S_ISREG(os.fstat(file.fileno()).st_mode):
                raise Unloaded(f"{os.fsdecode(path)}: it is no file")
            text = file.read(LONGEST_CELL + 1)
    except OSError as fault:
        raise Unloaded(f"{os.fsdecode(path)}: {fault.strerror}") from None
    if len(text) > LONGEST_CELL:
        raise Unloaded(f"{os.fsdecode(path)}: it has more than {LONGEST_CELL} bytes")
    return text
