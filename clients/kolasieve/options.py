"""The options of a relay's magicd, and what of them a log keeps."""

import hashlib
import json
import os
import pathlib
from dataclasses import dataclass, field

from kolasieve.log import LogFault

# How many threads check beside the sessions of a magicd: one less than there are processors, so that one is free for lines.
WORKERS = min(max(len(os.sched_getaffinity(0)) - 1, 1), 16)

# What magicd takes where its command line doesn't say.
DEFAULTS = {"quota": 1024, "journal": 4096, "cell-tiles": 4096, "pool": 262144, "workers": WORKERS}

# Greater ones change no reply that was `ok`: a log goes on with them.
GROWING = ("quota", "journal")


@dataclass
class Options:
    """What magicd's words say."""

    technology: str = None
    numbers: dict = field(default_factory=lambda: dict(DEFAULTS))
    # The file of each cell, by its name.
    cells: dict = field(default_factory=dict)
    # Words that magicd would refuse: it is to say so.
    others: list = field(default_factory=list)

    @classmethod
    def of(cls, words):
        options = cls()
        words = list(words)
        are_cells = False
        while words:
            word = words.pop(0)
            name, equals, value = word.partition("=")
            if are_cells or not word.startswith("-"):
                if equals:
                    options.cells[name] = value
                else:
                    options.others.append(word)
            elif word == "--":
                are_cells = True
            elif word != "--live":
                value = value if equals else words.pop(0) if words else ""
                options.take(name, value, word)
        return options

    def take(self, name, value, word):
        if name == "--tech":
            self.technology = value
        elif name[2:] in DEFAULTS and value.isascii() and value.isdigit():
            self.numbers[name[2:]] = int(value)
        else:
            self.others += [word] if "=" in word or not value else [name, value]

    def command(self, server):
        """Returns the command that starts magicd with these options: it replies to each line as it comes."""
        command = [server, "--live"]
        for name, number in self.numbers.items():
            if name == "workers" or number != DEFAULTS[name]:
                command += [f"--{name}", str(number)]
        if self.technology is not None:
            command += ["--tech", self.technology]
        cells = [f"{name}={path}" for name, path in self.cells.items()]
        return command + self.others + (["--", *cells] if cells else [])


def digest(text):
    return hashlib.sha256(text).hexdigest()


def read(path):
    try:
        return pathlib.Path(path).read_bytes()
    except OSError as fault:
        raise LogFault(f"{path}: {fault.strerror}") from None


class Wanted:
    """What a log is to agree with: the options that a relay is started with."""

    def __init__(self, options):
        self.options = options
        self.technology = None if options.technology is None else digest(read(options.technology))
        # What the log has, once it agrees; and whether its technology was edited since it was begun.
        self.has = None
        self.edited = False

    def agree(self, found):
        """Returns what the log has from now on of options, where it has what was found or nothing.

        Fails where it is of other options. Those that only grow may.
        """
        wanted = {
            "technology": self.technology,
            "file": self.options.technology and os.path.abspath(self.options.technology),
            "others": self.options.others,
            **{name: self.options.numbers[name] for name in GROWING},
        }
        if found is None:
            self.has = wanted | {"begun": under(wanted, len(self.options.cells))}
            return json.dumps(self.has)
        has = json.loads(found) if found.startswith("{") else self.taken_over(found)
        if has["technology"] != wanted["technology"]:
            if wanted["file"] is None or has["file"] != wanted["file"]:
                raise LogFault(f"it is of a server with other options: {says(has)}")
            self.edited = True
        if has["others"] != wanted["others"] or any(has[name] > wanted[name] for name in GROWING):
            raise LogFault(f"it is of a server with other options: {says(has)}")
        self.has = has | {name: wanted[name] for name in GROWING}
        return json.dumps(self.has)

    def taken_over(self, found):
        """Returns what a log of before it had copies of files says: their hashes stand in magicd's words.

        Fails where its cells aren't those that are given now.
        """
        # A technology's hash stood behind its option in either form, with or without a blank.
        of_log = Options.of(found.replace("--tech file=", "--tech=").split())
        given = {name: f"sha256:{digest(read(path))}" for name, path in self.options.cells.items()}
        if any(given.get(name) != then for name, then in of_log.cells.items()):
            raise LogFault(f"it is of a server with other options: {found}")
        has = {
            "technology": of_log.technology and of_log.technology.removeprefix("sha256:"),
            "file": self.options.technology and os.path.abspath(self.options.technology),
            "others": of_log.others,
            **{name: of_log.numbers[name] for name in GROWING},
        }
        return has | {"begun": under(has, len(of_log.cells))}


@dataclass
class Same:
    """What the log of a copy is to agree with: the very options of another."""

    options: str

    def agree(self, found):
        if found not in (None, self.options):
            raise LogFault(f"it is of a server with other options: {found}")
        return self.options


def says(has):
    """Returns what a log has of options as the words of a command line."""
    words = [f"--{name} {has[name]}" for name in GROWING]
    if has["technology"] is not None:
        words.append(f"--tech {has['file']} (sha256 {has['technology']})")
    return " ".join([*words, *has["others"]])


def under(has, cells):
    """Returns under which options and how many cells a session was opened: under others some replies may differ."""
    return " ".join([*(f"{name} {has[name]}" for name in GROWING), f"cells {cells}"])
