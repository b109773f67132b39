"""A magicd that carries a script out to its end: what it is told, and what it has replied, are files."""

import os
import signal

# How a file for its output is opened.
NEW = os.O_WRONLY | os.O_CREAT | os.O_TRUNC


class Run:
    """A run of magicd."""

    # All that haven't ended.
    running = set()

    def __init__(self, command, script, path):
        """Starts one in a process group of its own, so that Ctrl-C leaves it to this process.

        Its files' names begin with a path.
        """
        self.files = [f"{path}.{word}" for word in ("script", "replies", "said")]
        with open(self.files[0], "w", encoding="ascii") as file:
            file.write(script)
        modes = (os.O_RDONLY, NEW, NEW)
        actions = [(os.POSIX_SPAWN_OPEN, number, path, modes[number], 0o600) for number, path in enumerate(self.files)]
        self.number = os.posix_spawnp(command[0], command, os.environ, file_actions=actions, setpgroup=0)
        self.status = None
        self.running.add(self)

    def wait(self):
        """Waits for its end; returns how it has ended, its replies, and the last that it has said beside them."""
        self.status = os.waitstatus_to_exitcode(os.waitpid(self.number, 0)[1])
        self.running.discard(self)
        texts = []
        for path in self.files[1:]:
            with open(path, "rb") as file:
                texts.append(file.read())
        said = texts[1].decode("utf-8", "replace").strip().rpartition("\n")[2]
        if self.status < 0:
            said = f"magicd was killed by signal {-self.status}"
        return self.status, texts[0], said or f"magicd ended with status {self.status}"

    def end(self):
        """Ends it, where it hasn't ended, and removes its files."""
        if self.status is None:
            self.kill()
            self.wait()
        for path in self.files:
            os.unlink(path)

    def kill(self):
        """Kills it and all that it has started."""
        try:
            os.killpg(self.number, signal.SIGKILL)
        except ProcessLookupError:
            pass

    @classmethod
    def kill_all(cls):
        for each in list(cls.running):
            each.kill()


def side_by_side(works, most):
    """Carries generators out, so many at a time, which yield where they wait; returns what they return, in turn."""
    waiting, going, found = list(enumerate(works))[::-1], [], {}
    try:
        while waiting or going:
            while waiting and len(going) < most:
                going.append(waiting.pop())
                go_on(going, -1, found)
            if going:
                go_on(going, 0, found)
    finally:
        for _, work in going:
            work.close()
    return [found[number] for number in sorted(found)]


def go_on(going, place, found):
    """Goes on with one of the generators under way, which is the last of them afterwards, unless it has ended."""
    number, work = going.pop(place)
    try:
        next(work)
        going.append((number, work))
    except StopIteration as end:
        found[number] = end.value
