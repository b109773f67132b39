"""A copy of the launcher with a stand-in for the toolchain's `rt`, which proves nothing."""

import contextlib
import os
import pathlib
import shutil
import subprocess
import tempfile
import threading
import time
import unittest

from tests.serving import ROOT

# How long a launcher may run, in seconds.
GENEROUS = 120

# The stand-in: notes its calls, and proves a crate once the folder `proved` beside it has a file of its name.
RT = """#!/usr/bin/env bash
beside=$(dirname "${BASH_SOURCE[0]}")
crate=$(basename "$PWD")
echo "$crate $*" >> "$beside/calls"
case $1 in
    version) echo 'kit of tests' ;;
    try) cat; echo 'magicd: said by the program' >&2; printf 'checked: ended status=3\\nraces: not looked for\\n' >&2
        echo 'run=ended status=3 runners=1 races=unchecked proved=no' >&2; exit 3 ;;
    *) echo "so far: 3 of 9 functions"
        until [ -e "$beside/proved/$crate" ]; do
            [ ! -e "$beside/refused/$crate" ] || { echo "$crate: a goal is left"; exit 1; }
            /bin/sleep 0.02
        done
        if [ "$1" = run ]; then
            mkdir -p out
            printf '#!/usr/bin/env bash\\necho "program: $*"\\ncat\\nexit 5\\n' > out/magicd
            chmod +x out/magicd
        fi ;;
esac
"""

# A minute of the launcher's.
SLEEP = "#!/usr/bin/env bash\nexec /bin/sleep 0.1\n"

def write_program(path, text):
    path.write_text(text)
    path.chmod(0o755)


class LauncherCase(unittest.TestCase):
    def setUp(self):
        folder = tempfile.TemporaryDirectory()
        self.addCleanup(folder.cleanup)
        self.folder = pathlib.Path(folder.name)
        self.top = self.folder / "top"
        # The words that start the launcher as another user.
        self.user = []
        self.top.mkdir()
        shutil.copy(ROOT / "magicd", self.top)
        shutil.copytree(ROOT / "launcher", self.top / "launcher")
        shutil.copy(ROOT / "crates.txt", self.top)
        self.crates = [line.partition(":")[0] for line in (ROOT / "crates.txt").read_text().splitlines()]
        for crate in self.crates:
            source = self.top / "crates" / crate / "src"
            source.mkdir(parents=True)
            (source / ("main.rt" if crate == "magicd" else "lib.rt")).touch()
        self.tools = self.folder / "tools"
        for name in ("proved", "refused"):
            (self.tools / name).mkdir(parents=True)
        write_program(self.tools / "rt", RT)
        write_program(self.tools / "sleep", SLEEP)

    def environment(self, path=None):
        return {**os.environ, "PATH": path or f"{self.tools}:/usr/bin:/bin"}

    def start(self, *words, path=None, **streams):
        streams = {"stdin": subprocess.DEVNULL, "stdout": subprocess.PIPE, "stderr": subprocess.PIPE, **streams}
        command = [*self.user, self.top / "magicd", *words]
        started = subprocess.Popen(command, env=self.environment(path), cwd=self.folder, text=True, **streams)
        # What never comes isn't waited for without an end.
        alarm = threading.Timer(GENEROUS, started.terminate)
        alarm.start()
        self.addCleanup(self.end, started, alarm)
        return started

    def end(self, started, alarm):
        alarm.cancel()
        started.terminate()
        started.communicate()

    def ended(self, *words, script="", **options):
        """Runs the launcher; returns its output, what it said and its status."""
        started = self.start(*words, **{"stdin": subprocess.PIPE, **options})
        output, said = started.communicate(script, timeout=2 * GENEROUS)
        return output, said, started.returncode

    def calls(self):
        with contextlib.suppress(FileNotFoundError):
            return (self.tools / "calls").read_text().splitlines()
        return []

    def prove(self, *crates):
        for crate in crates:
            (self.tools / "proved" / crate).touch()

    def built(self, made_of=None):
        """Makes the program, newer than its sources: a stand-in, or a copy of this one."""
        program = self.top / "crates/magicd/out/magicd"
        program.parent.mkdir()
        if made_of:
            shutil.copy(made_of, program)
        else:
            write_program(program, '#!/usr/bin/env bash\necho "program: $*"\ncat\nexit 5\n')
        later = time.time() + 60
        os.utime(program, (later, later))
