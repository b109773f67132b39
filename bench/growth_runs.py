"""Runs of a program in which growths of memory are refused, by bench/refuse.c."""
import struct
import subprocess

LIMIT = 20


class Failed(Exception):
    """A run that ended as it may not."""


class Run:
    """One run of a program: what it wrote, how it ended, and how many growths it asked for and was refused."""

    def __init__(self, words, given, folder, at=0, on=False, window=False):
        report = f"{folder}/report"
        with open(report, "wb") as it:
            it.write(bytes(16))
        names = {"LD_PRELOAD": f"{folder}/refuse.so", "REFUSE_REPORT": report, "REFUSE_AT": str(at)}
        names |= {"REFUSE_ON": "1"} if on else {}
        names |= {"REFUSE_WINDOW": "1"} if window else {}
        try:
            how = {"capture_output": True, "timeout": LIMIT, "env": {"PATH": "/usr/bin:/bin", **names}}
            ran = subprocess.run(words, input=given, **how)
        except subprocess.TimeoutExpired:
            raise Failed(f"it had not ended after {LIMIT} seconds") from None
        if ran.returncode < 0:
            raise Failed(f"it was stopped by signal {-ran.returncode}")
        self.status, self.out, self.messages = ran.returncode, ran.stdout, ran.stderr.decode()
        with open(report, "rb") as it:
            self.growths, self.refused = struct.unpack("=qq", it.read())
