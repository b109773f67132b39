"""A folder for files that are needed as long as a check lasts."""

import contextlib
import os


@contextlib.contextmanager
def scratch_folder():
    """Makes a folder that nobody else can read, and removes it."""
    for number in range(1 << 20):
        path = os.path.join(os.environ.get("TMPDIR") or "/tmp", f"kolasieve-{os.getpid()}-{number}")
        with contextlib.suppress(FileExistsError):
            os.mkdir(path, 0o700)
            break
    try:
        yield path
    finally:
        for name in os.listdir(path):
            os.unlink(os.path.join(path, name))
        os.rmdir(path)
