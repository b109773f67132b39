"""Cells in the stream format (GDS), which Magic reads by the technology's own rules and writes as cell files."""

import os
import subprocess

from kolasieve.hierarchy import SUFFIX, LayoutFault
from kolasieve.report import tcl_word

# Writes all cells to the folder in which Magic runs, and says which are used by no other.
SCRIPT = """drc off
if {{[catch {{gds read {path}}} fault]}} {{
    puts "fault: $fault"
}} else {{
    foreach cell [cellname list topcells] {{ puts "top: $cell" }}
    writeall force
}}
quit -noprompt
"""


def cell_of(technology, path, cell, folder):
    """Has Magic write the cells of a stream file to a folder; returns the file of one, the only top cell by default."""
    if not os.path.isfile(path):
        raise LayoutFault(f"{path}: there is no such file")
    command = ["magic", "-dnull", "-noconsole", "-rcfile", "/dev/null", "-T", technology]
    script = SCRIPT.format(path=tcl_word(os.path.abspath(path)))
    texts = {"text": True, "errors": "replace"}
    try:
        ran = subprocess.run(command, input=script, cwd=folder, capture_output=True, check=False, **texts)
    except FileNotFoundError:
        raise LayoutFault(f"{path}: Magic reads such files, and isn't installed") from None
    said = [line.partition(": ") for line in ran.stdout.splitlines()]
    tops = [value for word, _, value in said if word == "top" and os.path.isfile(os.path.join(folder, value + SUFFIX))]
    if cell is None and not tops:
        raise LayoutFault(f"{path}: Magic reads no cell of it")
    if cell is None and len(tops) > 1:
        raise LayoutFault(f"{path}: its top cells are {', '.join(tops)}: say which by --cell")
    found = os.path.join(folder, (cell or tops[0]) + SUFFIX)
    if not os.path.isfile(found):
        raise LayoutFault(f"{path}: there is no cell {cell}")
    return found
