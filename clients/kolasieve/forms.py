"""What the folder of a compiled process has, as those write it who compile, and those read it who check."""

import hashlib

# The number of this form of groups.json.
FORM = 1

FILE = "groups.json"
REPORT = "report.md"

# The greatest distance of a rule.
LONGEST = 100

# On which side a rule errs that isn't said exactly.
MORE = "more"
LESS = "less"
CLIENT = "client"
CELLS = "cells"


def digest(text):
    """Returns what stands for the text of a group's file."""
    return hashlib.sha256(text.encode()).hexdigest()
