"""What stands in the blocks of the pages that are set off, and which test runs each command there."""

import inspect
import pathlib
import re
import textwrap

ROOT = pathlib.Path(__file__).resolve().parent.parent

COMMANDS, MAGIC = "clients/tests/test_commands.py", "clients/tests/test_pages_in_magic.py"
DOCUMENTS, PAGES = "tests/test_documents.py", "tests/test_pages.py"

# The commands of each page, by how they begin, and the test that takes them from there and runs them.
RUN = [
    ("README.md", r"\./magicd .*examples/", DOCUMENTS, "test_of_the_readme"),
    ("README.md", r"mkfifo |\./magicd --live |exec 3>|echo |tail ", DOCUMENTS, "test_pipe"),
    ("README.md", r"clients/(relay|talk) ", COMMANDS, "test_relay_and_talk"),
    ("README.md", r"clients/process ", COMMANDS, "test_process"),
    ("docs/CLIENTS.md", r"clients/relay .*\[", COMMANDS, "test_forms_of_commands"),
    ("docs/CLIENTS.md", r"(clients/relay --listen 127|clients/(talk|view) |sqlite3 )", COMMANDS, "test_a_day"),
    ("docs/CLIENTS.md", r"clients/process |source |kolasieve ", MAGIC, "test_what_is_typed_in_magic"),
    ("docs/CLUSTER.md", r"", "clients/tests/test_cluster.py", "test_what_is_typed"),
    ("docs/OPERATING.md", r"awk ", DOCUMENTS, "test_saved_text"),
    ("docs/OPERATING.md", r"magic ", MAGIC, "test_saved_text_in_a_window"),
    ("docs/OPERATING.md", r"echo 'load ", COMMANDS, "test_saved_text_in_magic"),
    ("docs/PROCESS.md", r"clients/process .* TECH ", COMMANDS, "test_forms_of_commands"),
    ("docs/PROCESS.md", r"clients/process .*scmos", COMMANDS, "test_check_of_a_cell"),
    ("docs/PROCESS.md", r"examples/routed\.sh ", "clients/tests/test_routed.py", "test_from_a_text_in_verilog"),
    ("docs/TUTORIAL.md", r"", "clients/tests/test_tutorial.py", "test_a_day"),
    ("tests/README.md", r"magicd ", PAGES, "test_example"),
]

# Those that no test runs, and why.
NOT_RUN = [
    ("docs/GATE.md", r"bench/growths\.sh", "needs a program that `rt ci` leaves; the gate runs it with --short"),
    ("docs/GATE.md", r"tests/bodies ", "needs rt, and hours"),
    ("CONTRIBUTING.md", r"cd crates/|rt |cd \.\./mls_plane_tests && rt ", "needs rt"),
    ("clients/tests/README.md", r"clients/tests/run", "runs the tests themselves"),
    ("clients/tests/README.md", r"cd clients && .* tests\.long", "takes hours"),
]

# A line that is a command though no `$` stands before it, since its first word is a program's.
PLACES, NAMES = "clients|bench|tests|launcher|crates", "cd|rt|sqlite3|magicd?|source|kolasieve|python3|make|sudo|apt"
PROGRAM = rf"(?:{PLACES}|\.)/\S+(?: |$)|(?:{NAMES}) (?!─)"
COMMAND = re.compile(rf"(?m)^(?:\$ |(?={PROGRAM}))((?:.*\\\n)*.*)")


def pages():
    """Returns the pages of the repository, by their paths in it."""
    patterns = ("*.md", "docs/*.md", "tests/*.md", "clients/tests/*.md", "bench/**/*.md", "crates/*/*.md")
    return [str(path.relative_to(ROOT)) for each in patterns for path in sorted(ROOT.glob(each))]


def blocks(page):
    """Returns the blocks of a page that are set off, each as its text without the margin or the fences."""
    form = r"(?m)(?:^    .*\n)(?:(?:^ *\n)*^    .*\n)*|^```\n(?:(?!```).*\n)*```\n"
    found = re.findall(form, (ROOT / page).read_text(encoding="utf-8") + "\n")
    return [textwrap.dedent(each.removeprefix("```\n").removesuffix("```\n")) for each in found]


def commands(page):
    """Returns the commands of a page, each block as a list, as a reader would type them."""
    return [found for block in blocks(page) if (found := COMMAND.findall(block))]


def given(test, page):
    """Returns the commands of a page that a test is to run."""
    path = str(pathlib.Path(inspect.getfile(type(test))).resolve().relative_to(ROOT))
    name = test.id().rpartition(".")[2]
    beginnings = [beginning for where, beginning, *by in RUN if (where, *by) == (page, path, name)]
    return [each for each in sum(commands(page), []) if any(re.match(beginning, each) for beginning in beginnings)]
