"""What the reader makes of a page, which pages it refuses, and how a wrong reply is shown."""

import pathlib
import subprocess
import tempfile
import unittest

from tests import pages
from tests.test_pages import difference

PAGE = r"""A page, whose head has no form.

file a.mag
    magic
     a blank before it\t

    << end >>\

file b.mag
# A first case.
file b.mag
    its own
$ magicd "a b" c=d
$ magicd
%open a\r   | a opened
            |
 # x        |
a save      | a saved 1
            | \\ \xe9\x20
last\       |
status 2
message one
message and ...

# Another.
$ magicd
"""


def read(text):
    with tempfile.TemporaryDirectory() as folder:
        path = pathlib.Path(folder, "a.page")
        path.write_text(text, encoding="utf-8")
        return pages.read(path)


class PageReader(unittest.TestCase):
    def test_forms(self):
        first, second = read(PAGE)
        self.assertEqual((first.title, first.line), ("A first case.", 10))
        self.assertEqual(first.commands, [["magicd", "a b", "c=d"], ["magicd"]])
        file = b"magic\n a blank before it\t\n\n<< end >>"
        self.assertEqual(first.files, {"a.mag": file, "b.mag": b"its own\n"})
        self.assertEqual(second.files, {"a.mag": file, "b.mag": b""})
        self.assertEqual(first.script, b"%open a\r\n\n # x\na save\nlast")
        self.assertEqual(first.output, b"a opened\na saved 1\n\\ \xe9 \n")
        self.assertEqual((first.status, first.messages, first.more_messages), (2, b"one\nand ", True))
        self.assertEqual((second.script, second.output, second.status, second.messages), (b"", b"", 0, b""))

    def test_pages_that_are_refused(self):
        for text, fault in (
            ("head\n\n", "a.page: no case"),
            ("head\n\n$ magicd\n", "a.page:3: no title before it"),
            ("head\n\na | b\n", "a.page:3: no title before it"),
            ("head\n\n# title\n", "a.page:3: no command"),
            ("head\n\n# title\n$ magic\n", "a.page:4: another program"),
            ("head\n\n# title\n$ magicd\n%open a\n", "a.page:5: neither a row nor a word of pages"),
            ("head\n\n# title\n$ magicd\n\\q |\n", "a.page:5: no such escape: b'q'"),
            ("head\n\nfile a/b\n", "a.page:3: no name of a file"),
        ):
            with self.subTest(text), self.assertRaises(pages.PageFault) as raised:
                read(text)
            self.assertEqual(str(raised.exception), fault)

    def test_all_bytes_are_shown_and_read_back(self):
        for byte in range(256):
            for line in (bytes([byte]), b"a%c\n" % byte):
                self.assertEqual(pages.line_bytes(pages.shown(line)), line)

    def test_a_wrong_ending_is_shown(self):
        case = read(PAGE)[0]
        right = (2, case.output, b"one\nand more")
        self.assertEqual(difference(case, subprocess.CompletedProcess([], *right)), "")
        wrong = (1, b"a opened\na saved 2\n\\ \xe9 \n", b"one")
        shown = difference(case, subprocess.CompletedProcess([], *wrong)).split("\n")
        changed = [line for line in shown[3:] if not line.startswith(" ")]
        replies = ["-a saved 1", "+a saved 2"]
        expected = ["-status 2", "-message one", "-message and\\x20\\"]
        self.assertEqual(changed, [*replies, *expected, "+status 1", "+message one\\"])
