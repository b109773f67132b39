"""What CLIENTS.md and OPERATING.md have typed where Magic has a window does what they show."""

import re
import subprocess
import unittest

from tests.test_commands import saved_text
from tests.typed import TypedCase, blocks, given
from tests.windows import Window, needs_window, open_display

# A wire, and another one too near to it and too narrow.
WIRES = "box values 0 0 30 4; paint m1", "box values 0 6 30 8; paint m1"


def said_after(command):
    """Returns what CLIENTS.md shows behind a command of Magic's console."""
    (rest,) = [each.partition(f"{command}\n")[2] for each in blocks("docs/CLIENTS.md") if f"{command}\n" in each]
    return [line.removeprefix("kolasieve: ") for line in re.match(r"(?:kolasieve: .*\n)*", rest)[0].splitlines()]


@needs_window
class PagesInMagic(TypedCase):
    def test_what_is_typed_in_magic(self):
        self.folder = self.top
        compile_it, serve, source, connect, ask = given(self, "docs/CLIENTS.md")
        self.assertEqual(self.ended(compile_it)[1], 0)
        server = self.start_relay(serve)
        self.until(lambda: list(self.home.glob(f".kolasieve-{self.port}.address")))
        window = Window(self, HOME=str(self.home))
        first, second = WIRES
        window.tell(f"drc off; load amp; {first}")
        window.tell(source)
        window.tell(self.here(connect))
        (opened,) = said_after(connect)
        window.says(opened)
        # The paint is what is done last in the window, over which the mouse is.
        window.show(-5, -5, 35, 15)
        window.click(1, 15, 12)
        window.tell(second)

        def is_shown():
            window.said = []
            window.tell(ask)
            return window.said == said_after(ask)

        self.assertEqual(len(said_after(ask)), 2)
        self.until(is_shown, 0.25)
        self.assertEqual(len(window.marks()), 2)
        window.mouse("key", "u")
        self.until(lambda: window.marks() == {}, 0.25)
        server.terminate()
        self.assertEqual(server.wait(60), 0)

    def test_saved_text_in_a_window(self):
        (command,) = given(self, "docs/OPERATING.md")
        (self.top / "ben.mag").write_text(saved_text())
        self.variables["DISPLAY"] = open_display(self)
        with open(self.messages, "w", encoding="utf-8") as messages:
            self.start(command, stdin=subprocess.DEVNULL, stdout=messages, stderr=messages)
        search = {"args": ["xdotool", "search", "--name", "ben"], "env": {"DISPLAY": self.variables["DISPLAY"]}}
        self.until(lambda: subprocess.run(**search, capture_output=True, check=False).stdout)


if __name__ == "__main__":
    unittest.main()
