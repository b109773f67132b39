"""The page in Chromium: pixels are where the squares are, whatever is zoomed, dragged and edited."""

import json
import re
import tempfile
import unittest

from tests.chromium import HAVE_CHROMIUM, Chromium
from tests.etcds import free_port
from tests.serving import ROOT, PortCase
from tests.test_page import BAR, CrowdedCase, PageCase

# What is seen of poly, ndiff and m1, three tenths white, and of a mark's line.
POLY, NDIFF, M1, MARK = (77, 156, 201), (226, 142, 77), (77, 187, 158), (176, 0, 0)

# Returns left, top, right and bottom of the pixels of a colour in a part of the drawing, or nothing.
BOX = """(async ([red, green, blue], [left, top, right, bottom]) => {
    await new Promise((done) => requestAnimationFrame(() => requestAnimationFrame(done)));
    const canvas = document.getElementById("drawing"), {width, height} = canvas;
    const {data} = canvas.getContext("2d").getImageData(0, 0, width, height);
    const is = (at) => Math.abs(data[at] - red) < 3 && Math.abs(data[at + 1] - green) < 3 && Math.abs(data[at + 2] - blue) < 3;
    let box = null;
    right = Math.min(right, width);
    bottom = Math.min(bottom, height);
    for (let y = top; y < bottom; y++) for (let x = left; x < right; x++) if (is(4 * (y * width + x))) {
        box ??= [x, y, x + 1, y + 1];
        box = [Math.min(box[0], x), Math.min(box[1], y), Math.max(box[2], x + 1), Math.max(box[3], y + 1)];
    }
    return box;
})"""


def setUpModule():
    """Starts one browser for all tests."""
    if not HAVE_CHROMIUM:
        raise unittest.SkipTest("chromium isn't installed")
    DrawnCase.browser = Chromium()
    unittest.addModuleCleanup(DrawnCase.browser.close)


class DrawnCase(PageCase):
    browser = None

    def setUp(self):
        super().setUp()
        # The page before looks for its relay no more.
        self.browser.open("about:blank")
        self.browser.log.clear()
        self.browser.resize(1000, 600)

    def show(self, marks):
        """Opens the page, and waits for its first session with so many marks."""
        self.browser.open(self.address)
        self.wait_for_marks(marks)

    def wait_for_marks(self, marks):
        text = f"{marks} mark{'' if marks == 1 else 's'}"
        self.browser.until(f"document.querySelector('#facts span')?.textContent === '{text}'")

    def box(self, colour, within=(0, 0, 10000, 10000)):
        return self.browser.value(f"{BOX}({json.dumps(colour)}, {json.dumps(within)})")

    def boxes(self):
        return [self.box(colour) for colour in (POLY, NDIFF, M1)]

    def on_page(self, x, y):
        """Returns where a pixel of the drawing is on the page."""
        left, top = self.browser.value("(({x, y}) => [x, y])(document.getElementById('drawing').getBoundingClientRect())")
        return left + x, top + y

    def pixels_of(self, rect, scale, origin):
        """Returns where a rectangle is to be, from where the square 0 0 begins: up is up."""
        left, bottom, right, top = rect
        return [origin[0] + left * scale, origin[1] - top * scale, origin[0] + right * scale, origin[1] - bottom * scale]

    def assert_close(self, found, expected, most=1.01):
        self.assertEqual(len(found), len(expected))
        self.assertLessEqual(max(abs(one - other) for one, other in zip(found, expected)), most, (found, expected))

    def assert_quiet(self):
        """The page has reported nothing: no fault, and nothing that its policy forbids."""
        self.assertEqual(self.browser.log, [])


class Drawing(DrawnCase):
    # To the left of the bar's mark stands the bar.
    LAYOUT = [*BAR, "box 10 0 30 8", "paint m1", "box 5 12 9 16", "paint ndiff", "drc catchup"]

    def setUp(self):
        super().setUp()
        self.designer = self.draw("a", *self.LAYOUT)
        self.show(1)

    def check_places(self):
        """Compares the pixels of all layers with where the squares are, from those of m1, and returns the scale."""
        poly, ndiff, metal = self.boxes()
        scale = (metal[2] - metal[0]) / 20
        origin = metal[0] - 10 * scale, metal[3]
        self.assert_close(metal, self.pixels_of((10, 0, 30, 8), scale, origin))
        self.assert_close(poly, self.pixels_of((0, 0, 1, 10), scale, origin))
        self.assert_close(ndiff, self.pixels_of((5, 12, 9, 16), scale, origin))
        self.assert_close(self.box(MARK), self.pixels_of((1, 0, 2, 10), scale, origin))
        return scale

    def test_pixels_are_where_the_squares_are(self):
        self.check_places()
        self.assertEqual(self.browser.value("location.search"), "")
        self.assertIn("all checked", self.browser.text("#facts"))
        self.assert_quiet()

    def test_zoom_at_the_pointer(self):
        before = self.check_places()
        corner = self.box(M1)[2], self.box(M1)[1]
        for down in (-100, -100, 250):
            self.browser.wheel(*self.on_page(*corner), down)
            now = self.box(M1)
            self.assert_close((now[2], now[1]), corner)
        self.assertLess(self.check_places(), before * 0.95)
        self.browser.wheel(*self.on_page(*corner), -250)
        now = self.box(M1)
        self.assert_close((now[2], now[1]), corner)
        self.assertGreater(now[3] - now[1], 8 * before * 1.05)

    def test_as_far_out_as_the_world(self):
        for _ in range(40):
            self.browser.wheel(*self.browser.middle("#drawing"), 600)
        left, top, right, bottom = self.box((255, 255, 255))
        height = self.browser.value("document.getElementById('drawing').height")
        self.assertGreater(bottom - top, height * 0.8)
        self.assertLess(abs((bottom - top) - (right - left)), 3)

    def test_drag_and_fit(self):
        before = self.boxes()
        self.browser.drag(self.on_page(263, 200), self.on_page(200, 171))
        self.assert_close(self.box(M1), [before[2][0] - 63, before[2][1] - 29, before[2][2] - 63, before[2][3] - 29])
        self.browser.click("#fit")
        self.assertEqual(self.boxes(), before)
        for key in ("ArrowLeft", "ArrowUp", "+"):
            self.browser.press(key)
        self.assertNotEqual(self.boxes(), before)
        self.browser.press("f")
        self.assertEqual(self.boxes(), before)

    def test_two_fingers(self):
        before = self.box(M1)
        self.browser.pinch([self.on_page(x, 300) for x in (200, 400)], [self.on_page(x, 320) for x in (250, 350)])
        left, top, right, bottom = before
        halved = [250 + (left - 200) / 2, 320 + (top - 300) / 2, 250 + (right - 200) / 2, 320 + (bottom - 300) / 2]
        self.assert_close(self.box(M1), halved, most=2)

    def test_an_edit_moves_nothing(self):
        self.browser.wheel(*self.on_page(100, 100), 400)
        before = self.boxes()
        self.designer.ask("a box -90 -80 -70 -70", "a paint ndiff", "a box 40 40 41 60", "a paint poly", "a drc catchup")
        self.wait_for_marks(2)
        poly, _, metal = self.boxes()
        self.assertEqual(metal, before[2])
        self.assertEqual((poly[0], poly[3]), (before[0][0], before[0][3]))
        self.browser.press("f")
        self.assertNotEqual(self.box(M1), before[2])

    def test_over_a_mark_stands_its_rule(self):
        left, top, right, bottom = self.box(MARK)
        self.browser.hover(*self.on_page((left + right) / 2, (top + bottom) / 2))
        self.browser.until("!document.getElementById('tooltip').hidden")
        self.assertEqual(self.browser.text("#tooltip"), "poly width")
        self.assertRegex(self.browser.text("#place"), r"^1 [0-9]$")
        metal = self.box(M1)
        self.browser.hover(*self.on_page((metal[0] + metal[2]) / 2, (metal[1] + metal[3]) / 2))
        self.browser.until("document.getElementById('tooltip').hidden")
        self.assertRegex(self.browser.text("#place"), r"^(19|20) [34]$")

    def test_layers_are_switched(self):
        self.assertEqual(self.browser.text("#layers").split(), ["poly", "ndiff", "m1", "marks", "unchecked"])
        self.browser.click("#layers li:nth-child(3) input")
        self.assertEqual([each is None for each in self.boxes()], [False, False, True])
        self.browser.click("#layers li:nth-child(4) input")
        self.assertIsNone(self.box(MARK))
        self.browser.click("#layers li:nth-child(3) input")
        self.assertEqual([each is None for each in self.boxes()], [False, False, False])

    def test_the_scale_bar(self):
        scale = self.check_places()
        squares = int(self.browser.text("#length").split()[0])
        self.assertIn(squares, (1, 2, 5, 10))
        self.assertLess(abs(self.browser.value("document.getElementById('bar').offsetWidth") - squares * scale), 2)

    def test_the_next_mark_of_a_rule(self):
        self.designer.ask("a box 50 0 51 9", "a paint poly", "a box 100 0 110 2", "a paint m1", "a drc catchup")
        self.wait_for_marks(3)
        rules = self.browser.text("#rules").split("\n")
        self.assertEqual([each for each in rules if each], ["all", "3", "poly width", "2", "m1 width", "1"])
        middle = self.browser.value("(({width, height}) => [width / 2, height / 2])(document.getElementById('drawing'))")
        for row, squares in ((2, ["1 5"]), (2, ["51 4"]), (2, ["1 5"]), (3, ["105 2", "104 2"])):
            self.browser.click(f"#rules li:nth-child({row}) button")
            self.assertEqual(self.browser.text("#tooltip"), self.browser.text(f"#rules li:nth-child({row}) span"))
            self.browser.hover(*self.on_page(*middle))
            self.assertIn(self.browser.text("#place"), squares)


class Placed(DrawnCase):
    """In the cell are a bar of poly, 0 0 2 12, and one of m1, -4 0 -1 12."""

    words = ("--page", "0", f"inv={ROOT / 'examples/inv.mag'}")

    def test_own_paint_lies_over_a_cell(self):
        self.draw("a", "getcell inv 100 0", "getcell inv 120 0", "box 118 0 124 4", "paint ndiff", "drc catchup")
        self.browser.open(self.address)
        self.browser.until("document.querySelector('#facts .checked')")
        metal = self.box(M1)
        scale = (metal[3] - metal[1]) / 12
        origin = metal[0] - 96 * scale, metal[3]
        self.assert_close(metal, self.pixels_of((96, 0, 119, 12), scale, origin))
        self.assert_close(self.box(POLY), self.pixels_of((100, 0, 122, 12), scale, origin))
        right = [round(origin[0] + 110 * scale), 0, 10000, 10000]
        for _ in range(2):
            self.assert_close(self.box(POLY, right), self.pixels_of((120, 4, 122, 12), scale, origin))
            # Where ndiff isn't shown, there still is no poly.
            self.browser.click("#layers li:nth-child(2) input")
            self.browser.click("#layers li:nth-child(4) input")
        self.assertEqual(self.browser.text("#layers").split()[:4], ["poly", "ndiff", "m1", "marks"])


class Unchecked(DrawnCase):
    # Nothing is checked but by a designer's own command.
    words = ("--page", "0", "--workers", "0")

    def test_the_share_and_the_outline(self):
        designer = self.draw("a", "box 0 0 100 100", "paint m1", "drc catchup", "box 0 0 50 100", "drc check")
        self.browser.open(self.address)
        self.browser.until("document.getElementById('facts').textContent.includes('54 % unchecked')")
        self.assertNotIn("all checked", self.browser.text("#facts"))
        metal, outline = self.box(M1), self.box((85, 85, 85))
        # A check looks four squares beyond what is to be checked.
        scale = (metal[2] - metal[0]) / 100
        self.assert_close(
            outline, [metal[0] - 4 * scale, metal[1] - 4 * scale, metal[0] + 54 * scale, metal[3] + 4 * scale], most=2
        )
        designer.ask("a drc catchup")
        self.browser.until("document.getElementById('facts').textContent.includes('all checked')")
        self.assertIsNone(self.box((85, 85, 85)))


class Wide(DrawnCase):
    def test_a_bar_as_wide_as_the_world_and_a_square(self):
        self.browser.open(self.address)
        self.browser.until("document.getElementById('facts').textContent === 'there are no sessions yet'")
        self.assertEqual(self.browser.value("location.search"), "")
        self.draw("a", "box -1048576 0 1048576 1", "paint poly", "box 0 200000 1 200001", "paint m1", "drc catchup")
        self.browser.until("document.querySelector('#facts .checked')")
        left, top, right, bottom = self.box(MARK)
        canvas = self.browser.value("(({width, height}) => [width, height])(document.getElementById('drawing'))")
        # The world's width is seen, and the mark of one square, six pixels at least.
        self.assertGreater(right - left, canvas[0] * 0.8)
        scale = (right - left) / 2097152
        self.assertLess(abs((bottom - top) - 200000 * scale), 10)
        square = self.box(MARK, (0, 0, 10000, bottom - 10))
        self.assertGreaterEqual(min(square[2] - square[0], square[3] - square[1]), 5)
        self.assertLess(abs((square[0] + square[2]) / 2 - canvas[0] / 2), 4)


class Many(DrawnCase):
    def setUp(self):
        self.words = ("--page", "0", "--tech", str(self.technology()))
        super().setUp()

    def technology(self):
        folder = tempfile.TemporaryDirectory()
        self.addCleanup(folder.cleanup)
        path = f"{folder.name}/many.tech"
        with open(path, "w", encoding="ascii") as file:
            types = "".join(f" p{number % 4} t{number}\n" for number in range(63))
            file.write(f"tech\n many\nend\nplanes\n p0\n p1\n p2\n p3\nend\ntypes\n{types}end\ndrc\n width t0 2 \"t\"\nend\n")
        return path

    def test_63_types_look_different(self):
        self.draw("a", *(line for n in range(63) for line in (f"box {20 * n} 0 {20 * n + 9} 9", f"paint t{n}")), "drc catchup")
        self.show(0)
        self.browser.until("document.querySelectorAll('#layers li').length === 65")
        swatches = self.browser.value("[...document.querySelectorAll('#layers canvas')].map((each) => each.toDataURL())")
        self.assertEqual(len(set(swatches)), 65)
        self.assertEqual(self.browser.text("#layers").split()[:63], [f"t{number}" for number in range(63)])


class Crowded(CrowdedCase, DrawnCase):
    def test_rules_of_what_is_seen(self):
        self.show(20)
        self.browser.until("document.getElementById('unknown').textContent.startsWith('Zoom in')")
        self.assertEqual(self.browser.text("#rules").split(), ["all", "20"])
        left, top, right, bottom = self.box(MARK)
        for _ in range(6):
            self.browser.wheel(*self.on_page(left, top), -300)
        self.browser.until("document.querySelectorAll('#rules li').length === 6")
        self.assertIn("of what is seen", self.browser.text("#unknown"))
        self.assertEqual(self.browser.text("#rules li:nth-child(6)").split(), ["rule", "5", "1"])


class Sessions(DrawnCase):
    def test_64_sessions(self):
        client = self.client()
        for number in range(64):
            name = f"s{number}"
            bars = (line for bar in range(number % 7) for line in (f"{name} box {9 * bar} 0 {9 * bar + 1} 9", f"{name} paint poly"))
            client.ask(f"%open {name}", *bars, f"{name} drc catchup")
        self.browser.open(self.address)
        self.browser.until("document.querySelectorAll('#sessions button').length === 64")
        marks = "[...document.querySelectorAll('#sessions button span:last-child')].map((each) => parseInt(each.textContent))"
        expected = sorted((number % 7 for number in range(64)), reverse=True)
        self.browser.until(f"JSON.stringify({marks}) === '{json.dumps(expected, separators=(',', ':'))}'")
        name = self.browser.text("#sessions li:nth-child(5) button span")
        self.browser.click("#sessions li:nth-child(5) button")
        self.browser.until(f"document.getElementById('name').textContent === '{name}'")
        self.wait_for_marks(6)
        self.assertEqual(self.browser.text("#sessions [aria-current=true] span"), name)
        # Loaded again, the page has its token still, and shows the same session.
        self.browser.send("Page.reload")
        self.browser.until(f"performance.navigation.type === 1 && document.getElementById('name').textContent === '{name}'")

    def test_a_telephone_and_a_reader(self):
        self.draw("a", *BAR)
        self.browser.resize(390, 800)
        self.show(1)
        self.assertLessEqual(self.browser.value("document.documentElement.scrollWidth"), 390)
        self.assertIsNotNone(self.box(MARK))
        self.browser.click("#legend summary")
        self.browser.click("#table summary")
        self.browser.until("document.querySelector('#rows tr')")
        nodes = self.browser.send("Accessibility.getFullAXTree")["nodes"]
        named = {(node["role"]["value"], node.get("name", {}).get("value", "")) for node in nodes if not node["ignored"]}
        for expected in [
            ("image", "Layout of a: 1 mark, all checked, 3 of 4096 entries"), ("heading", "a"), ("button", "a 1 mark"),
            ("cell", "poly width"), ("columnheader", "left"), ("checkbox", "poly"), ("navigation", "Sessions"),
            ("complementary", "Marks"),
        ]:
            self.assertIn(expected, named)

    def test_two_colleagues(self):
        one, other = self.draw("a", *BAR), self.draw("b", *BAR)
        self.show(1)
        for count in (2, 3):
            for name, client in (("a", one), ("b", other)):
                client.ask(f"{name} box {20 * count} 0 {20 * count + 1} 9", f"{name} paint poly", f"{name} drc catchup")
            for row in (1, 2):
                marks = f"document.querySelector('#sessions li:nth-child({row}) span:last-child')?.textContent"
                self.browser.until(f"{marks} === '{count} marks'")
            self.wait_for_marks(count)
        self.assertIsNotNone(self.box(MARK))

    def test_keys_alone(self):
        self.draw("a", *BAR)
        self.draw("b", "box 0 0 4 4", "paint m1", "drc catchup")
        self.show(1)
        self.browser.until("document.querySelectorAll('#sessions button').length === 2")
        self.browser.press("Tab")
        self.browser.press("Tab")
        self.browser.press("Enter")
        self.browser.until("document.getElementById('name').textContent === 'b'")
        self.wait_for_marks(0)


class Lost(PortCase, DrawnCase):
    """The relay is killed, and started again with the same token, and with another one."""

    log = True

    def start(self, *words):
        super().start(*words, "--page", str(self.page_port))

    def setUp(self):
        self.page_port = free_port()
        super().setUp()

    def test_the_relay_ends_and_comes_back(self):
        designer = self.designer()
        designer.ask("%open a", *(f"a {line}" for line in BAR))
        self.show(1)
        self.browser.wheel(*self.on_page(200, 200), -100)
        before = self.box(MARK)
        self.kill()
        self.browser.until("!document.getElementById('trouble').hidden")
        self.assertIn("lost", self.browser.text("#trouble"))
        self.assertEqual(self.box(MARK), before)
        self.start()
        self.browser.until("document.getElementById('trouble').hidden")
        self.browser.until("document.querySelector('#sessions .away')")
        self.assertEqual(re.sub(r"\s+", " ", self.browser.text("#sessions")), "a: left; who owns it resumes it by @resume a")
        self.assertEqual(self.box(MARK), before)
        self.designer().ask("@resume a", "a box 20 0 21 10", "a paint poly", "a drc catchup")
        self.wait_for_marks(2)
        now = self.box(MARK)
        self.assertEqual((now[0], now[1]), (before[0], before[1]))
        self.kill()
        self.start("--new-token")
        self.browser.until("document.getElementById('trouble').textContent.includes('another token')")


if __name__ == "__main__":
    unittest.main()
